"""A plain model of a balancer, for the tests that draw or change whole configurations: `read` reads one, and a `Balancer`
answers the lines of a script. It looks for nothing quickly, and keeps its parts as the documents name them.

It knows the keywords that these tests use, and PROXY headers of version 1. What it does not know it refuses; it names the
fault of a text (`Refused`) only where these tests ask for it."""
import ipaddress
import pathlib
import re
import sys

sys.path.insert(0, str(pathlib.Path(__file__).resolve().parent / 'replay'))
import servers  # noqa: E402 (the choice of a server)
import tables  # noqa: E402 (the entries of a table)

NAME = re.compile(r'[A-Za-z0-9_.:-]+')
DIGITS = re.compile(r'[0-9]+')
LIMIT = 1 << 20
DEFAULT_LIMIT = 2000
HEADER_WAIT = 3000
GREATEST = (1 << 64) - 1
MOST_RETRIES = 100
MOST_INTERVAL = 86400000
MOST_CHECKS = 255
MOST_MOVES = 8
KEYWORDS = {'frontend': ('bind', 'maxconn', 'acl', 'tcp-request', 'use_backend', 'default_backend', 'stick-table'),
            'backend': ('balance', 'server', 'stick-table')}
SCALES = {'': 1, 'k': 1 << 10, 'm': 1 << 20}
METHODS = ('roundrobin', 'leastconn', 'source')
EXPECTATION = 'expect-proxy layer4'


class Refused(Exception):
    """A text that is refused, with the line that says so where it is known."""


class Frontend:
    def __init__(self, name, line):
        self.name, self.line, self.limit, self.limit_line = name, line, DEFAULT_LIMIT, line
        self.binds, self.acls, self.default = [], {}, None
        self.lists = {'connection': [], 'session': [], 'use': []}  # rules: line, action, condition


class Config:
    def __init__(self):
        self.frontends, self.backends = [], []
        self.tables = []  # the kind and the name of the section, the type, the size, what is stored and when entries expire

    def frontend(self, name):
        return next(frontend for frontend in self.frontends if frontend.name == name)

    def backend(self, name):
        return next(backend for backend in self.backends if backend.name == name)

    def table(self, name, kinds=('frontend', 'backend')):
        """The number of the table of that name, or None."""
        places = [place for place, (kind, section, *_) in enumerate(self.tables) if section == name and kind in kinds]
        return places[0] if places else None

    def binds(self):
        return {(frontend.name, *bind) for frontend in self.frontends for bind in frontend.binds}


def need(true, why=None):
    if not true:
        raise Refused(why)


def time_of(word):
    """The ms of digits and a unit."""
    digits, unit = re.fullmatch(r'([0-9]*)(.*)', word).groups()
    units = {'us': 1, '': 1000, 'ms': 1000, 's': 10**6, 'm': 60 * 10**6, 'h': 3600 * 10**6, 'd': 86400 * 10**6}
    need(unit in units)
    return number(str(-(-number(digits) * units[unit] // 1000)))


def number(word, least=0, most=GREATEST):
    need(DIGITS.fullmatch(word) and least <= int(word) <= most)
    return int(word)


def canonical(address):
    """An address as it is written in replies."""
    found = ipaddress.ip_address(address)
    if found.version == 4:
        return str(found)
    groups = ''.join('0' if group == '0000' else 'x' for group in found.exploded.split(':'))
    runs = sorted(re.finditer('00+', groups), key=lambda run: (run.start() - run.end(), run.start()))
    words = [f'{int(group, 16):x}' for group in found.exploded.split(':')]
    if not runs:
        return ':'.join(words)
    return ':'.join(words[:runs[0].start()]) + '::' + ':'.join(words[runs[0].end():])


def endpoint(word):
    """An endpoint as it is written, with its port."""
    found = re.fullmatch(r'(?:\[([0-9A-Fa-f:.]+)\]|([0-9.]+)):(0|[1-9][0-9]*)', word)
    need(found and int(found.group(3)) < 1 << 16)
    try:
        host = ipaddress.IPv6Address(found.group(1)) if found.group(1) else ipaddress.IPv4Address(found.group(2))
    except ValueError:
        raise Refused(None) from None
    return servers.endpoint(canonical(host), int(found.group(3)))


def bound(word):
    """The endpoint of a `bind` or `server` line."""
    found = endpoint(re.sub(r'^\*?:', '0.0.0.0:', word))
    need(not found.endswith(':0'))
    return found


def lines_of(text):
    """The words of each line of a text."""
    need(len(text) <= LIMIT, 'line 0: Text TooLong')
    lines = text.split(b'\n')
    lines = lines[:-1] if lines[-1] == b'' else lines
    for at, line in enumerate(lines, 1):
        line = line.removesuffix(b'\r')
        need(len(line) <= 2048, f'line {at}: Text TooLong')
        need(at < 65536, f'line {at}: Text TooManyLines')
        line = line.split(b'#')[0]
        need(not re.search(rb'["\'\\]', line), f'line {at}: Text Quoting')
        need(re.fullmatch(rb'[\t -~]*', line), f'line {at}: Text NotAscii')
    return [re.findall('[^ \t]+', line.split(b'#')[0].decode('ascii', 'replace').removesuffix('\r')) for line in lines]


def pattern(criterion, word):
    if criterion[0] == 'src':
        address, slash, bits = word.partition('/')
        try:
            need(not slash or re.fullmatch('0|[1-9][0-9]*', bits))
            return ipaddress.ip_network(word, strict=False)
        except ValueError:
            raise Refused(None) from None
    low, colon, high = word.partition(':')
    need(low or high)
    low = number(low) if low else 0
    return low, (low if not colon else number(high) if high else GREATEST)


def compared(operator, count):
    return {'eq': (count, count), 'ge': (count, GREATEST), 'gt': (count + 1, GREATEST), 'le': (0, count), 'lt': (0, count - 1)}[operator]


def criterion_of(word):
    found = re.fullmatch(r'(src|fe_conn|be_conn|src_conn_cur|src_conn_cnt|sc[012]_conn_cur|sc[012]_conn_cnt)(?:\(([A-Za-z0-9_.:-]+)\))?', word)
    need(found)
    name, argument = found.groups()
    need((argument is not None) if name == 'be_conn' else (argument is None or name in ('fe_conn', 'src_conn_cur', 'src_conn_cnt')))
    return name, argument


def read_test(words):
    """A criterion and the patterns, of which one has to hold."""
    need(len(words) > 1)
    criterion = criterion_of(words[0])
    if criterion[0] != 'src' and words[1] in ('eq', 'ge', 'gt', 'le', 'lt'):
        need(len(words) > 2)
        return criterion, [compared(words[1], number(word)) for word in words[2:]]
    return criterion, [pattern(criterion, word) for word in words[1:]]


def read_condition(words, acls, line):
    """Whether it is turned round, and its groups of terms, each with whether it is turned round: a name or a test."""
    if not words:
        return None
    need(words[0] in ('if', 'unless') and len(words) > 1)
    groups, rest, turned = [[]], words[1:], False
    while rest:
        word, *rest = rest
        marks = len(word) - len(word.lstrip('!'))
        turned, word = turned ^ (marks % 2 == 1), word.lstrip('!')
        if word in ('or', '||'):
            need(groups[-1] and not marks)
            groups.append([])
            continue
        if not word:
            continue
        if word == '{':
            need('}' in rest)
            term, rest = read_test(rest[:rest.index('}')]), rest[rest.index('}') + 1:]
        else:
            need(word in acls or word in ('TRUE', 'FALSE'), f'line {line}: Acl UnknownName')
            term = word
        groups[-1].append((turned, term))
        turned = False
    need(groups[-1] and not turned)
    return words[0] == 'unless', groups


def read_table(kind, name, words):
    found, stores = {}, set()
    need(len(words) % 2 == 0)
    for option, value in zip(words[::2], words[1::2]):
        need(option in ('type', 'size', 'store', 'expire') and option not in found)
        if option == 'store':
            need(all(count in ('conn_cur', 'conn_cnt') for count in value.split(',')))
            stores.update(count[5:] for count in value.split(','))
        else:
            found[option] = value
    expire = time_of(found.pop('expire')) if 'expire' in found else None
    need(expire != 0)
    need(set(found) == {'type', 'size'} and found['type'] in ('ip', 'ipv6'))
    scale = found['size'][-1] if found['size'][-1] in 'km' else ''
    size = number(found['size'].removesuffix(scale), 1) * SCALES[scale]
    need(size <= LIMIT)
    return kind, name, found['type'], size, frozenset(stores), expire or 0


def read_server(name, to, *options):
    found, flags, rest = {'weight': 1, 'maxconn': 0, 'inter': 2000, 'fall': 3, 'rise': 2}, set(), list(options)
    while rest:
        option = rest.pop(0)
        if option in found:
            need(rest)
            word = rest.pop(0)
            if option == 'inter':
                found[option] = time_of(word)
                need(1 <= found[option] <= MOST_INTERVAL)
            elif option in ('fall', 'rise'):
                found[option] = number(word, 1, MOST_CHECKS)
            else:
                found[option] = number(word, 0, 256 if option == 'weight' else LIMIT)
        else:
            need(option in ('disabled', 'send-proxy', 'send-proxy-v2', 'check'))
            flags.add(option)
    need(NAME.fullmatch(name))
    server = servers.Server(name, bound(to), found['weight'], found['maxconn'], 'disabled' in flags)
    return server, 2 if 'send-proxy-v2' in flags else 1 if 'send-proxy' in flags else 0, 'check' in flags


class Backend:
    """A backend with its servers, each with its line, the version of the header that it is sent and whether it is checked."""

    def __init__(self, name, line):
        self.name, self.line, self.method, self.servers, self.lines, self.headers = name, line, 'roundrobin', [], [], []
        self.checked, self.retries, self.redispatch = [], None, 0

    def moves(self):
        """How often a connection may be moved to another server."""
        retries = 3 if self.retries is None else self.retries
        if self.redispatch == 'last':
            return min(retries, 1)
        return min(retries // self.redispatch, MOST_MOVES) if self.redispatch else 0

    def identity(self, place):
        """What a server is known by through all versions."""
        return self.name, self.servers[place].name, self.servers[place].to

    def picks(self):
        """The choice among its servers, where nothing was used yet."""
        return servers.Backend(self.name, self.line, self.method, self.servers, None)


class Reader:
    def __init__(self):
        self.config, self.section, self.owed = Config(), None, []

    def line(self, at, words):
        keyword, *rest = words
        if keyword in KEYWORDS:
            need(len(rest) == 1 and NAME.fullmatch(rest[0]))
            own = self.config.frontends if keyword == 'frontend' else self.config.backends
            need(all(other.name != rest[0] for other in own), f'line {at}: Duplicate')
            need(len(own) < 64)
            self.section = keyword, (Frontend if keyword == 'frontend' else Backend)(rest[0], at)
            own.append(self.section[1])
            return
        need(keyword in ('timeout', 'retries', 'option') or any(keyword in words for words in KEYWORDS.values()), f'line {at}: UnknownKeyword')
        need(self.section, f'line {at}: NoSection')
        if keyword == 'timeout':
            need(rest and rest[0] in ('connect', 'client', 'server') and len(rest) == 2)
            time_of(rest[1])
            return
        if keyword == 'retries':
            need(len(rest) == 1)
            self.section[1].retries = number(rest[0], 0, MOST_RETRIES)
            return
        if keyword == 'option':
            need(rest and rest[0] == 'redispatch' and len(rest) <= 2)
            self.section[1].redispatch = number(rest[1], 0, MOST_RETRIES) if rest[1:] else 'last'
            return
        need(keyword in KEYWORDS[self.section[0]], f'line {at}: Unsupported')
        getattr(self, keyword.replace('-', '_'))(at, self.section[1], *rest)

    def bind(self, at, own, where, proxied=None):
        need(proxied in (None, 'accept-proxy'))
        need(all(bound(where) != other for frontend in self.config.frontends for other, _ in frontend.binds), f'line {at}: Duplicate')
        own.binds.append((bound(where), proxied is not None))

    def maxconn(self, at, own, count):
        own.limit, own.limit_line = number(count, 1, LIMIT), at

    def acl(self, at, own, name, *words):
        need(NAME.fullmatch(name) and name not in ('TRUE', 'FALSE', 'or'))
        own.acls.setdefault(name, []).append(self.test(at, own, read_test(words)))

    def tcp_request(self, at, own, of, action, *rest):
        need(of in ('connection', 'session'))
        if action.startswith('track-sc'):
            need(action[8:] in ('0', '1', '2') and rest and rest[0] == 'src')
            named = rest[1:2] == ('table',)
            need(not named or len(rest) > 2)
            action, rest = (int(action[8:]), rest[2] if named else None), rest[3 if named else 1:]
            self.owed.append((at, 'NoTable', lambda name=action[1]: self.table(own, name) is not None))
        elif action == 'expect-proxy':
            need(of == 'connection', f'line {at}: Unsupported')
            need(rest, f'line {at}: MissingWord')
            need(rest[0] == 'layer4', f'line {at}: Unsupported')
            action, rest = EXPECTATION, rest[1:]
        else:
            need(action in ('accept', 'reject'))
        own.lists[of].append((at, action, self.condition(at, own, rest)))

    def use_backend(self, at, own, name, *rest):
        own.lists['use'].append((at, name, self.condition(at, own, rest)))
        self.needs_backend(at, name)

    def default_backend(self, at, own, name):
        own.default = at, name

    def stick_table(self, at, own, *words):
        table = read_table(self.section[0], own.name, words)
        need(self.config.table(own.name) is None, f'line {at}: Duplicate')
        self.config.tables.append(table)

    def balance(self, at, own, method):
        need(method in METHODS)
        own.method = method

    def server(self, at, own, *words):
        need(len(words) > 1)
        server, header, is_checked = read_server(*words)
        need(all(other.name != server.name for other in own.servers), f'line {at}: Duplicate')
        need(len(own.servers) < 64)
        for part, value in (own.servers, server), (own.lines, at), (own.headers, header), (own.checked, is_checked):
            part.append(value)

    def condition(self, at, own, words):
        condition = read_condition(list(words), own.acls, at)
        for _, term in (term for group in (condition[1] if condition else []) for term in group):
            if not isinstance(term, str):
                self.test(at, own, term)
        return condition

    def test(self, at, own, test):
        """The test, which has to name what is there."""
        (name, argument), _ = test
        if name == 'be_conn':
            self.needs_backend(at, argument)
        elif name == 'fe_conn' and argument:
            self.owed.append((at, 'NoFrontend', lambda: any(other.name == argument for other in self.config.frontends)))
        elif name.startswith('src_'):
            self.owed.append((at, 'NoTable', lambda: self.table(own, argument) is not None))
            self.owed.append((at, 'NotStored', lambda: name[9:] in self.config.tables[self.table(own, argument)][4]))
        return test

    def table(self, own, name):
        """The number of the table that a line of a frontend means, or None."""
        place = self.config.table(own.name, ('frontend',)) if name in (None, own.name) else None
        return place if place is not None or name is None else self.config.table(name)

    def needs_backend(self, at, name):
        self.owed.append((at, 'NoBackend', lambda: any(backend.name == name for backend in self.config.backends)))

    def end(self):
        """The configuration, once all that its lines name is there."""
        need(self.config.frontends, 'line 0: NoFrontend')
        for frontend in self.config.frontends:
            self.owed.append((frontend.line, 'NoBind', lambda own=frontend: bool(own.binds)))
            if frontend.default:
                self.needs_backend(*frontend.default)
        for at, kind, is_there in sorted(self.owed, key=lambda owed: owed[0]):
            need(is_there(), f'line {at}: {kind}')
        return self.config


def read(text):
    """The configuration of a text, or `Refused`."""
    reader = Reader()
    for at, words in enumerate(lines_of(text), 1):
        if words:
            try:
                reader.line(at, words)
            except TypeError:  # a line of too few or too many words
                raise Refused(None) from None
    return reader.end()


class Version:
    def __init__(self, number_of_version, config, ids):
        self.number, self.config, self.ids = number_of_version, config, ids
        self.picks = {backend.name: backend.picks() for backend in config.backends}


class Connection:
    """An open connection: it waits for a header until it has a server, which is a backend's name, its own, and its address."""

    def __init__(self, frontend, serial, version, pair, accepted):
        self.frontend, self.name, self.version, self.pair, self.accepted = frontend, f'{frontend}.{serial}', version, pair, accepted
        self.bytes, self.tracks, self.server, self.is_up, self.end = b'', {}, None, False, ''
        self.is_expected = False  # whether a rule that was tried expects its header
        self.judged, self.lines = None, []  # the pair that was judged, and the line of each server that it was offered


def status(text):
    """What the bytes of a header of version 1 are: ('wait',), ('fault', kind, at) or ('whole', at, pair or None)."""
    for at, byte in enumerate(text[:6]):
        if byte != b'PROXY '[at]:
            return 'fault', 'NotProxy', at + 1
    end = text.find(b'\r\n')
    if end < 0 or end > 105:
        return ('wait',) if len(text) < 107 else ('fault', 'TooLong', 107)
    line = text[6:end].decode('latin-1')
    if line == 'UNKNOWN' or line.startswith('UNKNOWN '):
        return 'whole', end + 2, None
    family, *words = line.split(' ')
    if family not in ('TCP4', 'TCP6') or len(words) != 4:
        return 'fault', 'BadLine', end + 2
    kind = ipaddress.IPv6Address if family == 'TCP6' else ipaddress.IPv4Address
    try:
        source, to = (canonical(kind(word)) for word in words[:2])
    except ValueError:
        return 'fault', 'BadAddress', end + 2
    if not all(re.fullmatch('0|[1-9][0-9]{0,4}', word) and int(word) < 1 << 16 for word in words[2:]):
        return 'fault', 'BadPort', end + 2
    return 'whole', end + 2, (servers.endpoint(source, int(words[2])), servers.endpoint(to, int(words[3])))


def host_of(place):
    return place.rpartition(':')[0].strip('[]')


def port_of(place):
    return int(place.rpartition(':')[2])


def header_sent(form, source, to):
    """The header of that version that states a pair, in hexadecimal."""
    if form == 0:
        return '-'
    hosts = [ipaddress.ip_address(host_of(place)) for place in (source, to)]
    if form == 1:
        family = 'TCP4' if hosts[0].version == 4 else 'TCP6'
        return f'PROXY {family} {host_of(source)} {host_of(to)} {port_of(source)} {port_of(to)}\r\n'.encode().hex()
    block = b''.join(host.packed for host in hosts) + b''.join(port_of(place).to_bytes(2, 'big') for place in (source, to))
    family = 0x11 if hosts[0].version == 4 else 0x21
    return (b'\r\n\r\n\0\r\nQUIT\n\x21' + bytes([family]) + len(block).to_bytes(2, 'big') + block).hex()


class Balancer:
    def __init__(self, text):
        config = read(text)
        self.clock, self.names = 0, [frontend.name for frontend in config.frontends]
        self.listeners = [(place, proxied) for place, frontend in enumerate(config.frontends) for _, proxied in frontend.binds]
        self.serials, self.open, self.tables, self.versions = [0] * len(self.names), {}, {}, []
        self.ended = []  # the lines of `audit`
        self.down = set()  # what the servers that are down are known by
        self.add(1, config, {})

    def add(self, number_of_version, config, before):
        """Brings a configuration into force, where the tables before have those incarnations."""
        ids = [before.get(table, (number_of_version, place)) for place, table in enumerate(config.tables)]
        for id_of_table, (_, _, kind, size, stores, expire) in zip(ids, config.tables):
            if id_of_table not in before.values():
                self.tables[id_of_table] = tables.Table(kind, size, stores, expire)
        self.versions.append(Version(number_of_version, config, ids))

    def reload(self, text):
        try:
            config = read(text)
        except Refused as refused:
            return f'fault BadConfig {refused}'
        newest = self.versions[-1]
        if config.binds() != newest.config.binds():
            return 'fault BindChanged'
        self.add(newest.number + 1, config, dict(zip(newest.config.tables, newest.ids)))
        return f'reloaded {newest.number + 1}'

    def forget(self):
        needed = {self.versions[-1].number, *(one.version.number for one in self.open.values())}
        self.versions = [version for version in self.versions if version.number in needed]
        listed = {id_of_table for version in self.versions for id_of_table in version.ids}
        self.tables = {id_of_table: table for id_of_table, table in self.tables.items() if id_of_table in listed}

    def step(self, moment, verb, *words):
        """The answer to an event, of which a reload's text is the last word."""
        before, self.clock = self.clock, max(self.clock, moment)
        said = getattr(self, verb)(*words)
        if said.startswith('fault '):
            self.clock = before
        self.forget()
        return said

    def of_frontend(self, place):
        return sum(one.frontend == place for one in self.open.values())

    def of_backend(self, name):
        return sum(one.server is not None and one.server[0] == name for one in self.open.values())

    def of_server(self, backend, server):
        return sum(one.server == (backend, server.name, server.to) for one in self.open.values())

    def value(self, criterion, one, source):
        name, argument = criterion
        own = one.version.config.frontend(self.names[one.frontend])
        if name == 'src':
            return ipaddress.ip_address(source)
        if name == 'fe_conn':
            return self.of_frontend(one.frontend if argument is None else self.names.index(argument))
        if name == 'be_conn':
            return self.of_backend(argument)
        if name.startswith('src_'):
            return self.tables[self.table(one.version, own, argument)].count(source, name[9:], self.clock)
        if int(name[2]) not in one.tracks:
            return None
        id_of_table, key = one.tracks[int(name[2])]
        table = self.tables[id_of_table]
        return table.counts[key][name[9:]] if name[9:] in table.stores else None

    def table(self, version, own, name):
        """The incarnation of the table that a line of a frontend means."""
        place = version.config.table(own.name, ('frontend',)) if name in (None, own.name) else None
        return version.ids[version.config.table(name) if place is None else place]

    def is_true(self, condition, one, source, acls):
        if condition is None:
            return True
        turned, groups = condition
        holds = any(all(turned ^ self.holds(term, one, source, acls) for turned, term in group) for group in groups)
        return turned ^ holds

    def holds(self, term, one, source, acls):
        if term in ('TRUE', 'FALSE'):
            return term == 'TRUE'
        if isinstance(term, str):
            return any(self.holds(test, one, source, acls) for test in acls[term])
        criterion, patterns = term
        value = self.value(criterion, one, source)
        if value is None:
            return False
        if criterion[0] == 'src':
            return any(value.version == network.version and value in network for network in patterns)
        return any(low <= value <= high for low, high in patterns)

    def decides(self, of, one, source, made):
        """The line and the action of the first rule of a list that decides, or None; those before it track, or expect a header."""
        own = one.version.config.frontend(self.names[one.frontend])
        for line, action, condition in own.lists[of]:
            if self.tries(line, action, condition, one, source, made) and (action != EXPECTATION and not isinstance(action, tuple)):
                return line, action
        return None

    def tries(self, _line, action, condition, one, source, made):
        """Whether a rule applies; where it does it tracks, or expects a header."""
        own = one.version.config.frontend(self.names[one.frontend])
        applies = self.is_true(condition, one, source, own.acls)
        if applies and action == EXPECTATION:
            one.is_expected = True
        elif applies and isinstance(action, tuple):
            counter, name = action
            id_of_table = self.table(one.version, own, name)
            key = self.tables[id_of_table].key(source)
            if counter not in one.tracks and key and self.tables[id_of_table].track(key, self.clock):
                one.tracks[counter] = made[counter] = id_of_table, key
        return applies

    def accept(self, listener, peer, local):
        listener = int(listener)
        if listener >= len(self.listeners):
            return 'fault NoListener'
        place, proxied = self.listeners[listener]
        version = self.versions[-1]
        own = version.config.frontend(self.names[place])
        others = self.of_frontend(place)
        self.serials[place] += 1
        one = Connection(place, self.serials[place], version, (endpoint(peer), endpoint(local)), self.clock)
        self.open[one.name] = one
        made = {}
        if others >= own.limit:
            return self.refuse(one, 0, f'line {own.limit_line}', made)
        decided = self.decides('connection', one, host_of(one.pair[0]), made)
        if decided and decided[1] == 'reject':
            return self.refuse(one, 0, f'line {decided[0]}', made)
        if proxied or one.is_expected:
            return f'wait {one.name} used 0' + self.said_of(made)
        return self.choose(one, 0, one.pair, made)

    def choose(self, one, used, pair, made):
        own = one.version.config.frontend(self.names[one.frontend])
        source = host_of(pair[0])
        decided = self.decides('session', one, source, made)
        if decided and decided[1] == 'reject':
            return self.refuse(one, used, f'line {decided[0]}', made)
        chosen = self.decides('use', one, source, made) or own.default
        if chosen is None:
            return self.refuse(one, used, f'nobackend line {own.line}', made)
        backend = one.version.config.backend(chosen[1])
        one.judged = pair
        return self.offer(one, backend, used, made) or self.refuse(one, used, f'noserver line {backend.line}', made)

    def offer(self, one, backend, used, made):
        """The offer of a server that is not down and that the connection was not offered before, or None."""
        opened = [self.of_server(backend.name, server) for server in backend.servers]
        barred = {place for place, line in enumerate(backend.lines)
                  if line in one.lines or backend.checked[place] and backend.identity(place) in self.down}
        place = one.version.picks[backend.name].pick(host_of(one.judged[0]), opened, barred)
        if place is None:
            return None
        line, (source, to) = backend.lines[place], one.judged
        one.server = backend.identity(place)
        one.lines.append(line)
        one.end = f'src {source} line {line} '
        said = f'offer {one.name} used {used} line {line} to {backend.servers[place].to} src {source} dst {to}'
        return f'{said} send {header_sent(backend.headers[place], source, to)}' + self.said_of(made)

    def said_of(self, made):
        return ''.join(f' sc{counter}={version}.{place}/{key}' for counter, ((version, place), key) in sorted(made.items()))

    def finish(self, one, end):
        del self.open[one.name]
        for _, (id_of_table, key) in sorted(one.tracks.items()):
            self.tables[id_of_table].end(key, self.clock)
        self.ended.append(f'conn {one.name} real {one.pair[0]} {end}')

    def refuse(self, one, used, cause, made):
        self.finish(one, f'refuse {cause}')
        return f'refuse {one.name} used {used} {cause}' + self.said_of(made)

    def piece(self, name, text):
        one = self.open.get(name)
        if one is None or one.server is not None:
            return 'fault NoSuch' if one is None else 'fault NotWaiting'
        piece = b'' if text == '-' else bytes.fromhex(text)
        before, one.bytes = len(one.bytes), one.bytes + piece
        found = status(one.bytes)
        if found[0] == 'wait':
            return f'wait {name} used {len(piece)}'
        if found[0] == 'fault':
            return self.refuse(one, found[2] - before, f'header {found[1]}', {})
        return self.choose(one, found[1] - before, found[2] or one.pair, {})

    def connected(self, name):
        one = self.open.get(name)
        if one is None or one.server is None or one.is_up:
            return 'fault NoSuch' if one is None else 'fault NotOffered'
        one.is_up = True
        return f'up {name}'

    def failed(self, name):
        one = self.open.get(name)
        if one is None or one.server is None or one.is_up:
            return 'fault NoSuch' if one is None else 'fault NotOffered'
        backend = one.version.config.backend(one.server[0])
        other = self.offer(one, backend, 0, {}) if len(one.lines) <= backend.moves() else None
        return other or self.close(name, 'failed')

    def server(self, number_of_backend, place, how):
        """A server of the newest version is reported down or up."""
        found = self.reported(number_of_backend, place)
        if found is None:
            return 'fault NotChecked'
        (self.down.add if how == 'down' else self.down.discard)(found[:3])
        return f'marked line {found[3]} {how}'

    def reported(self, number_of_backend, place):
        """What the server of those numbers is known by, and its line, if it is there and checked."""
        backends, place = self.versions[-1].config.backends, int(place)
        backend = backends[int(number_of_backend)] if int(number_of_backend) < len(backends) else None
        if backend is None or place >= len(backend.servers) or not backend.checked[place]:
            return None
        return *backend.identity(place), backend.lines[place]

    def close(self, name, why):
        if name not in self.open:
            return 'fault NoSuch'
        self.finish(self.open[name], f'{self.open[name].end}closed {why}')
        return f'closed {name} {why}'

    def expire(self, name):
        one = self.open.get(name)
        if one is None or one.server is not None:
            return 'fault NoSuch' if one is None else 'fault NotWaiting'
        return self.refuse(one, 0, 'expired', {}) if one.accepted + HEADER_WAIT <= self.clock else 'fault NotDue'

    def ask(self, kind, place, more=None):
        """The answer to a question: numbers are those of the newest version, but for frontends."""
        version, place = self.versions[-1], int(place)
        if kind == 'frontend':
            return f'count {self.of_frontend(place) if place < len(self.names) else "none"}'
        if kind == 'entry':
            if place >= len(version.ids):
                return 'count none'
            table = self.tables[version.ids[place]]
            return f'count {table.count(canonical(more), "cur", self.clock)} {table.count(canonical(more), "cnt", self.clock)}'
        if place >= len(version.config.backends):
            return 'count none'
        backend = version.config.backends[place]
        if kind == 'backend':
            return f'count {self.of_backend(backend.name)}'
        return f'count {self.of_server(backend.name, backend.servers[int(more)]) if int(more) < len(backend.servers) else "none"}'


def answered(text, script):
    """The answers to the requests of a script, each a list of lines: an event with all of its lines, or a question."""
    balancer = Balancer(text)
    for line, *bars in script:
        words = line.split(' ')
        if words[0] == 'ask':
            yield balancer.ask(*words[1:])
        elif words[1] == 'reload':
            yield balancer.step(int(words[0]), 'reload', '\n'.join(bar[1:] for bar in bars).encode('utf-8', 'surrogateescape'))
        else:
            yield balancer.step(int(words[0]), *words[1:])
