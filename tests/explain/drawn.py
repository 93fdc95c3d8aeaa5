#!/usr/bin/env python3
"""`explain` of drawn configurations.

    tests/explain/drawn.py PROGRAM [CONFIGURATIONS]

Configurations of two tenants are drawn by a fixed seed, as tests/replay/reloads.py draws them, with conditions that are
near to what one connection finds, names of tests, tables of one entry, and lines with spaces, tabs and comments. Of each
one `explain` is asked for some connections, with whole, short, wrong and no headers. What has to be seen:

- the last line is what `replay` answers to the accept, and then to the header as a piece;
- the text is that of a plain model: the rules that tests/plain.py tries, each with whether it applies, what it does, and
  the values of its criteria before it; the header; the backend and its servers;
- where the reply cites a rule, that is the rule of which the text says last that it decides.

Prints what differs, or how many were tried; the exit status is 0 if nothing differs."""
import collections
import concurrent.futures
import itertools
import pathlib
import random
import re
import subprocess
import sys
import tempfile

sys.dont_write_bytecode = True
sys.path[:0] = [str(pathlib.Path(__file__).resolve().parent.parent), str(pathlib.Path(__file__).resolve().parent.parent / 'replay')]
import plain  # noqa: E402
import reloads  # noqa: E402 (what is drawn)

CONFIGURATIONS = 300
EACH = 4
STATUSES = {'offer': 0, 'refuse': 1, 'wait': 4}
HEADER = 'PROXY TCP{family} {source} {to} 4000 443\r\n'
# What has to be among what was tried, so that nothing is left out by the draw.
KINDS = {
    'a limit': r'^line \d+ maxconn \d+: 0 open, goes on$',
    'the default limit': r'^line \d+ frontend \w+: 0 open, goes on$',
    'a rule that does not apply': r': no$',
    'a rule that decides': r': yes, decides$',
    'a rule that expects a header': r': yes, a header is expected$',
    'a rule that tracks': r': yes, tracks \S+ in \w+$',
    'a rule that tracks nothing': r': yes, tracks nothing$',
    '`unless`': r' unless .*: yes',
    'no value': r'^  sc\d_conn_c.. none$',
    'a count of a source': r'^  src_conn_c..\(\w+\) [01]$',
    'a count of a backend': r'^  be_conn\(\w+\) 0$',
    'a count of a frontend': r'^  fe_conn\(\w+\) 0$',
    'the connection itself': r'^  fe_conn 1$',
    'a header': r'^header version 1, \d+ bytes: \d',
    'an IPv6 source in a header': r'^header version 1, \d+ bytes: \[',
    'the default backend': r'^backend .*, the default$',
    'a chosen backend': r'^backend \w+ line \d+$',
    'a server that is picked': r'^  line \d+ server .*: weight [1-9]\d*, 0 open: picked$',
    'a server that is disabled': r'^  line \d+ server .*: disabled$',
    'refused by a rule': r'^refuse \S+ used 0 line',
    'refused after a header': r'^refuse \S+ used [1-9]\d* line',
    'a wrong header': r'^refuse .* header NotProxy$',
    'no backend': r'^refuse .* nobackend line',
    'no server': r'^refuse .* noserver line',
    'a short header': r'^wait \S+ used [1-9]',
    'no header': r'^wait \S+ used 0',
}


class Tenant(reloads.Tenant):
    """A tenant whose conditions are true about as often as not where nothing else is open."""

    def draw_tables(self, draw):
        super().draw_tables(draw)
        for name, table in self.tables.items():
            if table and draw.random() < 0.5:
                self.tables[name] = table[0], 1, table[2]

    def tests(self, draw, turned=0.0):
        criteria = ['fe_conn', f'fe_conn({self.name})', f'fe_conn({"ab".replace(self.name, "")})', f'be_conn({self.name}q)']
        criteria += [f'sc{counter}_{count}' for counter in range(3) for count in ('conn_cur', 'conn_cnt')]
        criteria += [f'src_{count}({name})' for name, table in self.tables.items() for count in (table[2] if table else ())]
        if self.tables[self.name]:
            criteria += [f'src_{count}' for count in self.tables[self.name][2]]
        found = [f'{criterion} {draw.choice(["gt", "ge", "eq", "lt", "le"])} {draw.randrange(3)}' for criterion in criteria]
        found += [f'src {" ".join(draw.sample(reloads.SOURCES, 3))}' for _ in range(len(found) // 2)] + ['src 0.0.0.0/0', 'src ::/0 192.0.2.0/30']
        some = []
        for test in draw.sample(found, draw.choice([1, 1, 2, 3])):
            if draw.random() < 0.35:
                name = f'{self.name}-{draw.randrange(4)}'
                self.acls.append(f'acl {name} {test}')
                test = name
            else:
                test = draw.choice(['{ %s }', '{ %s }', 'TRUE { %s }', '{ %s } or FALSE']) % test
            some.append(draw.choice(['!', '! ']) * (draw.random() < max(turned, 0.2)) + test)
        return draw.choice(['if ', 'if ', 'unless ']) + draw.choice([' ', ' or ', ' || ']).join(some)

    def draw_rules(self, draw):
        self.acls = []
        super().draw_rules(draw)
        if not self.acls and draw.random() < 0.5:
            self.acls = [f'acl {self.name}-0 src 192.0.2.0/24']
        self.rules = [*self.acls, *self.rules]
        self.rules += [f'use_backend {self.name}q'] * (draw.random() < 0.1)


def spread(line, draw):
    """The same line with other spaces between its words, and perhaps a comment."""
    words = line.split(' ')
    spaces = [draw.choice([' ', ' ', ' ', '  ', '\t', ' \t ']) for _ in words[1:]] + ['']
    ends = draw.choice(['', '', '', ' ', '\r', ' # why', '# { src 10.0.0.1 }', '  #'])
    return draw.choice(['', '', '    ', '\t']) + ''.join(map(''.join, zip(words, spaces))) + (ends if words != [''] else '')


def criteria_of(condition, acls):
    """The criteria of a condition, once each, in the order in which it names them, by itself or by the name of a test."""
    found = []
    for _, term in itertools.chain.from_iterable(condition[1] if condition else []):
        tests = [term] if not isinstance(term, str) else acls.get(term, [])
        found += [criterion for criterion, _ in tests if criterion not in found]
    return dict.fromkeys(found)


def written(criterion):
    name, argument = criterion
    return name if argument is None else f'{name}({argument})'


class Explainer(plain.Balancer):
    """A balancer that says how it judges its first connection."""

    def __init__(self, text):
        super().__init__(text)
        self.quotes = [' '.join(words) for words in plain.lines_of(text)]
        self.lines, self.is_chosen = [], False

    def quote(self, line):
        return f'line {line} {self.quotes[line - 1]}'

    def tries(self, line, action, condition, one, source, made):
        own = one.version.config.frontend(self.names[one.frontend])
        values = [(criterion, self.value(criterion, one, source)) for criterion in criteria_of(condition, own.acls)]
        tracks = dict(one.tracks)
        applies = super().tries(line, action, condition, one, source, made)
        self.lines.append(f'{self.quote(line)}: {self.said_of_rule(action, applies, tracks, one)}')
        self.lines += [f'  {written(criterion)} {"none" if value is None else value}' for criterion, value in values]
        return applies

    def said_of_rule(self, action, applies, tracks, one):
        if not applies:
            return 'no'
        if action == plain.EXPECTATION:
            return 'yes, a header is expected'
        if not isinstance(action, tuple):
            self.is_chosen = action not in ('accept', 'reject')
            return 'yes, decides'
        begun = [track for counter, track in one.tracks.items() if counter not in tracks]
        if not begun:
            return 'yes, tracks nothing'
        ((_, place), key), = begun
        return f'yes, tracks {key} in {one.version.config.tables[place][1]}'

    def listener_of(self, own, local):
        """The place of a frontend's `bind` line that takes connections to an endpoint."""
        binds = [where for where, _ in own.binds]
        everywhere = f'{"[::]" if local.startswith("[") else "0.0.0.0"}:{plain.port_of(local)}'
        return next((binds.index(where) for where in (local, everywhere) if where in binds), 0)

    def explain(self, name, peer, local, header):
        """The lines of a connection, of which header are the bytes, or None; and the events of it."""
        config = self.versions[0].config
        own = config.frontend(name)
        place = self.listener_of(own, plain.endpoint(local))
        where, proxied = own.binds[place]
        listener = sum(len(other.binds) for other in config.frontends[:config.frontends.index(own)]) + place
        self.lines = [f'frontend {name} line {own.line} listener {where}' + ' accept-proxy' * proxied,
                      f'{self.quote(own.limit_line)}: 0 open, goes on']
        events = [f'0 accept {listener} {peer} {local}']
        said = self.step(0, 'accept', str(listener), peer, local)
        if said.startswith('wait ') and header is not None:
            said = self.judge(said.split(' ')[1], header)
            events.append(f'0 piece {config.frontends.index(own)}.1 {header.hex() or "-"}')
        self.lines += self.choice(config, said)
        return [*self.lines, said], events

    def judge(self, name, header):
        found = plain.status(header)
        if found[0] == 'whole':
            source, to = found[2] or self.open[name].pair
            self.lines.append(f'header version 1, {found[1]} bytes: {source} to {to}')
        return self.step(0, 'piece', name, header.hex() or '-')

    def choice(self, config, said):
        """The backend of a reply, with its servers."""
        given = next((one.server for one in self.open.values() if one.server), (None, None))
        refused = re.search('noserver line ([0-9]+)$', said.split(' sc')[0])
        for backend in config.backends:
            if backend.name == given[0] or refused and backend.line == int(refused[1]):
                yield f'backend {backend.name} line {backend.line}' + ', the default' * (not self.is_chosen)
                for line, server in zip(backend.lines, backend.servers):
                    yield f'  {self.quote(line)}: ' + self.said_of_server(server, server.name == given[1])

    def said_of_server(self, server, is_picked):
        return 'disabled' if server.disabled else f'weight {server.weight}, 0 open' + ': picked' * is_picked


def drawn_configuration(draw):
    tenants = [Tenant('a', 91, draw), Tenant('b', 92, draw)]
    return '\n'.join(spread(line, draw) for line in reloads.text_of(tenants, draw)).encode() + b'\n'


def drawn_header(draw):
    """The bytes of a header of version 1, or of something else, or None."""
    source = draw.choice(reloads.SOURCES)
    to, family = ('2001:db8::9', 6) if ':' in source else ('198.51.100.1', 4)
    whole = HEADER.format(family=family, source=source, to=to).encode()
    return draw.choice([None, whole, whole, whole, whole + b'hello', whole[:draw.randrange(len(whole))], b'GET / HTTP/1.1', b'PROXY UNKNOWN\r\nmore'])


def drawn_connections(draw):
    """Words of `explain`, and the bytes of the header."""
    for _ in range(EACH):
        name, is_six = draw.choice('ab'), draw.random() < 0.3
        port = {'a': 91, 'b': 92}[name]
        source = draw.choice([source for source in reloads.SOURCES if (':' in source) == is_six])
        local = f'[::1]:{port}00' if is_six else draw.choice([f'127.0.0.1:{port}00', f'127.0.0.1:{port}01', f'127.0.0.1:{port}01', '10.0.0.9:80'])
        yield name, plain.servers.endpoint(source, 4000), local, drawn_header(draw)


class Run:
    def __init__(self, program, room):
        self.program, self.room = program, pathlib.Path(room)

    def out(self, *words):
        done = subprocess.run([self.program, *map(str, words)], stdin=subprocess.DEVNULL, capture_output=True)
        return done.returncode, done.stdout.decode(errors='replace').split('\n'), done.stderr.decode(errors='replace')

    def tried(self, numbered):
        """What was written of the connections of a configuration, and what is wrong."""
        number, (text, connections) = numbered
        file, script = self.room / f'{number}.cfg', self.room / f'{number}.script'
        file.write_bytes(text)
        seen, wrong = [], []
        for name, peer, local, header in connections:
            expected, events = Explainer(text).explain(name, peer, local, header)
            script.write_text('\n'.join(events) + '\n')
            words = [name, peer, local, *(['--header', header.hex()] if header is not None else [])]
            status, lines, errors = self.out('explain', file, *words)
            answers = self.out('replay', file, script)[1]
            fault = fault_of(status, lines, errors, expected, answers)
            if fault:
                wrong.append(f'explain {" ".join(words)}: {fault}\n{text.decode()}')
            seen += lines[:-1]
        return seen, wrong


def fault_of(status, lines, errors, expected, answers):
    *shown, last, end = [''] * (2 - len(lines)) + lines
    if end or errors:
        return f'it ends with {end!r} and says {errors!r}'
    if last != answers[-2]:
        return f'the last line is\n{last}\nand replay answers\n{answers[-2]}'
    if status != STATUSES.get(last.split(' ')[0]):
        return f'status {status} of {last}'
    if [*shown, last] != expected:
        return 'it writes\n{}\nand not\n{}'.format('\n'.join([*shown, last]), '\n'.join(expected))
    cited = re.fullmatch(r'refuse \S+ used \d+ (line \d+)(?: sc.*)?', last)
    deciding = [line for line in shown if line.endswith(', decides')]
    if cited and not (deciding and deciding[-1].startswith(f'{cited[1]} tcp-request ') and shown.index(deciding[-1]) == last_rule(shown)):
        return f'{last} of {deciding}'
    return None


def last_rule(shown):
    """The place of the last line of a rule."""
    return max(place for place, line in enumerate(shown) if line.startswith('line '))


def main():
    draw = random.Random(86)
    count = int(sys.argv[2]) if len(sys.argv) > 2 else CONFIGURATIONS
    cases = []
    while len(cases) < count:
        text = drawn_configuration(draw)
        cases.append((text, list(drawn_connections(draw))))
    with tempfile.TemporaryDirectory() as room, concurrent.futures.ThreadPoolExecutor() as pool:
        results = list(pool.map(Run(str(pathlib.Path(sys.argv[1]).resolve()), room).tried, enumerate(cases)))
    lines = collections.Counter(line for seen, _ in results for line in seen)
    wrong = [what for _, wrong in results for what in wrong]
    if count >= CONFIGURATIONS:
        wrong += [f'{kind}: none was drawn' for kind, form in KINDS.items() if not any(re.search(form, line) for line in lines)]
    print('\n'.join(wrong[:5]) or f'{count} configurations, {lines.total()} lines')
    return 1 if wrong else 0


if __name__ == '__main__':
    sys.exit(main())
