#!/usr/bin/env python3
"""Long scripts with tables, and their answers by a plain model of them: two frontends, three small tables in common.

Sources of both families come, wait for headers, are refused and end, drawn by a fixed seed. The tables are so small that
they are full of tracked entries at times, and of free ones at others. In one script of 100,000 events their entries expire,
and moments stay, jump and go back."""
import pathlib
import random
import sys

STEPS = 3000
EXPIRY_STEPS = 100_000
MOST_OPEN = 12
JUMPS = [0, 0, 1, 1, 1, 2, 3, 9, 30, -4]  # ms from one event to the next
FOURS = [f'192.0.2.{last}' for last in range(1, 8)]
SIXES = ['2001:db8::1', '2001:db8::2', '::ffff:c000:201']
PEERS = ['10.0.0.1', '10.0.0.2']

# The tables in the order in which they are written: type, size and what is stored.
TABLES = {'f': ('ip', 4, ('cur', 'cnt')), 'g': ('ipv6', 3, ('cnt',)), 'all': ('ipv6', 6, ('cur', 'cnt'))}

# When their entries expire, in ms.
EXPIRES = {'f': 20, 'g': 1, 'all': 55}

# The rules of the frontends: the list, the action and the alternatives of the condition, each a criterion, an operator and
# a number. What is tracked is a counter and a table; a criterion is a counter or a table, and a count.
RULES = {
    'f': [
        ('connection', (0, 'f'), []),
        ('connection', (1, 'all'), []),
        ('connection', 'reject', [((0, 'cur'), 'gt', 2)]),
        ('connection', (0, 'g'), []),
        ('connection', 'reject', [((1, 'cnt'), 'eq', 5), ((0, 'cnt'), 'gt', 20)]),
        ('session', (2, 'f'), [(('all', 'cur'), 'gt', 1)]),
        ('session', 'reject', [((2, 'cnt'), 'eq', 6), (('all', 'cnt'), 'eq', 9)]),
        ('use', 'p', [((0, 'cnt'), 'gt', 3), (('g', 'cnt'), 'eq', 2)]),
    ],
    'g': [
        ('connection', (2, 'g'), []),
        ('connection', 'reject', [((2, 'cnt'), 'eq', 4), ((2, 'cur'), 'ge', 0)]),
        ('session', (2, 'g'), []),
        ('session', (0, 'all'), []),
        ('session', 'accept', [(('all', 'cnt'), 'lt', 2), ((2, 'cnt'), 'eq', 3)]),
        ('session', (1, 'f'), []),
        ('session', 'reject', [((1, 'cur'), 'gt', 1)]),
        ('use', 'p', [((0, 'cur'), 'gt', 1)]),
    ],
}
SERVERS = {'p': '10.0.1.1:80', 'q': '10.0.1.2:80'}
HOLDS = {'eq': int.__eq__, 'gt': int.__gt__, 'ge': int.__ge__, 'lt': int.__lt__}


def mapped(four):
    """An IPv4 address among those of IPv6."""
    a, b, c, d = (int(part) for part in four.split('.'))
    return f'::ffff:{a * 256 + b:x}:{c * 256 + d:x}'


def endpoint(source, port):
    return f'[{source}]:{port}' if ':' in source else f'{source}:{port}'


class Table:
    def __init__(self, kind, size, stores, expire=0):
        self.kind, self.size, self.stores, self.expire = kind, size, stores, expire
        self.counts = {}  # of each key, the one that was touched longest ago first

    def alive(self, moment):
        """The entries that are not gone by then."""
        return {key: counts for key, counts in self.counts.items()
                if counts['cur'] or not self.expire or counts['touch'] + self.expire > moment}

    def key(self, source):
        if self.kind == 'ip':
            return None if ':' in source else source
        return source if ':' in source else mapped(source)

    def count(self, source, kind, moment):
        return self.alive(moment).get(self.key(source), {'cur': 0, 'cnt': 0})[kind]

    def track(self, key, moment):
        """Whether the key is tracked once more."""
        self.counts = self.alive(moment)
        if key not in self.counts and len(self.counts) == self.size:
            free = [other for other, counts in self.counts.items() if counts['cur'] == 0]
            if not free:
                return False
            del self.counts[free[0]]
        counts = self.counts.pop(key, {'cur': 0, 'cnt': 0})
        self.counts[key] = {'cur': counts['cur'] + 1, 'cnt': counts['cnt'] + 1, 'touch': moment}
        return True

    def end(self, key, moment):
        counts = self.counts.pop(key)
        self.counts[key] = {**counts, 'cur': counts['cur'] - 1, 'touch': moment}


class Connection:
    def __init__(self, frontend, serial, pair):
        self.frontend, self.serial, self.pair, self.tracks = frontend, serial, pair, {}
        self.name = f'{list(RULES).index(frontend)}.{serial}'


class Model:
    def __init__(self, expires):
        self.expires = expires
        self.tables = {name: Table(*words, expires.get(name, 0)) for name, words in TABLES.items()}
        self.clock = 0  # the greatest moment so far
        self.lines, self.config = {}, []
        self.serials = dict.fromkeys(RULES, 0)
        self.script, self.answers = [], []
        for frontend, rules in RULES.items():
            binds = ['127.0.0.1:9000', '[::1]:9000'] if frontend == 'f' else ['127.0.0.1:9001 accept-proxy']
            self.config += [f'frontend {frontend}', *(f'bind {bind}' for bind in binds), self.stick_table(frontend)]
            for number, rule in enumerate(rules):
                self.config.append(self.rule(frontend, *rule))
                self.lines[frontend, number] = len(self.config)
            self.config.append('default_backend q')
        for backend, server in SERVERS.items():
            self.config += [f'backend {backend}', f'server s {server}']
            self.lines[backend] = len(self.config)
        self.config += ['backend all', self.stick_table('all')]

    def stick_table(self, name):
        kind, size, stores = TABLES[name]
        expire = f' expire {self.expires[name]}' if name in self.expires else ''
        return f'stick-table type {kind} size {size}{expire} store ' + ','.join(f'conn_{count}' for count in stores)

    def rule(self, frontend, rules, action, tests):
        """The line of a rule."""
        words = f'use_backend {action}' if rules == 'use' else f'tcp-request {rules} '
        if isinstance(action, tuple):
            words += f'track-sc{action[0]} src' + ('' if action[1] == frontend else f' table {action[1]}')
        elif rules != 'use':
            words += action
        return words + (' if ' if tests else '') + ' or '.join(self.test(*test) for test in tests)

    def test(self, criterion, operator, number):
        place, kind = criterion
        name = f'sc{place}_conn_{kind}' if isinstance(place, int) else f'src_conn_{kind}({place})'
        return f'{{ {name} {operator} {number} }}'

    def is_true(self, tests, connection, source):
        values = [(self.value(criterion, connection, source), operator, number) for criterion, operator, number in tests]
        return not tests or any(value is not None and HOLDS[operator](value, number) for value, operator, number in values)

    def value(self, criterion, connection, source):
        place, kind = criterion
        if isinstance(place, str):
            return self.tables[place].count(source, kind, self.clock)
        if place not in connection.tracks:
            return None
        name, key = connection.tracks[place]
        return self.tables[name].counts[key][kind] if kind in self.tables[name].stores else None

    def decision(self, rules, connection, source):
        """The action of the first rule of a list that decides, with its line, and what the rules before it track."""
        made = {}
        for number, (of, action, tests) in enumerate(RULES[connection.frontend]):
            if of != rules or not self.is_true(tests, connection, source):
                continue
            if not isinstance(action, tuple):
                return action, self.lines[connection.frontend, number], made
            counter, name = action
            key = self.tables[name].key(source)
            if counter not in connection.tracks and key and self.tables[name].track(key, self.clock):
                connection.tracks[counter] = made[counter] = name, key
        return None, 0, made

    def end(self, connection):
        for _, (name, key) in sorted(connection.tracks.items()):
            self.tables[name].end(key, self.clock)

    def answer(self, line, said, made):
        self.script.append(line)
        tracks = ((counter, list(TABLES).index(name), key) for counter, (name, key) in sorted(made.items()))
        self.answers.append(said + ''.join(f' sc{counter}=1.{number}/{key}' for counter, number, key in tracks))

    def accept(self, moment, listener, source, local):
        """The connection that an accept leaves open and waiting or offered, if it does."""
        frontend = 'g' if listener == 2 else 'f'
        self.serials[frontend] += 1
        connection = Connection(frontend, self.serials[frontend], (source, local))
        line = f'{moment} accept {listener} {endpoint(source, 4000)} {local}'
        action, cited, made = self.decision('connection', connection, source)
        if action == 'reject':
            self.end(connection)
            return self.answer(line, f'refuse {connection.name} used 0 line {cited}', made)
        if listener == 2:
            self.answer(line, f'wait {connection.name} used 0', made)
            return connection
        return self.choose(line, connection, source, local, 0, made)

    def choose(self, line, connection, source, local, used, made):
        """The same connection, if it is offered a server."""
        action, cited, more = self.decision('session', connection, source)
        made = {**made, **more}
        if action == 'reject':
            self.end(connection)
            return self.answer(line, f'refuse {connection.name} used {used} line {cited}', made)
        backend = self.decision('use', connection, source)[0] or 'q'
        pair = f'src {endpoint(source, 4000)} dst {local}'
        self.answer(line, f'offer {connection.name} used {used} line {self.lines[backend]} to {SERVERS[backend]} {pair} send -', made)
        return connection

    def header(self, moment, connection, source):
        """A whole header that declares the source, or none."""
        if source is None:
            text, (source, local) = 'PROXY UNKNOWN\r\n', connection.pair
        else:
            family, to = ('TCP6', '2001:db8::9') if ':' in source else ('TCP4', '198.51.100.1')
            text, local = f'PROXY {family} {source} {to} 4000 443\r\n', endpoint(to, 443)
        return self.choose(f'{moment} piece {connection.name} {text.encode().hex()}', connection, source, local, len(text), {})

    def close(self, moment, connection):
        self.end(connection)
        self.answer(f'{moment} close {connection.name} done', f'closed {connection.name} done', {})

    def ask(self, number, source):
        table = self.tables[list(TABLES)[number]]
        self.answer(f'ask entry {number} {source}', f'count {table.count(source, "cur", self.clock)} {table.count(source, "cnt", self.clock)}', {})


def run(model, draw, moments):
    """Draws the steps: what comes, waits and is open."""
    waiting, opened = [], []
    for moment in moments:
        model.clock = max(model.clock, moment)
        if len(waiting) + len(opened) >= draw.randrange(2, MOST_OPEN):
            among = draw.choice([some for some in (waiting, opened) if some])
            model.close(moment, among.pop(draw.randrange(len(among))))
        elif waiting and draw.random() < 0.5:
            declared = draw.choice([*FOURS, *SIXES, None])
            opened.append(model.header(moment, waiting.pop(draw.randrange(len(waiting))), declared))
        else:
            listener = draw.randrange(3)
            sources, local = [(FOURS, '127.0.0.1:9000'), (SIXES, '[::1]:9000'), (PEERS, '127.0.0.1:9001')][listener]
            (waiting if listener == 2 else opened).append(model.accept(moment, listener, draw.choice(sources), local))
        waiting, opened = ([one for one in some if one] for some in (waiting, opened))
        if draw.random() < 0.3:
            model.ask(draw.randrange(3), draw.choice(FOURS + SIXES + PEERS))


def jumping(draw):
    """The moments of the script in which entries expire."""
    moment = 0
    for _ in range(EXPIRY_STEPS):
        moment = max(moment + draw.choice(JUMPS), 0)
        yield moment


def main():
    for name, seed, expires, moments in (
        ('tables-drawn', 5, {}, range(STEPS)),
        ('expiry-drawn', 6, EXPIRES, jumping(random.Random(7))),
    ):
        model = Model(expires)
        run(model, random.Random(seed), moments)
        for suffix, lines in ('.cfg', model.config), ('.script', model.script), ('.answers', model.answers):
            (pathlib.Path(sys.argv[1]) / name).with_suffix(suffix).write_text('\n'.join(lines) + '\n')


if __name__ == '__main__':
    main()
