#!/usr/bin/env python3
"""Long scripts with reloads.

`reloads-drawn` has two tenants, each with a frontend, tables and backends of its own, in one configuration that is drawn
anew again and again: sections in another order, other rules and limits, rules that expect a header, tables that are kept,
changed, taken away and brought back, servers that come and go; between them texts that are refused. Connections of both
come, wait for headers over several reloads, are offered servers and end. All is drawn by a fixed seed, and answered by the
plain model of tests/plain.py. `reloads-alone-a` and `reloads-alone-b` are the events of one of the tenants with the reloads
that were accepted: it is answered there as it was beside the other one.

The others are long and plain: a hundred versions with one connection each, and texts at the limits of their length."""
import itertools
import pathlib
import random
import sys

sys.path.insert(0, str(pathlib.Path(__file__).resolve().parent.parent))
import plain  # noqa: E402

STEPS = 2600
MOST_OPEN = 24
REFUSALS = [['nonsense'], ['tcp-request connection reject if nobody'], ['default_backend nobody'], ['acl near src "10.0.0.0/8"'],
            ['tcp-request session expect-proxy layer4']]
SOURCES = [f'192.0.2.{last}' for last in range(1, 7)] + ['2001:db8::1', '2001:db8::2']
LONGEST_TEXT = 1 << 20
MOST_LINES = 65535
LONGEST_LINE = 2048
LONGEST_SCRIPT_LINE = 131200
MOST_SCRIPT_LINES = 1000000
BASE = ['frontend f', 'bind 127.0.0.1:9000', 'default_backend b', 'backend b', 'server s 10.0.0.30:80']
OFFER = 'used {used} line {line} to {to} src {source} dst 127.0.0.1:9000 send -'


class Tenant:
    """The sections of one tenant. All names begin with that of the tenant."""

    def __init__(self, name, port, draw):
        self.name, self.port = name, port
        self.tables = {name: None, f'{name}t': None}  # type, size and what is stored
        for part in (self.draw_tables, self.draw_tables, self.draw_servers, self.draw_rules):
            part(draw)

    def redraw(self, draw):
        for part in draw.sample([self.draw_tables, self.draw_servers, self.draw_rules], draw.randrange(1, 3)):
            part(draw)
        self.draw_rules(draw)  # rules name the tables that are there

    def draw_tables(self, draw):
        name = draw.choice(list(self.tables))
        stores = draw.choice([('conn_cur', 'conn_cnt'), ('conn_cur', 'conn_cnt'), ('conn_cur',), ('conn_cnt',)])
        drawn = draw.choice(['ip', 'ipv6']), draw.choice([2, 3, 4, 6]), stores
        self.tables[name] = draw.choice([None, drawn, drawn, drawn])

    def draw_servers(self, draw):
        self.backends = {}
        for name in f'{self.name}p', f'{self.name}q':
            lines = [f'balance {draw.choice(["roundrobin", "leastconn", "source"])}'] if draw.random() < 0.8 else []
            lines += draw.choice([[], [], ['retries 1'], ['retries 3'], ['retries 9']])
            lines += draw.choice([[], ['option redispatch'], ['option redispatch 1'], ['option redispatch 1'], ['option redispatch 2']])
            for number in sorted(draw.sample(range(4), draw.choice([0, 1, 2, 3, 3, 4]))):
                weight, limit = draw.choice([1, 1, 2, 5, 3, 0]), draw.choice([0, 0, 0, 2, 3])
                options = [f'weight {weight}'] * (weight != 1) + [f'maxconn {limit}'] * (limit > 0)
                options += ['disabled'] * (draw.random() < 0.1) + draw.sample(['send-proxy', 'send-proxy-v2'], draw.choice([0, 0, 1]))
                options += draw.choice([[], ['check'], ['check', 'inter 5s', 'fall 2'], ['rise 4', 'check'], ['fall 9']])
                lines.append(' '.join([f'server s{number} 10.{self.port}.0.{number + draw.choice([1, 1, 1, 11])}:80', *options]))
            self.backends[name] = lines

    def tests(self, draw, turned=0.0):
        """A condition on what is there, turned round with that chance, as its parts are."""
        found = ['{ fe_conn gt %d }' % draw.randrange(7, 14), f'{{ fe_conn({self.name}) ge {draw.randrange(7, 14)} }}',
                 f'{{ be_conn({self.name}p) ge {draw.randrange(4, 9)} }}', '{ src %s 2001:db8::/127 }' % draw.choice(SOURCES[:6])]
        found += [f'{{ sc{counter}_{count} {operator} {draw.randrange(1, 7)} }}'
                  for counter in range(2) for count in ('conn_cur', 'conn_cnt') for operator in ('gt', 'eq')]
        for name, table in self.tables.items():
            found += [f'{{ src_{count}({name}) gt {draw.randrange(1, 6)} }}' for count in (table[2] if table else ())]
        some = ['!' * (draw.random() < turned) + test for test in draw.sample(found, draw.choice([1, 1, 2]))]
        return ('unless ' if draw.random() < turned else 'if ') + draw.choice([' ', ' or ']).join(some)

    def draw_rules(self, draw):
        rules = {'connection': [], 'session': []}
        for of, made in rules.items():
            for counter, name in draw.sample(list(itertools.product(range(3), self.tables)), 3):
                if self.tables[name]:
                    made.append(f'track-sc{counter} src' + ('' if name == self.name else f' table {name}'))
            for _ in range(draw.randrange(3)):
                action, turned = draw.choice([('reject', 0.05), ('reject', 0.05), ('accept', 0.4)])
                made.insert(draw.randrange(len(made) + 1), f'{action} {self.tests(draw, turned)}')
        first = rules['connection']
        for _ in range(draw.choice([0, 0, 1, 1, 2])):
            condition = '' if draw.random() < 0.2 else f' {self.tests(draw, 0.3)}'
            first.insert(draw.randrange(len(first) + 1), plain.EXPECTATION + condition)
        self.rules = [f'tcp-request {of} {rule}' for of, made in rules.items() for rule in made]
        self.rules += [f'use_backend {self.name}q {self.tests(draw, 0.4)}' for _ in range(draw.randrange(2))]
        self.rules += [f'default_backend {self.name}p'] * (draw.random() < 0.95)
        self.rules += [f'maxconn {draw.randrange(5, 14)}'] * (draw.random() < 0.4)

    def table(self, name):
        """The line of a table, if it is there."""
        if self.tables[name] is None:
            return []
        kind, size, stores = self.tables[name]
        return [f'stick-table type {kind} size {size} store {",".join(stores)}']

    def sections(self, draw):
        binds = [f'bind 127.0.0.1:{self.port}00', f'bind 127.0.0.1:{self.port}01 accept-proxy']
        yield [f'frontend {self.name}', *draw.sample(binds, 2), *self.table(self.name), *self.rules]
        yield [f'backend {self.name}t', *self.table(f'{self.name}t')]
        for name, lines in self.backends.items():
            yield [f'backend {name}', *lines]


def text_of(tenants, draw):
    """The lines of a text of the sections of all tenants, in a drawn order, with lines between them that mean nothing."""
    sections = [section for tenant in tenants for section in tenant.sections(draw)]
    draw.shuffle(sections)
    lines = [line for section in sections for line in [*section, *draw.choice([[], [], [''], ['', '# more below']])]]
    return lines


class Drawn:
    """A script that is drawn, with its answers; each request has its tenant, or None for a reload."""

    def __init__(self, draw):
        self.draw, self.tenants = draw, [Tenant('a', 91, draw), Tenant('b', 92, draw)]
        self.config = text_of(self.tenants, draw)
        self.model = plain.Balancer('\n'.join(self.config).encode())
        self.moment, self.requests = 0, []

    def add(self, tenant, lines, answer):
        assert 'None' not in answer, (lines, answer)
        self.requests.append((tenant, lines, answer))

    def event(self, tenant, verb, *words):
        said = self.model.step(self.moment, verb, *words)
        self.add(tenant, [' '.join([str(self.moment), verb, *words])], said)

    def reload(self, lines):
        said = self.model.step(self.moment, 'reload', '\n'.join(lines).encode())
        self.add(None, [f'{self.moment} reload {len(lines)}', *('|' + line for line in lines)], said)

    def drawn_reload(self):
        kept = [(dict(tenant.tables), tenant.backends, tenant.rules) for tenant in self.tenants]
        for tenant in self.draw.sample(self.tenants, self.draw.choice([0, 1, 1, 2])):
            tenant.redraw(self.draw)
        lines, chance = text_of(self.tenants, self.draw), self.draw.random()
        if chance < 0.15:
            at = next(place for place, line in enumerate(lines) if line.startswith('frontend ')) + 1
            lines[at:at] = self.draw.choice(REFUSALS)
            lines = [line for line in lines if not (line.startswith('default_backend a') or line.startswith('default_backend b'))]
        elif chance < 0.25:
            lines = [line.replace('00', '02') if line.startswith('bind ') else line for line in lines]
        self.reload(lines)
        if not self.requests[-1][2].startswith('reloaded '):
            for tenant, (tables, backends, rules) in zip(self.tenants, kept):
                tenant.tables, tenant.backends, tenant.rules = tables, backends, rules

    def accept(self):
        tenant, proxied = self.draw.choice(self.tenants).name, self.draw.random() < 0.6
        listener = self.model.listeners.index((self.model.names.index(tenant), proxied))
        source = self.draw.choice(SOURCES)
        local = '[::1]:80' if ':' in source else '127.0.0.1:80'
        self.event(tenant, 'accept', str(listener), plain.servers.endpoint(source, 4000), local)

    def piece(self, one):
        """Some more of a header, or the rest of it; one connection always gets the same header."""
        source = SOURCES[int(one.name.split('.')[1]) % len(SOURCES)]
        to = '2001:db8::9' if ':' in source else '198.51.100.1'
        header = f'PROXY TCP{6 if ":" in source else 4} {source} {to} 4000 443\r\n'.encode()
        rest = header[len(one.bytes):]
        wrong = b'GET' if self.draw.random() < 0.1 else rest
        text = self.draw.choice([rest, rest, rest + b'hello', rest[:self.draw.randrange(len(rest) or 1)], wrong])
        self.event(self.model.names[one.frontend], 'piece', one.name, text.hex() or '-')

    def ask(self):
        """A question on what one of the tenants has in the newest configuration."""
        config, tenant = self.model.versions[-1].config, self.draw.choice(self.tenants).name
        backends = [number for number, backend in enumerate(config.backends) if backend.name.startswith(tenant)]
        tables = [number for number, table in enumerate(config.tables) if table[1].startswith(tenant)]
        asked = [['frontend', self.model.names.index(tenant)], ['backend', self.draw.choice(backends)],
                 ['server', self.draw.choice(backends), self.draw.randrange(4)]]
        asked += [['entry', self.draw.choice(tables), self.draw.choice(SOURCES)] for _ in range(3) if tables]
        words = [str(word) for word in self.draw.choice(asked)]
        self.add(tenant, [' '.join(['ask', *words])], self.model.ask(*words))

    def report(self):
        """A server is reported down or up, or a number that no server has."""
        config, tenant = self.model.versions[-1].config, self.draw.choice(self.tenants).name
        backends = [number for number, backend in enumerate(config.backends) if backend.name in (f'{tenant}p', f'{tenant}q')]
        how = self.draw.choice(['down', 'down', 'up'])
        self.event(tenant, 'server', str(self.draw.choice(backends)), str(self.draw.choice([0, 0, 1, 1, 2, 3, 4])), how)

    def step(self):
        opened, chance = list(self.model.open.values()), self.draw.random()
        self.moment += self.draw.choice([0, 1, 50, 400])
        if chance < 0.06:
            return self.drawn_reload()
        if chance < 0.22:
            return self.ask()
        if chance < 0.3:
            return self.report()
        if len(opened) > self.draw.randrange(4, MOST_OPEN):
            one = self.draw.choice(opened)
            return self.event(self.model.names[one.frontend], 'close', one.name, self.draw.choice(['done', 'fault', 'stopped']))
        if opened and chance < 0.6:
            one = self.draw.choice(opened)
            if one.server is None and self.draw.random() < 0.8:
                return self.piece(one)
            verb = self.draw.choice(['connected', 'failed', 'expire', 'failed'])
            return self.event(self.model.names[one.frontend], verb, one.name)
        return self.accept()


def write(file, config, requests, status=0, errors=None):
    """The files of a run, of pairs of the lines of a request and its answer."""
    file.with_suffix('.cfg').write_text('\n'.join(config) + '\n')
    file.with_suffix('.script').write_text(''.join(line + '\n' for lines, _ in requests for line in lines))
    file.with_suffix('.answers').write_text(''.join(answer + '\n' for _, answer in requests if answer is not None))
    file.with_suffix('.status').write_text(f'{status}\n')
    if errors:
        file.with_suffix('.errors').write_text(errors)


def reload(moment, lines, answer):
    return [f'{moment} reload {len(lines)}', *('|' + line for line in lines)], answer


def alone(drawn, tenant):
    """The requests of a tenant, with the reloads that were accepted, and the answers that they got beside the others."""
    requests = [(lines, answer) for whose, lines, answer in drawn.requests
                if whose == tenant or whose is None and answer.startswith('reloaded ')]
    answers = list(plain.answered('\n'.join(drawn.config).encode(), [lines for lines, _ in requests]))
    assert answers == [answer for _, answer in requests], 'the model answers a tenant alone otherwise'
    return requests


def version(number, size):
    return ['frontend f', 'bind 127.0.0.1:9000 accept-proxy', f'stick-table type ip size {size} store conn_cur,conn_cnt',
            'tcp-request connection track-sc0 src', 'tcp-request connection reject if { sc0_conn_cur gt 100 }',
            'default_backend b', 'backend b', f'server s 10.0.{number}.1:80']


def hundred(size_of, table_of):
    """A hundred reloads, with one connection before each of them and one after the last, which wait to the end. The table
    of a version has that size, and is that incarnation."""
    requests = []
    for number in range(1, 102):
        if number > 1:
            requests.append(reload(number, version(number, size_of(number)), f'reloaded {number}'))
        said, tracks = f'wait 0.{number} used 0', f' sc0={table_of(number)}.0/10.1.1.1'
        if number == 101 and table_of(101) == 1:
            said = f'refuse 0.{number} used 0 line 5'
        requests.append(([f'{number} accept 0 10.1.1.1:5000 127.0.0.1:9000'], said + tracks))
    last = 101 if table_of(101) == 101 else 100
    requests.append((['ask entry 0 10.1.1.1'], f'count {1 if last == 101 else 100} {1 if last == 101 else 101}'))
    for number in [*range(1, last + 1, 2), *range(last - last % 2, 0, -2)]:
        offer = OFFER.format(used=15, line=8, to=f'10.0.{number}.1:80', source='10.1.1.1:5000')
        requests.append(([f'200 piece 0.{number} {b"PROXY UNKNOWN".hex()}0d0a'], f'offer 0.{number} {offer}'))
    requests.append((['ask server 0 0'], f'count {1 if last == 101 else 0}'))
    requests.append((['ask backend 0'], f'count {last}'))
    for number in [*range(2, last + 1, 3), *range(1, last + 1, 3), *range(3, last + 1, 3)]:
        requests.append(([f'300 close 0.{number} done'], f'closed 0.{number} done'))
    requests.append((['ask entry 0 10.1.1.1'], f'count 0 {1 if last == 101 else 101}'))
    requests.append((['ask frontend 0'], 'count 0'))
    return version(1, size_of(1)), requests


def one_after_the_other():
    """A hundred reloads, each with a connection that ends before the next one: no version is kept."""
    requests = []
    for number in range(2, 102):
        requests.append(reload(number, version(number, 8), f'reloaded {number}'))
        requests.append(([f'{number} accept 0 10.1.1.1:5000 127.0.0.1:9000'], f'wait 0.{number - 1} used 0 sc0=1.0/10.1.1.1'))
        requests.append(([f'{number} close 0.{number - 1} done'], f'closed 0.{number - 1} done'))
        requests.append((['ask entry 0 10.1.1.1'], f'count 0 {number - 1}'))
    return version(1, 8), requests


def of_length(length):
    """The lines of a text of so many bytes, most of them comments of the greatest length."""
    rest = length - len('\n'.join(BASE))
    whole, more = divmod(rest, LONGEST_LINE + 1)
    return BASE + ['#' * LONGEST_LINE] * (whole - 1) + ['#' * (LONGEST_LINE - 10), '#' * (more + 9)]


def of_lines(count, last):
    return BASE + [''] * (count - len(BASE) - 1) + [last]


def greatest():
    """Texts at the limits of their length, of their lines, and of a line, and beyond them."""
    longest = of_length(LONGEST_TEXT)
    assert len('\n'.join(longest)) == LONGEST_TEXT
    wide = [*BASE[:2], '#'.ljust(LONGEST_LINE, 'x') + '\r', *BASE[2:]]
    requests = [
        reload(0, longest, 'reloaded 2'),
        (['0 accept 0 192.0.2.1:4000 127.0.0.1:9000'],
         'offer 0.1 ' + OFFER.format(used=0, line=5, to='10.0.0.30:80', source='192.0.2.1:4000')),
        reload(1, longest[:-1] + [longest[-1] + '#'], 'fault BadConfig line 0: Text TooLong'),
        reload(1, ['nonsense'] + longest, 'fault BadConfig line 0: Text TooLong'),
        reload(2, of_lines(MOST_LINES, '# the last'), 'reloaded 3'),
        reload(2, of_lines(MOST_LINES + 1, ''), 'reloaded 4'),
        reload(2, of_lines(MOST_LINES + 1, '# one more'), 'fault BadConfig line 65536: Text TooManyLines'),
        reload(2, of_lines(MOST_LINES + 2, ''), 'fault BadConfig line 65536: Text TooManyLines'),
        reload(2, of_lines(4 * MOST_LINES, 'nonsense'), 'fault BadConfig line 65536: Text TooManyLines'),
        reload(3, wide, 'reloaded 5'),
        reload(3, [*wide[:2], 'x' + wide[2], *wide[3:]], 'fault BadConfig line 3: Text TooLong'),
        reload(3, ['#' * (LONGEST_SCRIPT_LINE - 1), *BASE], 'fault BadConfig line 1: Text TooLong'),
        (['4 close 0.1 done'], 'closed 0.1 done'),
    ]
    return ['frontend f', 'bind 127.0.0.1:9000'], requests


def main():
    folder = pathlib.Path(sys.argv[1])
    drawn = Drawn(random.Random(18))
    for _ in range(STEPS):
        drawn.step()
    write(folder / 'reloads-drawn', drawn.config, [(lines, answer) for _, lines, answer in drawn.requests])
    for tenant in 'a', 'b':
        write(folder / f'reloads-alone-{tenant}', drawn.config, alone(drawn, tenant))
    write(folder / 'reloads-hundred-tables', *hundred(lambda number: number, lambda number: number))
    write(folder / 'reloads-hundred-kept', *hundred(lambda number: 8, lambda number: 1))
    write(folder / 'reloads-one-after-the-other', *one_after_the_other())
    write(folder / 'reloads-greatest', *greatest())
    short = ['frontend f', 'bind 127.0.0.1:9000']
    most = MOST_SCRIPT_LINES - 1
    write(folder / 'reloads-most-lines', short, [reload(0, [''] * most, 'fault BadConfig line 65536: Text TooManyLines')])
    write(folder / 'reloads-too-many-lines', short, [reload(0, [''] * (most + 1), None)], 1, f'line {most + 2}: TooLong')
    write(folder / 'reloads-too-long-line', short, [reload(0, [*short, '#' * LONGEST_SCRIPT_LINE], None)], 1, 'line 4: TooLong')


if __name__ == '__main__':
    main()
