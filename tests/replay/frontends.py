#!/usr/bin/env python3
"""A script of 200,000 events over 64 frontends, and its answers by the plain model of tests/plain.py.

Each frontend has a listener and a table of its own; some have two tables in common, some have a rule that expects a header,
and all share the backends. The tables are so small that most trackings of a new source give up an entry. Connections come
and go in no order, so that most of those that end are neither the oldest nor the newest, and every few thousand events some
frontends and backends are written anew and the text is reloaded while a hundred connections or more are open. All is drawn
by a fixed seed."""
import pathlib
import random
import sys

sys.path.insert(0, str(pathlib.Path(__file__).resolve().parent))
import reloads  # noqa: E402 (the files of a run)

plain = reloads.plain
EVENTS = 200_000
RELOADS = 40
MOST_OPEN = 160
FRONTENDS, BACKENDS, SHARED = 64, 62, 2
SOURCES = [f'192.0.2.{last}' for last in range(1, 25)] + [f'2001:db8::{last:x}' for last in range(1, 7)]


class Texts:
    """The sections of a text, some of which are drawn anew for the next one."""

    def __init__(self, draw):
        self.draw = draw
        self.proxied = [draw.random() < 0.3 for _ in range(FRONTENDS)]
        self.frontends = [self.frontend(number) for number in range(FRONTENDS)]
        self.backends = [self.backend(number) for number in range(BACKENDS)]
        self.shared = [self.table(f'backend t{number}') for number in range(SHARED)]

    def table(self, head):
        kind, size = self.draw.choice(['ip', 'ipv6']), self.draw.choice([2, 3, 5, 8])
        return [head, f'stick-table type {kind} size {size} store conn_cur,conn_cnt']

    def test(self):
        """A condition that holds now and then."""
        draw = self.draw
        return draw.choice([
            f'sc{draw.randrange(2)}_conn_cur gt {draw.randrange(1, 4)}', f'sc{draw.randrange(2)}_conn_cnt eq {draw.randrange(2, 9)}',
            f'src_conn_cur(t{draw.randrange(SHARED)}) gt 2', f'src_conn_cnt(f{draw.randrange(FRONTENDS)}) gt 3',
            f'fe_conn(f{draw.randrange(FRONTENDS)}) gt 4', f'be_conn(b{draw.randrange(BACKENDS)}) gt 3', f'src {draw.choice(SOURCES)}',
        ])

    def frontend(self, number):
        draw = self.draw
        lines = self.table(f'frontend f{number}')
        lines.append(f'bind 127.0.0.1:{9000 + number}' + ' accept-proxy' * self.proxied[number])
        lines.append('tcp-request connection track-sc0 src')
        if draw.random() < 0.3:
            lines.append(f'tcp-request session track-sc1 src table t{draw.randrange(SHARED)}')
        lines.append(f'tcp-request {draw.choice(["connection", "session"])} reject if {{ {self.test()} }}')
        if draw.random() < 0.3:
            expects = f'tcp-request connection {plain.EXPECTATION} {draw.choice(["if", "if", "unless"])} {{ {self.test()} }}'
            lines.insert(draw.choice([len(lines) - 1, len(lines)]), expects)
        lines.append(f'use_backend b{draw.randrange(BACKENDS)} if {{ {self.test()} }}')
        lines.append(f'default_backend b{draw.randrange(BACKENDS)}')
        return lines

    def backend(self, number):
        draw = self.draw
        lines = [f'backend b{number}', f'balance {draw.choice(plain.METHODS)}']
        for server in range(draw.choice([1, 2, 3])):
            lines.append(f'server s{server} 10.0.{number}.{server + 1}:80 weight {draw.choice([1, 2, 5])} maxconn {draw.choice([0, 0, 3])}')
        return lines

    def redraw(self):
        for number in self.draw.sample(range(FRONTENDS), 8):
            self.frontends[number] = self.frontend(number)
        for number in self.draw.sample(range(BACKENDS), 8):
            self.backends[number] = self.backend(number)

    def lines(self):
        return [line for section in [*self.frontends, *self.backends, *self.shared] for line in section]


class Drawn:
    """A script that is drawn, with its answers."""

    def __init__(self, draw):
        self.draw, self.texts, self.moment, self.requests = draw, Texts(draw), 0, []
        self.config = self.texts.lines()
        self.model = plain.Balancer('\n'.join(self.config).encode())

    def event(self, verb, *words):
        said = self.model.step(self.moment, verb, *words)
        self.requests.append(([' '.join([str(self.moment), verb, *words])], said))

    def reload(self):
        self.texts.redraw()
        lines = self.texts.lines()
        said = self.model.step(self.moment, 'reload', '\n'.join(lines).encode())
        assert said.startswith('reloaded '), said
        self.requests.append(reloads.reload(self.moment, lines, said))

    def piece(self, one):
        """A header of one source in two pieces, or all that is left of it."""
        source = SOURCES[int(one.name.split('.')[1]) % 24]
        rest = f'PROXY TCP4 {source} 198.51.100.1 4000 443\r\n'.encode()[len(one.bytes):]
        self.event('piece', one.name, rest[:self.draw.choice([9, len(rest), len(rest)])].hex())

    def step(self):
        draw, opened = self.draw, list(self.model.open)
        self.moment += draw.choice([0, 0, 0, 1, 20])
        if len(opened) > draw.randrange(MOST_OPEN // 2, MOST_OPEN):
            return self.event('close', draw.choice(opened), 'done')
        if not opened or draw.random() < 0.55:
            return self.accept()
        one = self.model.open[draw.choice(opened)]
        if one.server is None and draw.random() < 0.8:
            return self.piece(one)
        if draw.random() < 0.4:
            return self.event('close', one.name, draw.choice(['done', 'fault', 'stopped']))
        return self.event(draw.choice(['connected', 'connected', 'failed', 'expire']), one.name)

    def accept(self):
        source = self.draw.choice(SOURCES)
        local = '[::1]:80' if ':' in source else '127.0.0.1:80'
        self.event('accept', str(self.draw.randrange(FRONTENDS)), plain.servers.endpoint(source, 4000), local)


def main():
    drawn = Drawn(random.Random(64))
    for number in range(1, EVENTS + 1):
        if number % (EVENTS // RELOADS) == 0:
            drawn.reload()
        else:
            drawn.step()
    reloads.write(pathlib.Path(sys.argv[1]) / 'frontends-drawn', drawn.config, drawn.requests)


if __name__ == '__main__':
    main()
