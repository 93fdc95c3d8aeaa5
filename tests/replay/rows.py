#!/usr/bin/env python3
"""One frontend with more than 1,024 connections open at a time, and the answers by the plain model of tests/plain.py.

A list by keys has 1,024 items in places at the most, and closes up 2,064 places at once: so 1,023 to 1,025, 2,063 to 2,065 and
5,000 connections are opened. Every other one waits for its header, which comes once all are open; each tenth of these is no
header, and refused. Then all are closed. Headers and closes come in the order of the accepts, from the last one on, and in an
order that is drawn by a fixed seed."""
import collections
import pathlib
import random
import sys

sys.path.insert(0, str(pathlib.Path(__file__).resolve().parent))
import reloads  # noqa: E402 (the files of a run)

plain = reloads.plain
LIMIT = 5000
COUNTS = 1023, 1024, 1025, 2063, 2064, 2065, LIMIT
CONFIG = ['frontend f', 'bind 127.0.0.1:9000', 'bind 127.0.0.1:9001 accept-proxy', f'maxconn {LIMIT}', 'default_backend b', 'backend b',
          'server s0 10.0.0.30:80 weight 2', 'server s1 10.0.0.31:80']
SOURCE = '192.0.2.1'
HEADER = f'PROXY TCP4 {SOURCE} 198.51.100.1 4000 443\r\n'.encode().hex()
NO_HEADER = b'GET /'.hex()


class Counted(plain.Balancer):
    """The plain model for one frontend without a reload, which keeps the counts that it is asked for at each event."""

    def __init__(self, text):
        super().__init__(text)
        self.counts = collections.Counter()

    def of_frontend(self, place):
        return len(self.open)

    def of_server(self, backend, server):
        return self.counts[backend, server.name, server.to]

    def choose(self, one, *rest):
        said = super().choose(one, *rest)
        self.counts[one.server] += one.server is not None
        return said

    def finish(self, one, end):
        self.counts[one.server] -= one.server is not None
        super().finish(one, end)

    def forget(self):
        """There is one version."""


class Run:
    """A script, with its answers."""

    def __init__(self):
        self.model, self.requests = Counted('\n'.join(CONFIG).encode()), []

    def event(self, *words):
        self.requests.append(([' '.join(['0', *words])], self.model.step(0, *words)))

    def ask(self, *words):
        self.requests.append((['ask ' + ' '.join(words)], self.model.ask(*words)))

    def accept(self, listener):
        self.event('accept', str(listener), f'{SOURCE}:4000', '127.0.0.1:80')

    def of(self, count, order):
        """Opens so many, and closes them in an order of their names."""
        for at in range(count):
            self.accept(at % 2)
        self.ask('frontend', '0')
        if count == LIMIT:
            self.accept(0)
        waiting = [name for name, one in self.model.open.items() if one.server is None]
        for at, name in enumerate(order(waiting)):
            self.event('piece', name, NO_HEADER if at % 10 == 9 else HEADER)
        for place in range(2):
            self.ask('server', '0', str(place))
        for name in order(list(self.model.open)):
            self.event('close', name, 'done')
        self.ask('frontend', '0')


def main():
    draw, run = random.Random(1024), Run()
    for count in COUNTS:
        for order in (list, lambda names: names[::-1], lambda names: draw.sample(names, len(names))):
            run.of(count, order)
    reloads.write(pathlib.Path(sys.argv[1]) / 'many-rows', CONFIG, run.requests)


if __name__ == '__main__':
    main()
