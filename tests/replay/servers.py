#!/usr/bin/env python3
"""Long scripts with several servers, and their answers by a plain model of them.

`servers-drawn` has backends of each method, with weights, limits, disabled servers and two backends of the same servers.
Connections come, wait for headers, are offered a server, which takes them or is out of reach, and end; between them are
events that make no sense and questions. All is drawn by a fixed seed. `servers-many` has backends of 64 servers, all or one
of them of the greatest weight, which fill up, refuse, and are let free again, and backends of few servers of uneven
weights, in which more than half of a round is taken."""
import collections
import fractions
import ipaddress
import itertools
import pathlib
import random
import sys
import typing

STEPS = 4000
MANY = 64
GREATEST = 256
LOCALS = ['127.0.0.1:9000', '[::1]:9000', '127.0.0.1:9001']  # of the listeners: the third expects a header


class Server(typing.NamedTuple):
    """A server, with what its line says. Its open connections are those of its backend that were offered it."""
    name: str
    to: str
    weight: int = 1
    limit: int = 0
    disabled: bool = False
    send_proxy: bool = False

    def line(self):
        options = [f'weight {self.weight}'] if self.weight != 1 else []
        options += [f'maxconn {self.limit}'] if self.limit else []
        return ' '.join([f'server {self.name} {self.to}', *options, *['disabled'] * self.disabled, *['send-proxy'] * self.send_proxy])


ROUNDS = [Server('a', '10.9.0.1:80', 3), Server('b', '10.9.0.2:80', 2, 2), Server('c', '10.9.0.3:80', 0), Server('d', '10.9.0.4:80', 4, 0, True),
          Server('e', '10.9.0.5:80', 1, 1, send_proxy=True)]

# The backends in the order in which they are written: the method that is in force, the line that says so, and the servers.
# Above the first ones `defaults` says leastconn, above the others it says nothing.
INHERITING = {
    'inherited': ('leastconn', None, [Server('a', '10.9.1.1:80'), Server('b', '10.9.1.2:80'), Server('c', '10.9.1.3:80')]),
    'least': ('leastconn', 'leastconn', [Server('a', '10.9.2.1:80', 5), Server('b', '10.9.2.2:80', 1, 2), Server('c', '10.9.2.3:80', 3, 0, True),
                                         Server('d', '10.9.2.4:80', 2, 3), Server('e', '10.9.2.5:80', 0)]),
    'shares': ('source', 'source', [Server('a', '10.9.3.1:80', 2, 2), Server('b', '10.9.3.2:80', 0), Server('c', '10.9.3.3:80', 3, 3),
                                    Server('d', '10.9.3.4:80', 1, 1, True), Server('e', '10.9.3.5:80', 1, 2)]),
}
OTHERS = {
    'plain': ('roundrobin', None, [Server('a', '10.9.4.1:80', 2), Server('b', '[2001:db8:9::2]:80', 2), Server('c', '10.9.4.3:80')]),
    'rounds': ('roundrobin', 'roundrobin', ROUNDS),
    'twin': ('roundrobin', 'roundrobin', ROUNDS),
    'same_address': ('leastconn', 'leastconn', [Server('a', '10.9.0.1:80', 1, 2), Server('b', '10.9.0.1:80', 1, 1)]),
    'nobody': ('leastconn', 'leastconn', [Server('a', '10.9.5.1:80', 0), Server('b', '10.9.5.2:80', 1, 0, True)]),
    'empty': ('roundrobin', None, []),
}
BUSY = 'twin', 4  # a source of that backend goes to `plain` where more than so many of its connections are open


class Backend:
    def __init__(self, name, line, method, servers, first_line):
        self.name, self.line, self.method, self.servers, self.first_line = name, line, method, servers, first_line
        self.weights = [0 if server.disabled else server.weight for server in servers]
        turns = [(fractions.Fraction(2 * k + 1, weight), number) for number, weight in enumerate(self.weights) for k in range(weight)]
        self.round = [number for _, number in sorted(turns)]
        self.last = None  # the place of the round that was last used, or the server that was last offered

    def ready(self, number, opened, barred):
        server = self.servers[number]
        return number not in barred and self.weights[number] > 0 and (server.limit == 0 or opened[number] < server.limit)

    def pick(self, source, opened, barred=frozenset()):
        """The number of the server that a connection of that source gets, where so many are open to each and those are left
        out; or None."""
        if self.method == 'source':
            return self.of_source(source, opened, barred)
        if self.method == 'leastconn':
            ready = [number for number in self.going_round(len(self.servers)) if self.ready(number, opened, barred)]
            self.last = min(ready, key=lambda number: fractions.Fraction(opened[number], self.weights[number]), default=self.last)
            return self.last if ready else None
        place = next((place for place in self.going_round(len(self.round)) if self.ready(self.round[place], opened, barred)), None)
        self.last = self.last if place is None else place
        return None if place is None else self.round[place]

    def going_round(self, count):
        """So many places, from the one after the last on."""
        first = 0 if self.last is None else self.last + 1
        return itertools.chain(range(first, count), range(first))

    def of_source(self, source, opened, barred):
        mixed, address = 0, ipaddress.ip_address(source).packed
        for at in range(0, len(address), 4):
            mixed ^= int.from_bytes(address[at:at + 4], 'big')
        shares = [number for number, weight in enumerate(self.weights) for _ in range(weight) if number not in barred]
        number = shares[mixed % len(shares)] if shares else None
        return number if shares and self.ready(number, opened, barred) else None


class Connection:
    """An open connection: it waits for a header until it has a backend."""

    def __init__(self, frontend, serial, pair):
        self.name, self.pair = f'{frontend}.{serial}', pair
        self.backend = self.number = None
        self.is_up = False


def endpoint(source, port):
    return f'[{source}]:{port}' if ':' in source else f'{source}:{port}'


def header(source, local):
    """A header of version 1."""
    to, port = local.rsplit(':', 1)
    family = 'TCP6' if ':' in source else 'TCP4'
    return f'PROXY {family} {source} {to.strip("[]")} 4000 {port}\r\n'.encode()


class Model:
    def __init__(self):
        self.config, self.script, self.answers = [], [], []
        self.backends, self.opened, self.serials = {}, {}, [0, 0]

    def add_backend(self, name, method, says, servers):
        self.config += [f'backend {name}', *([f'balance {says}'] if says else [])]
        self.backends[name] = Backend(name, len(self.config) - bool(says), method, servers, len(self.config) + 1)
        self.config += [server.line() for server in servers]

    def answer(self, line, said):
        self.script.append(line)
        self.answers.append(said)

    def open_to(self, backend):
        """The open connections of each server of a backend."""
        counts = collections.Counter(one.number for one in self.opened.values() if one.backend == backend)
        return [counts[number] for number in range(len(self.backends[backend].servers))]

    def open_of(self, backend):
        return sum(self.open_to(backend))

    def accept(self, moment, listener, source, backend=None):
        """The connection, which waits where no backend is given yet."""
        frontend = listener // 2
        self.serials[frontend] += 1
        connection = Connection(frontend, self.serials[frontend], (source, LOCALS[listener]))
        line = f'{moment} accept {listener} {endpoint(source, 4000)} {LOCALS[listener]}'
        if backend is None:
            self.opened[connection.name] = connection
            return self.answer(line, f'wait {connection.name} used 0')
        return self.offer(line, connection, source, LOCALS[listener], 0, backend)

    def declare(self, moment, connection, source, backend):
        """A whole header that declares the source."""
        local = '[2001:db8::9]:443' if ':' in source else '198.51.100.1:443'
        text = header(source, local)
        self.offer(f'{moment} piece {connection.name} {text.hex()}', connection, source, local, len(text), backend)

    def offer(self, line, connection, source, local, used, name):
        backend = self.backends[name]
        number = backend.pick(source, self.open_to(name))
        if number is None:
            self.opened.pop(connection.name, None)
            return self.answer(line, f'refuse {connection.name} used {used} noserver line {backend.line}')
        connection.backend, connection.number = name, number
        self.opened[connection.name] = connection
        server = backend.servers[number]
        sent = header(source, local).hex() if server.send_proxy else '-'
        said = f'offer {connection.name} used {used} line {backend.first_line + number} to {server.to}'
        return self.answer(line, f'{said} src {endpoint(source, 4000)} dst {local} send {sent}')

    def connected(self, moment, name):
        self.answer(f'{moment} connected {name}', self.fault(name) or f'up {name}')
        if self.answers[-1] == f'up {name}':
            self.opened[name].is_up = True

    def failed(self, moment, name):
        self.answer(f'{moment} failed {name}', self.fault(name) or f'closed {name} failed')
        if self.answers[-1] == f'closed {name} failed':
            del self.opened[name]

    def fault(self, name):
        """Why a server can neither take the connection nor be out of reach for it."""
        if name not in self.opened:
            return 'fault NoSuch'
        connection = self.opened[name]
        return 'fault NotOffered' if connection.backend is None or connection.is_up else None

    def close(self, moment, name, why='done'):
        there = self.opened.pop(name, None)
        self.answer(f'{moment} close {name} {why}', f'closed {name} {why}' if there else 'fault NoSuch')

    def expire(self, moment, name):
        """An expiry of a connection that has a server."""
        self.answer(f'{moment} expire {name}', 'fault NotWaiting')

    def ask_frontend(self, number):
        count = sum(1 for name in self.opened if name.startswith(f'{number}.'))
        self.answer(f'ask frontend {number}', f'count {count if number < 2 else "none"}')

    def ask_backend(self, number):
        names = list(self.backends)
        self.answer(f'ask backend {number}', f'count {self.open_of(names[number])}' if number < len(names) else 'count none')

    def ask_server(self, number, place):
        names = list(self.backends)
        there = number < len(names) and place < len(self.backends[names[number]].servers)
        self.answer(f'ask server {number} {place}', f'count {self.open_to(names[number])[place]}' if there else 'count none')

    def write(self, file):
        for suffix, lines in ('.cfg', self.config), ('.script', self.script), ('.answers', self.answers):
            file.with_suffix(suffix).write_text('\n'.join(lines) + '\n')


def networks(number):
    return f'10.{number}.0.0/16 2001:db8:{number + 1:x}::/48'


def drawn_model():
    """Sources of 10.N.0.0/16 and 2001:db8:M::/48, where M is N + 1, go to the backend of number N, but for one that is
    busy."""
    model, names = Model(), [*INHERITING, *OTHERS]
    busy, most = BUSY
    ways = [f'use_backend plain if {{ src {networks(names.index(busy))} }} {{ be_conn({busy}) gt {most} }}']
    ways += [f'use_backend {name} if {{ src {networks(number)} }}' for number, name in enumerate(names) if name != 'plain']
    model.config += ['defaults', 'balance leastconn', 'frontend f', *(f'bind {local}' for local in LOCALS[:2]), *ways, 'default_backend plain',
                     'frontend g', f'bind {LOCALS[2]} accept-proxy', *ways, 'default_backend plain']
    for name, words in INHERITING.items():
        model.add_backend(name, *words)
    model.config.append('defaults')
    for name, words in OTHERS.items():
        model.add_backend(name, *words)
    return model


def way_of(model, number):
    """The backend of a source of that number."""
    name = list(model.backends)[number]
    busy, most = BUSY
    return 'plain' if name == busy and model.open_of(busy) > most else name


def drawn_source(draw, is_six):
    number, last = draw.randrange(len(INHERITING) + len(OTHERS)), draw.randrange(1, 40)
    return number, f'2001:db8:{number + 1:x}::{last:x}' if is_six else f'10.{number}.0.{last}'


def drawn_step(model, draw, moment):
    """One event."""
    opened = list(model.opened.values())
    chance = draw.random()
    waiting = [one for one in opened if one.backend is None]
    if len(opened) > draw.randrange(10, 60):
        return model.close(moment, draw.choice(opened).name, draw.choice(['done', 'fault', 'stopped', 'failed']))
    if opened and chance < 0.2:
        return model.connected(moment, draw.choice(opened).name)
    if opened and chance < 0.35:
        return model.failed(moment, draw.choice(opened).name)
    if waiting and chance < 0.6:
        number, source = drawn_source(draw, draw.random() < 0.4)
        return model.declare(moment, draw.choice(waiting), source, way_of(model, number))
    listener = draw.choice([0, 0, 1, 2])
    if listener == 2:
        return model.accept(moment, 2, '10.200.0.1')
    number, source = drawn_source(draw, listener == 1)
    return model.accept(moment, listener, source, way_of(model, number))


def senseless_step(model, draw, moment):
    """An event of a connection that ended or never was, or of one that does not wait."""
    name = f'{draw.randrange(3)}.{draw.randrange(1, 300)}'
    with_server = [one.name for one in model.opened.values() if one.backend]
    if with_server and draw.random() < 0.3:
        return model.expire(moment, draw.choice(with_server))
    if name in model.opened:
        return None
    return draw.choice([model.connected, model.failed, model.close])(moment, name)


def drawn(draw):
    model = drawn_model()
    for moment in range(STEPS):
        drawn_step(model, draw, moment)
        if draw.random() < 0.1:
            senseless_step(model, draw, moment)
        if draw.random() < 0.4:
            backend = draw.randrange(len(model.backends) + 1)
            draw.choice([lambda: model.ask_backend(backend), lambda: model.ask_server(backend, draw.randrange(6)),
                         lambda: model.ask_frontend(draw.randrange(3))])()
    return model


def crowd(weight, limit):
    """So many servers, of which the last but one has the greatest weight, and the others the given one."""
    return [Server(f's{n}', f'10.8.{n}.1:80', GREATEST if n == MANY - 2 else weight, limit) for n in range(MANY)]


def many(draw):
    """Each backend of many servers is filled to its limits and beyond, then let free in part, and filled again."""
    model = Model()
    backends = {f'{method}_{weight}': (method, method, crowd(weight, 2))
                for method in ('roundrobin', 'leastconn', 'source') for weight in (GREATEST, 1, 0)}
    uneven = [Server(f's{n}', f'10.8.{n}.1:80', weight) for n, weight in enumerate((GREATEST, 1, GREATEST - 1, 0, 7))]
    backends.update({f'uneven_{method}': (method, method, uneven) for method in ('roundrobin', 'leastconn', 'source')})
    model.config += ['frontend f', *(f'bind {local}' for local in LOCALS[:2])]
    model.config += [f'use_backend {name} if {{ src {networks(number)} }}' for number, name in enumerate(backends)]
    for name, words in backends.items():
        model.add_backend(name, *words)
    for moment in range(2 * 180):
        for number, name in enumerate(backends):
            last = draw.randrange(1, 250)
            model.accept(moment, 0, f'10.{number}.{draw.randrange(256)}.{last}', name)
        if moment == 180:
            for connection in draw.sample(list(model.opened), len(model.opened) // 2):
                draw.choice([model.close, model.failed])(moment, connection)
            for number in range(len(backends)):
                model.ask_backend(number)
                for place in (0, 1, 2, MANY - 2, MANY - 1, MANY):
                    model.ask_server(number, place)
    return model


def main():
    folder = pathlib.Path(sys.argv[1])
    drawn(random.Random(7)).write(folder / 'servers-drawn')
    many(random.Random(8)).write(folder / 'servers-many')


if __name__ == '__main__':
    main()
