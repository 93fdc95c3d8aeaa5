"""Cases of `tests/serve`: bytes that go through, and clients and servers that fail."""
import concurrent.futures
import contextlib
import hashlib
import random
import socket
import struct
import threading
import time

from serving import (
    both, Client, come_and_reset, echo, exchange, full_backlog, LIMIT, LINE, line_of, many, plain, reset, rest_of,
    Server, until, written,
)


def case_echo(case):
    """Bytes go through to a server and back; what is said, and what is recorded, of each connection."""
    config, port = plain(case, Server(echo))
    second = case.port()
    config += f'frontend g\nbind 127.0.0.1:{second}\nbind :{(third := case.port("0.0.0.0"))}\ndefault_backend b\n'
    with case.start(config) as proxy:
        case.check('what is said first', proxy.said, [
            f'l4proxy: listening on 127.0.0.1:{port} (frontend f)', f'l4proxy: listening on 127.0.0.1:{second} (frontend g)',
            f'l4proxy: listening on 0.0.0.0:{third} (frontend g)', 'l4proxy: ready'])
        texts = [b'', b'x', b'hello\n', bytes(range(256)) * 1000]
        got = [(at, text, *exchange(at, text)) for at in (port, second, third) for text in texts]
        record = proxy.ended()
        line = line_of(config, 'server s')
        for at, text, answer, name in got:
            case.holds(f'{len(text)} bytes come back', answer == text, f'{len(answer)} bytes came')
            conn = case.served(record, name, line)
            case.check(f'the listener of {at}', (conn.listener, conn.name.split('.')[0]), ((port, second, third).index(at), '0' if at == port else '1'))
            case.check('its local end', conn.local, f'127.0.0.1:{at}')
        case.check('connections in the record', len(record.conns), len(got))
        case.check('the events of each', {tuple(event.split()[0] for event in conn.events) for conn in record.conns.values()}, {('accept', 'connected', 'close')})


def case_server_refuses(case):
    """A server that refuses ends its own connections, and no other; of 60 such failures in a moment little is said."""
    good, port = Server(echo), case.port()
    second, closed = case.port(), case.port()
    config = f'frontend f\nbind 127.0.0.1:{port}\ndefault_backend good\nfrontend g\nbind 127.0.0.1:{second}\ndefault_backend bad\n' \
        f'backend good\nserver s {good.at}\nbackend bad\nserver t 127.0.0.1:{closed}\n'
    with case.start(config) as proxy:
        with Client(port) as held:
            held.put(b'before')
            case.check('before', held.exactly(6), b'before')
            told = len(proxy.said)
            got = many(60, lambda _: exchange(second, b'hello'))
            held.put(b'after')
            case.check('after', held.exactly(5), b'after')
            name = held.name
        case.check('one more', exchange(port, b'hello')[0], b'hello')
        case.holds('few lines are said', len(proxy.said) - told <= 3 + (time.monotonic() - proxy.begun), proxy.said[told:told + 10])
        record = proxy.ended()
        for answer, refused in got:
            case.check('an answer', answer, b'')
            conn = record.of(refused)
            case.check(f'{refused} in the record', (conn.line, conn.is_up, conn.end, conn.events[-1].split()[0]),
                       (line_of(config, 'server t'), False, 'closed failed', 'failed'), conn.replies)
        case.served(record, name, line_of(config, 'server s'))


def case_server_silent(case):
    """A server that never answers keeps its own connections alone; they end as stopped at the end, or as their client
    ends."""
    with full_backlog() as silent:
        good, port, second = Server(echo), case.port(), case.port()
        config = f'frontend f\nbind 127.0.0.1:{port}\ndefault_backend good\nfrontend g\nbind 127.0.0.1:{second}\ndefault_backend bad\n' \
            f'backend good\nserver s {good.at}\nbackend bad\nserver t {written(silent.getsockname())}\n'
        with case.start(config) as proxy:
            waiting_clients = [Client(second) for _ in range(10)]
            for client in waiting_clients:
                client.put(b'hello')
            time.sleep(0.3)
            used = proxy.seconds()
            begun = time.monotonic()
            for _ in range(10):
                case.check('meanwhile', exchange(port, b'hello')[0], b'hello')
            case.holds('it is not kept waiting', time.monotonic() - begun < 5)
            time.sleep(1)
            case.holds('it does not spin', proxy.seconds() - used < 0.5, proxy.seconds() - used)
            record = proxy.ended()
            for client in waiting_clients:
                conn = record.of(client.name)
                case.check('one that waits for its server', (conn.line, conn.is_up, conn.end), (line_of(config, 'server t'), False, 'closed stopped'), conn.replies)


def case_server_dies(case):
    """A server that is gone in the middle: its client gets what was sent before, and the end."""
    def dying(link):
        asked = link.recv(3)
        link.sendall(b'x' * 1000)
        if asked == b'end':
            return  # a proper end, in the middle of what the client sends
        while not link.recv(1 << 16).endswith(b'go'):
            pass
        reset(link)
    config, port = plain(case, Server(dying))
    with case.start(config) as proxy:
        resets = []
        for _ in range(10):
            client = Client(port)
            client.put(b'rst')
            case.holds('what came before', client.exactly(1000) == b'x' * 1000)
            client.put(b'go')
            case.check('nothing else', client.rest(), b'')
            resets.append(client.name)
            client.close()
        ended = Client(port)
        ended.put(b'end')
        case.check('what comes before a proper end', len(ended.rest()), 1000)
        ended.close()
        record = proxy.ended()
        for name in resets:
            case.served(record, name, line_of(config, 'server s'), 'closed fault')
        conn = record.of(ended.name)
        case.holds('the one with a proper end', conn.is_up and conn.end in ('closed done', 'closed fault'), conn.replies)


def case_client_dies(case):
    """A client that is gone in the middle: its server sees the end, and nothing is left."""
    seen, lock = [], threading.Lock()

    def watching(link):
        try:
            while link.recv(1 << 16):
                link.sendall(b'y' * 1000)
            how = 'end'
        except OSError:
            how = 'reset'
        with lock:
            seen.append(how)
    config, port = plain(case, Server(watching))
    with case.start(config) as proxy:
        idle = proxy.descriptors()
        names = []
        for number in range(10):
            client = Client(port)
            client.put(b'hello')
            client.exactly(500)
            names.append(client.name)
            if number % 2:
                client.put(b'z' * 100_000)
            client.reset()
        until(lambda: len(seen) == 10, 'each server sees the end')
        until(lambda: proxy.descriptors() <= idle, 'no descriptor is left')
        case.check('another one', Client(port).close(), None)
        record = proxy.ended()
        for name in names:
            case.served(record, name, line_of(config, 'server s'), 'closed fault')


def case_resets_while_blocked(case):
    """A side that fills the path and resets, while the other reads nothing: that is noticed, and its places are free again."""
    begun, lock = [], threading.Lock()
    block = b'x' * (1 << 20)

    def fill(link):
        """Writes until nothing more is taken for a while."""
        link.settimeout(0.3)
        with contextlib.suppress(TimeoutError):
            while True:
                link.send(block)

    def still(link):
        with lock:
            begun.append(link)
        time.sleep(LIMIT)

    def filling(link):
        fill(link)
        with lock:
            begun.append(link)
        time.sleep(LIMIT)
    for who, serve in (('clients', still), ('servers', filling)):
        begun.clear()
        config, port = plain(case, Server(serve))
        with case.start(config) as proxy:
            idle = proxy.descriptors()
            clients = [Client(port) for _ in range(20)]
            names = [client.name for client in clients]
            if who == 'clients':
                with concurrent.futures.ThreadPoolExecutor(20) as pool:
                    list(pool.map(fill, clients))
            until(lambda: len(begun) == 20, f'{who}: the paths are full')
            case.check(f'{who}: the descriptors meanwhile', proxy.descriptors(), idle + 40)
            for link in clients if who == 'clients' else begun:
                reset(link)
            until(lambda: proxy.descriptors() <= idle, f'{who}: no descriptor is left')
            record = proxy.ended()
            for name in names:
                case.served(record, name, line_of(config, 'server s'), 'closed fault')


def case_resets_at_once(case):
    """3,000 clients that connect and reset leave nothing open, and neither memory nor descriptors."""
    config, port = plain(case, Server(echo))
    with case.start(config) as proxy:
        idle = proxy.descriptors()
        come_and_reset(port, 300)
        memory = proxy.resident()
        with concurrent.futures.ThreadPoolExecutor(3) as pool:
            list(pool.map(lambda _: come_and_reset(port, 1_000), range(3)))
        until(lambda: proxy.descriptors() <= idle, 'no descriptor is left')
        case.holds('memory', proxy.resident() - memory < 8_000, f'{proxy.resident() - memory} KB more')
        ends = proxy.summed()
        case.check('they are all in the record', sum(ends.values()), 3_300, ends)


def case_half_close(case):
    """A side that has ended its sending still gets what the other sends."""
    parts = [random.Random(number).randbytes(10_000) for number in range(10)]
    kept = []

    def late(link):
        asked = rest_of(link)[0]
        for part in parts:
            link.sendall(part)
            time.sleep(0.05)
        link.sendall(asked)

    def early(link):
        link.sendall(b'greeting')
        link.shutdown(socket.SHUT_WR)
        kept.append(rest_of(link))
    first, second = Server(late), Server(early)
    ports = case.port(), case.port()
    config = f'frontend f\nbind 127.0.0.1:{ports[0]}\ndefault_backend b\nfrontend g\nbind 127.0.0.1:{ports[1]}\ndefault_backend c\n' \
        f'backend b\nserver s {first.at}\nbackend c\nserver t {second.at}\n'
    with case.start(config) as proxy:
        answer, name = exchange(ports[0], b'question')
        case.holds('what comes after the client has ended', answer == b''.join(parts) + b'question', len(answer))
        with Client(ports[1]) as client:
            case.check('what comes before the server has ended', client.rest(), b'greeting')
            for part in parts:
                client.put(part)
                time.sleep(0.05)
            client.finish()
            until(lambda: kept, 'the server gets all')
        case.holds('what goes after the server has ended', kept[0] == (b''.join(parts), True), len(kept[0][0]))
        record = proxy.ended()
        case.served(record, name, line_of(config, 'server s'))
        case.served(record, client.name, line_of(config, 'server t'))


def case_both_ways(case):
    """20 MB through one connection, both ways at once; and 2 MB through each of 20 connections."""
    up, down = (random.Random(number).randbytes(20_000_000) for number in (1, 2))
    got, small = [], 2_000_000

    def serve(link):
        count = int.from_bytes(link.recv(1), 'big')
        got.append(both(link, down if count else down[:small]))

    def ask(port, count):
        with Client(port) as client:
            client.put(bytes([count]))
            return both(client, up if count else up[:small])

    def sums(data):
        return hashlib.sha256(data).hexdigest(), len(data)
    config, port = plain(case, Server(serve))
    with case.start(config) as proxy:
        case.check('20 MB to the client', ask(port, 1), sums(down))
        until(lambda: got, 'the server is done')
        case.check('20 MB to the server', got.pop(), sums(up))
        case.check('2 MB to each client', many(20, lambda _: ask(port, 0)), [sums(down[:small])] * 20)
        until(lambda: len(got) == 20, 'the servers are done')
        case.check('2 MB to each server', got, [sums(up[:small])] * 20)
        record = proxy.ended()
        case.check('how they ended', record.ends(), {'closed done': 21})


class Talk:
    """What the two sides of a connection say to each other, drawn by a number that both know."""

    def __init__(self, number):
        draw = random.Random(number)
        sizes = [0, 1, 100, 16_383, 16_384, 16_385, 65_536, 65_537, draw.randrange(400_000), draw.randrange(2_000)]
        self.texts = [random.Random(2 * number + side).randbytes(draw.choice(sizes)) for side in (0, 1)]
        self.first = draw.choice([None, None, 0, 1])  # who has to end before the other begins
        self.resets = draw.choice([None, None, None, 0, 1])  # who ends by a reset
        self.part, self.pauses, self.is_slow = draw.choice([1_000, 10_000, 100_000]), draw.random() < 0.3, draw.random() < 0.2
        self.cut = draw.random()

    def held(self, link, side):
        """Holds it on one side: sends and takes at once. What came, or the beginning of it where there was a reset."""
        with concurrent.futures.ThreadPoolExecutor(1) as pool:
            if self.first == 1 - side:
                got = self.taken(link)
                self.sent(link, side)
                return got
            taken = pool.submit(self.taken, link)
            self.sent(link, side)
            return taken.result()

    def taken(self, link):
        parts = []
        with contextlib.suppress(OSError):
            while part := link.recv(self.part):
                parts.append(part)
                if self.is_slow:
                    time.sleep(0.001)
        return b''.join(parts)

    def sent(self, link, side):
        text = self.texts[side]
        if self.resets == side:
            text = text[:int(len(text) * self.cut)]
        with contextlib.suppress(OSError):
            for at in range(0, len(text), self.part):
                link.sendall(text[at:at + self.part])
                if self.pauses:
                    time.sleep(0.002)
            if self.resets == side:
                link.setsockopt(socket.SOL_SOCKET, socket.SO_LINGER, struct.pack('ii', 1, 0))
                link.shutdown(socket.SHUT_RD)  # what is taken ends too
            else:
                link.shutdown(socket.SHUT_WR)


def case_drawn(case):
    """300 connections whose talk is drawn: how much each side says, in which parts, who ends first, who is slow, and who
    ends by a reset. Each byte that arrives is the one that was sent, and all of them where nobody resets."""
    begun, got = random.randrange(1 << 32), {}

    def serve(link):
        first = link.recv(1, socket.MSG_PEEK)
        while first == b'P' and link.recv(1) != b'\n':
            pass
        head = link.recv(8, socket.MSG_WAITALL)
        if len(head) == 8:  # or its client was gone before
            number = int.from_bytes(head, 'big')
            got[number] = Talk(number).held(link, 1)
    server, ports = Server(serve), [case.port() for _ in range(2)]
    config = f'frontend f\nbind 127.0.0.1:{ports[0]}\ndefault_backend b\nfrontend g\nbind 127.0.0.1:{ports[1]} accept-proxy\n' \
        f'default_backend c\nbackend b\nserver s {server.at}\nbackend c\nserver t {server.at} send-proxy\n'
    numbers = [(begun << 16) + at for at in range(300)]

    def one(number):
        with Client(ports[number % 2]) as client:
            client.put((LINE if number % 2 else b'') + number.to_bytes(8, 'big'))
            return Talk(number).held(client, 0), client.name
    with case.start(config, '--workers', '3') as proxy:
        with concurrent.futures.ThreadPoolExecutor(60) as pool:
            answers = list(pool.map(one, numbers))
        until(lambda: all(number in got for number in numbers if Talk(number).resets is None), 'each server is done')
        until(lambda: proxy.descriptors() < 40, 'the proxy closes what it held')
        record = proxy.ended()
    for number, (answer, name) in zip(numbers, answers):
        talk, what = Talk(number), f'the talk {number}'
        # (a client that resets may be gone before its server is reached)
        for side, came, sent in (('server', got.get(number, b''), talk.texts[0]), ('client', answer, talk.texts[1])):
            right = came == sent if talk.resets is None else sent.startswith(came)
            case.holds(f'{what}: what came to the {side}', right, f'{len(came)} of {len(sent)} bytes', vars(talk) | {'texts': 0})
        conns = [conn for conn in record.conns.values() if conn.peer == name]  # a port may come again after a reset
        ways = ('closed done',) if talk.resets is None else ('closed done', 'closed fault')
        case.holds(f'{what}: its end', any((conn.is_up or talk.resets is not None) and conn.end in ways for conn in conns), [conn.replies for conn in conns], vars(talk) | {'texts': 0})


def case_slow_reader(case):
    """A client that does not read holds its server up; the proxy does not keep what waits."""
    data = random.Random(3).randbytes(40_000_000)
    sent = []

    def pour(link):
        link.sendall(data)
        sent.append(True)
    config, port = plain(case, Server(pour))
    with case.start(config) as proxy:
        before = proxy.resident()
        with Client(port) as client:
            time.sleep(1)
            grown, used = proxy.resident() - before, proxy.seconds()
            case.holds('the server is held up', not sent)
            case.holds('memory does not grow with what waits', grown < 8_000, f'{grown} KB')
            time.sleep(0.5)
            case.holds('it does not spin', proxy.seconds() - used < 0.3, proxy.seconds() - used)
            case.holds('all comes at last', client.rest() == data)
        record = proxy.ended()
        case.check('how it ended', record.ends(), {'closed done': 1})
