"""Cases of `tests/serve`: timeouts, retries, and a process that is stopped."""
import argparse
import concurrent.futures
import contextlib
import pathlib
import resource
import signal
import socket
import threading
import time

from serving import (
    accept_all, Client, echo, exchange, full_backlog, HOST, LINE, line_of, plain, rest_of, Server, shared_object,
    Skipped, until, written,
)


def timed(case, server, front='', back=''):
    """A configuration of one frontend and one server with these lines in the one and the other section, and its port."""
    config, port = plain(case, server, front)
    return config.replace('\nbackend b\n', f'\nbackend b\n{back}'), port


def ends_in_time(case, client, what='nothing more', text=b''):
    """The client gets that text, and the end some 300 ms after now."""
    begun = time.monotonic()
    case.check(what, client.rest(), text)
    taken = time.monotonic() - begun
    case.holds('it ends after 300 ms', 0.25 < taken < 0.8, taken)


def case_timeout_client(case):
    """A client that says nothing for `timeout client` is ended, and its server sees the end."""
    ends = []

    def serve(link):
        echo(link)
        ends.append(time.monotonic())
    config, port = timed(case, Server(serve), 'timeout client 300ms\n', 'timeout server 10s\n')
    with case.start(config) as proxy:
        client = Client(port)
        client.put(b'hello')
        case.check('an answer', client.exactly(5), b'hello')
        ends_in_time(case, client)
        until(lambda: ends, 'the server sees the end')
        case.served(proxy.ended(), client.name, line_of(config, 'server s'), 'closed client-timeout')


def case_timeout_server(case):
    """A server that says nothing for `timeout server` ends its connection; if both sides are level, the client is named."""
    config, port = timed(case, Server(echo), 'timeout client 10s\n', 'timeout server 300ms\n')
    with case.start(config) as proxy:
        client = Client(port)
        client.put(b'hello')
        case.check('an answer', client.exactly(5), b'hello')
        ends_in_time(case, client)
        case.served(proxy.ended(), client.name, line_of(config, 'server s'), 'closed server-timeout')
    config, port = timed(case, Server(echo), 'timeout client 300\n', 'timeout server 300000us\n')
    with case.start(config) as proxy:
        client = Client(port)
        client.put(b'hello')
        case.check('an answer', client.exactly(5), b'hello')
        ends_in_time(case, client)
        case.served(proxy.ended(), client.name, line_of(config, 'server s'), 'closed client-timeout')


def case_timeout_bytes(case):
    """A byte now and then keeps both sides, whoever sends it."""
    def drip(link):
        link.recv(2)
        for _ in range(20):
            link.sendall(b'x')
            time.sleep(0.1)
    limits = 'timeout client 300ms\n', 'timeout server 300ms\n'
    config, port = timed(case, Server(echo), *limits)
    with case.start(config) as proxy:
        client = Client(port)
        for _ in range(20):
            client.put(b'x')
            case.check('an answer', client.exactly(1), b'x')
            time.sleep(0.1)
        client.finish()
        case.check('its end', client.rest(), b'')
        case.served(proxy.ended(), client.name, line_of(config, 'server s'))
    config, port = timed(case, Server(drip), *limits)
    with case.start(config) as proxy:
        client = Client(port)
        client.put(b'go')
        case.check('all of a download', client.rest(), b'x' * 20)
        client.close()
        case.served(proxy.ended(), client.name, line_of(config, 'server s'))


def case_timeout_connect(case):
    """A server that does not accept within `timeout connect` is out of reach."""
    with full_backlog() as silent:
        config, port = timed(case, argparse.Namespace(at=written(silent.getsockname())), '', 'timeout connect 300ms\n')
        with case.start(config) as proxy:
            client = Client(port)
            client.put(b'hello')
            ends_in_time(case, client)
            conn = proxy.ended().of(client.name)
            case.check('how it ended', (conn.is_up, conn.end), (False, 'closed failed'), conn.replies)


def case_retries(case):
    """A server that refuses is dialled again as often as `retries` says, each time after a pause."""
    limits = 'timeout connect 200ms\nretries 3\n'
    port = case.port()
    config, front = timed(case, argparse.Namespace(at=f'{HOST}:{port}'), '', limits)
    with case.start(config) as proxy:
        begun = time.monotonic()
        answer, refused = exchange(front, b'hello')
        taken = time.monotonic() - begun
        case.check('no answer', answer, b'')
        case.holds('three pauses of 200 ms', 0.5 < taken < 1.5, taken)
        client = Client(front)
        client.put(b'hello')
        time.sleep(0.3)
        Server(echo, port=port)
        case.check('an answer of a server that came later', client.exactly(5), b'hello')
        client.close()
        record = proxy.ended()
        conn = record.of(refused)
        case.check('the one that was refused', (conn.is_up, conn.end), (False, 'closed failed'), conn.replies)
        case.check('its events', [event.split()[0] for event in conn.events], ['accept', 'failed'])
        case.served(record, client.name, line_of(config, 'server s'))
    with full_backlog() as silent:
        config, front = timed(case, argparse.Namespace(at=written(silent.getsockname())), '', limits)
        with case.start(config) as proxy:
            begun = time.monotonic()
            case.check('no answer of a silent server', exchange(front, b'hello')[0], b'')
            taken = time.monotonic() - begun
            case.holds('four times and three pauses of 200 ms', 1.3 < taken < 2.5, taken)


def case_client_leaves(case):
    """A client that leaves while its server does not answer frees its place at once, unless bytes of it are held."""
    with full_backlog() as silent:
        port, second = case.port(), case.port()
        config = f'frontend f\nbind {HOST}:{port}\nmaxconn 1\ndefault_backend b\n' \
            f'frontend g\nbind {HOST}:{second} accept-proxy\nmaxconn 2\ndefault_backend b\n' \
            f'backend b\nserver s {written(silent.getsockname())}\n'
        line = line_of(config, 'server s')
        with case.start(config) as proxy:
            left = []
            for _ in range(3):
                with Client(port) as client:
                    until(lambda: proxy.descriptors() >= 2, 'it is there')
                    time.sleep(0.1)
                left.append(client.name)
                time.sleep(0.2)
            with Client(second) as client:
                client.put(LINE)
                time.sleep(0.2)
            left.append(client.name)
            time.sleep(0.2)
            sender = Client(port)
            sender.put(b'hello')
            time.sleep(0.2)
            sender.close()
            time.sleep(0.2)
            with Client(port) as refused:
                case.check('the one whose bytes are held keeps its place', refused.rest(), b'')
            record = proxy.ended()
            for name in left:
                conn = record.of(name)
                case.check('one that left', (conn.line, conn.is_up, conn.end), (line, False, 'closed fault'), conn.replies)
            conn = record.of(sender.name)
            case.check('the one whose bytes are held', (conn.line, conn.end), (line, 'closed stopped'), conn.replies)
            case.check('the one for which there is no place', record.of(refused.name).end, f'refuse line {line_of(config, "maxconn 1")}')

PLENTY = 40_000_000  # more bytes than there is room for on the way from one side to the other


def timed_pair(case, *given):
    """A configuration of two frontends, each with a server of its own, and their ports. Given for each are the server, and
    how long its client and that server may be silent."""
    ports, config = [case.port() for _ in given], ''
    for port, (server, client_time, server_time) in zip(ports, given):
        config += f'frontend f{port}\nbind {HOST}:{port}\ntimeout client {client_time}\ndefault_backend b{port}\n' \
            f'backend b{port}\ntimeout server {server_time}\nserver s{port} {server.at}\n'
    return config, ports


def case_timeout_pauses(case):
    """A side is not waited for while the other one takes nothing: a server goes on after a pause of its client in a download,
    and a client after one of its server in an upload, however short its own time is."""
    got = []

    def take_late(link):
        time.sleep(1.2)
        got.append(rest_of(link))
    pour, late = Server(lambda link: link.sendall(bytes(PLENTY))), Server(take_late)
    config, ports = timed_pair(case, (pour, '10s', '300ms'), (late, '300ms', '10s'))

    def download():
        with Client(ports[0]) as client:
            time.sleep(1.2)
            return len(client.rest()), client.name

    def upload():
        with Client(ports[1]) as client:
            client.put(bytes(PLENTY))
            client.finish()
            return len(client.rest()), client.name
    with case.start(config) as proxy:
        with concurrent.futures.ThreadPoolExecutor(2) as pool:
            down, up = pool.submit(download), pool.submit(upload)
            (down_count, down_name), (up_count, up_name) = down.result(), up.result()
        until(lambda: got, 'the server is done')
        case.check('bytes of the download', down_count, PLENTY)
        case.check('bytes of the upload, and their proper end', (len(got[0][0]), got[0][1]), (PLENTY, True))
        case.check('what comes back from the server of the upload', up_count, 0)
        record = proxy.ended()
        case.served(record, down_name, line_of(config, f'server s{ports[0]}'))
        case.served(record, up_name, line_of(config, f'server s{ports[1]}'))


def case_timeout_thinking(case):
    """A side that has ended its sending, and has all that was sent to it, is not waited for: the other one may think for as
    long as its own time is."""
    got = []

    def answer_late(link):
        asked = rest_of(link)[0]
        time.sleep(1.2)
        link.sendall(b'an answer to ' + asked)

    def greet(link):
        link.sendall(b'greeting')
        link.shutdown(socket.SHUT_WR)
        got.append(rest_of(link))
    config, ports = timed_pair(case, (Server(answer_late), '300ms', '10s'), (Server(greet), '10s', '300ms'))

    def think():
        with Client(ports[1]) as client:
            greeting = client.rest()
            time.sleep(1.2)
            client.put(b'thanks')
            client.finish()
            until(lambda: got, 'the server is done')
            return greeting, client.name
    with case.start(config) as proxy:
        with concurrent.futures.ThreadPoolExecutor(1) as pool:
            thinking = pool.submit(think)
            answer, name = exchange(ports[0], b'a question')
            greeting, thinker = thinking.result()
        case.check('the answer', answer, b'an answer to a question')
        case.check('what both say', (greeting, got), (b'greeting', [(b'thanks', True)]))
        record = proxy.ended()
        case.served(record, name, line_of(config, f'server s{ports[0]}'))
        case.served(record, thinker, line_of(config, f'server s{ports[1]}'))


def case_timeout_stalled(case):
    """A side that takes nothing while bytes wait for it is ended, though the other one has more for it; and it is the one that
    is named, though the other one's time is shorter."""
    pour, idle = Server(lambda link: link.sendall(bytes(PLENTY))), Server(lambda link: time.sleep(3))
    config, ports = timed_pair(case, (pour, '400ms', '200ms'), (idle, '200ms', '400ms'))
    with case.start(config) as proxy:
        stalled, sender = Client(ports[0]), Client(ports[1])
        begun = time.monotonic()
        sender.put(bytes(PLENTY))
        taken = time.monotonic() - begun
        case.holds('the sender ends after the time of its server', 0.35 < taken < 1.5, taken)
        time.sleep(1)
        record = proxy.ended()
        case.served(record, stalled.name, line_of(config, f'server s{ports[0]}'), 'closed client-timeout')
        case.served(record, sender.name, line_of(config, f'server s{ports[1]}'), 'closed server-timeout')


def case_timeout_half_closed(case):
    """Where one side has ended its sending, the time of the other one ends the connection, and not the shorter one of its own."""
    def greet(link):
        link.shutdown(socket.SHUT_WR)
        link.recv(1)
    config, ports = timed_pair(case, (Server(lambda link: time.sleep(5)), '150ms', '300ms'), (Server(greet), '300ms', '150ms'))
    with case.start(config) as proxy:
        asking = Client(ports[0])
        asking.put(b'hello')
        asking.finish()
        silent = Client(ports[1])
        ends_in_time(case, asking, 'no answer')
        case.check('the end of a server', silent.rest(), b'')
        time.sleep(0.5)
        record = proxy.ended()
        case.served(record, asking.name, line_of(config, f'server s{ports[0]}'), 'closed server-timeout')
        conn = case.served(record, silent.name, line_of(config, f'server s{ports[1]}'), 'closed client-timeout')
        case.holds('after the time of the client', 290 <= conn.moments[-1] - conn.moments[-2] < 800, conn.moments)


def case_timeout_header(case):
    """No timeout counts while a header is waited for, nor before the server has accepted."""
    config, port = timed(case, Server(echo), 'timeout client 300ms\n', 'timeout server 300ms\n')
    config = config.replace(f':{port}\n', f':{port} accept-proxy\n', 1)
    with case.start(config) as proxy:
        client = Client(port)
        time.sleep(1)
        client.put(LINE + b'hello')
        case.check('an answer', client.exactly(5), b'hello')
        ends_in_time(case, client)
        case.served(proxy.ended(), client.name, line_of(config, 'server s'), 'closed client-timeout')


def case_timeout_stopped(case):
    """The process is stopped for longer than its timeouts: a connection of which bytes came meanwhile is served, and the others
    are ended."""
    config, port = timed(case, Server(echo), 'timeout client 500ms\n', 'timeout server 500ms\n')
    with case.start(config) as proxy:
        talking, silent = [Client(port) for _ in range(20)], [Client(port) for _ in range(20)]
        for client in talking + silent:
            client.put(b'hello')
            case.check('an answer', client.exactly(5), b'hello')
        proxy.child.send_signal(signal.SIGSTOP)
        for client in talking:
            client.put(b'again')
            client.finish()
        time.sleep(1.5)
        proxy.child.send_signal(signal.SIGCONT)
        case.check('what came back', [client.rest() for client in talking], [b'again'] * 20)
        case.check('to the others', [client.rest() for client in silent], [b''] * 20)
        record = proxy.ended()
        for client in talking:
            case.served(record, client.name, line_of(config, 'server s'))
        for client in silent:
            case.served(record, client.name, line_of(config, 'server s'), 'closed client-timeout')


def is_stopped(proxy):
    """Whether a signal has stopped it."""
    return proxy.process('stat').read_text().rpartition(')')[2].split()[0] == 'T'


def case_timeout_stopped_at_work(case):
    """The process is stopped in the middle of a turn, for longer than its timeouts: as it reads a request, and as it dials a
    server. The times of both begin after that, so that the answer comes, and the dial has its time."""
    read, connect = (pathlib.Path(case.room, name) for name in ('read', 'connect'))
    variables = {'LD_PRELOAD': str(shared_object(case.room, 'stop')), 'STOP_AT_READ': str(read), 'STOP_AT_CONNECT': str(connect)}

    def think(link):
        while part := link.recv(100):
            time.sleep(0.3)
            link.sendall(part)

    def goes_on(proxy, place):
        until(lambda: is_stopped(proxy), 'it is stopped')
        time.sleep(1.5)
        case.check('it was stopped once', place.exists(), False)
        proxy.child.send_signal(signal.SIGCONT)
    config, port = timed(case, Server(think), 'timeout client 800ms\n', 'timeout server 800ms\n')
    with case.start(config, '--workers', '1', env=variables) as proxy:
        client = Client(port)
        client.put(b'hello')
        case.check('an answer', client.exactly(5), b'hello')
        read.touch()
        client.put(b'again')
        goes_on(proxy, read)
        case.check('an answer after it was stopped', client.exactly(5), b'again')
        client.finish()
        case.check('its end', client.rest(), b'')
        case.served(proxy.ended(), client.name, line_of(config, 'server s'))
    with full_backlog() as late:
        config, port = timed(case, argparse.Namespace(at=written(late.getsockname())), '', 'timeout connect 1400ms\n')
        with case.start(config, '--workers', '1', env=variables) as proxy:
            connect.touch()
            client = Client(port)
            client.put(b'hello')
            goes_on(proxy, connect)
            threading.Thread(target=accept_all, args=(late,), daemon=True).start()
            case.check('an answer of the server that was dialled', client.exactly(5), b'hello')
            client.finish()
            case.check('its end', client.rest(), b'')
            case.served(proxy.ended(), client.name, line_of(config, 'server s'))


def case_timeout_stopped_busy(case):
    """A process that is busy is stopped again and again for longer than its timeouts: each request that came in time has its
    answer."""
    def think(link):
        while part := link.recv(100):
            time.sleep(0.1)
            link.sendall(part)

    def pour(link):
        while True:
            link.sendall(bytes(1 << 18))
    ports = case.port(), case.port()
    limits = 'defaults\ntimeout client 1s\ntimeout server 1s\n'
    config = f'{limits}frontend f\nbind {HOST}:{ports[0]}\ndefault_backend b\nbackend b\nserver s {Server(think).at}\n' \
        f'frontend g\nbind {HOST}:{ports[1]}\ndefault_backend c\nbackend c\nserver t {Server(pour).at}\n'
    is_over, answers = threading.Event(), []

    def ask(client):
        """Asks again and again; whether each question has its answer."""
        while not is_over.is_set():
            client.put(b'question')
            answers.append(client.exactly(8))
        client.finish()
        return client.rest()

    def drain(client):
        with contextlib.suppress(OSError):
            while client.recv(1 << 18):
                pass
    with case.start(config, '--workers', '1') as proxy:
        asking, drained = [Client(ports[0]) for _ in range(40)], [Client(ports[1]) for _ in range(3)]
        for client in drained:
            threading.Thread(target=drain, args=(client,), daemon=True).start()
        with concurrent.futures.ThreadPoolExecutor(len(asking)) as pool:
            ends = [pool.submit(ask, client) for client in asking]
            for _ in range(3):
                time.sleep(0.4)
                proxy.child.send_signal(signal.SIGSTOP)
                time.sleep(1.3)
                proxy.child.send_signal(signal.SIGCONT)
            time.sleep(0.4)
            is_over.set()
        case.check('what comes after the last answer', [end.result() for end in ends], [b''] * len(asking))
        case.holds('questions were asked', len(answers) > 3 * len(asking), len(answers))
        case.check('answers', set(answers), {b'question'})
        record = proxy.ended()
        for client in asking:
            case.served(record, client.name, line_of(config, 'server s'))
        for client in drained:
            case.served(record, client.name, line_of(config, 'server t'), 'closed stopped')


def case_timeout_reload(case):
    """An open connection keeps the times of the configuration of its accept."""
    server = Server(echo)
    config, port = timed(case, server, 'timeout client 300ms\n')
    later = config.replace('timeout client 300ms\n', '')
    with case.start(config) as proxy:
        old, new = Client(port), None
        old.put(b'hello')
        case.check('an answer', old.exactly(5), b'hello')
        proxy.reload(later)
        until(lambda: any('reloaded as version 2' in line for line in proxy.said), 'it is reloaded')
        new = Client(port)
        new.put(b'hello')
        case.check('an answer', new.exactly(5), b'hello')
        case.check('the old one ends', old.rest(), b'')
        time.sleep(1)
        new.put(b'again')
        case.check('the new one does not', new.exactly(5), b'again')
        new.close()
        record = proxy.ended()
        case.served(record, old.name, line_of(config, 'server s'), 'closed client-timeout')
        case.served(record, new.name, line_of(later, 'server s'))


def case_idle(case):
    """600 open connections that say nothing cost no time, though their timeouts are watched, and take no other's turn."""
    if resource.getrlimit(resource.RLIMIT_NOFILE)[0] < 2100:
        raise Skipped('a process may not have 2,100 descriptors here')
    config, port = timed(case, Server(echo), 'maxconn 1000\ntimeout client 1h\n', 'timeout server 1h\n')
    with case.start(config) as proxy:
        clients = [Client(port) for _ in range(600)]
        for client in clients:
            client.put(b'x')
        for client in clients:
            client.exactly(1)
        used = proxy.seconds()
        time.sleep(2)
        case.holds('they cost no time', proxy.seconds() - used < 0.2, proxy.seconds() - used)
        case.holds('a descriptor for each side', proxy.descriptors() >= 1200)
        case.check('another one', exchange(port, b'hello')[0], b'hello')
        for client in clients:
            client.close()
        until(lambda: proxy.descriptors() < 100, 'the proxy closes what it held')
        case.check('how they ended', proxy.ended().ends(), {'closed done': 601})
