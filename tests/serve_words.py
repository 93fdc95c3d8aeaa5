"""Cases of `tests/serve`: the start, the words of an operator and the end."""
import concurrent.futures
import contextlib
import hashlib
import pathlib
import random
import socket
import threading
import time

from serving import (
    Client, echo, exchange, HOST, LINE, line_of, many, named, plain, Server, until,
)


def case_reload_in_transfer(case):
    """A reload in the midst of a transfer: that goes on by the old text, and who comes later is judged by the new one."""
    servers = [Server(named(name)) for name in (b'old:', b'new:')]
    ports = case.port(), case.port()

    def text(server, more):
        return f'frontend f\nbind 127.0.0.1:{ports[0]}\nbind 127.0.0.1:{ports[1]} accept-proxy\n{more}default_backend b\nbackend b\nserver s {server.at}\n'
    old, new = text(servers[0], ''), text(servers[1], 'tcp-request session reject if { src 127.0.0.3 203.0.113.7 }\n')
    data = random.Random(5).randbytes(6_000_000)

    def through(client, part):
        with concurrent.futures.ThreadPoolExecutor(1) as pool:
            back = pool.submit(client.exactly, len(part))
            client.put(part)
            return back.result()
    with case.start(old) as proxy:
        client, half = Client(ports[0], '127.0.0.3'), Client(ports[1])
        case.check('the first server', client.exactly(4), b'old:')
        half.put(LINE[:20])
        back = [through(client, data[:1_000_000])]
        with concurrent.futures.ThreadPoolExecutor(1) as pool:
            rest = pool.submit(through, client, data[1_000_000:5_000_000])
            proxy.reload(new)
            until(lambda: exchange(ports[0], b'')[0] == b'new:', 'the reload is in force')
            back.append(rest.result())
        barred, barred_name = exchange(ports[0], b'hello', '127.0.0.3')
        case.check('who is barred by the new text', barred, b'')
        half.put(LINE[20:] + b'hello')
        half.finish()
        case.check('who waited since before', half.rest(), b'old:hello')
        back.append(through(client, data[5_000_000:]))
        client.finish()
        back.append(client.rest())
        case.holds('the transfer, by its checksum', hashlib.sha256(b''.join(back)).digest() == hashlib.sha256(data).digest(), [len(part) for part in back])
        record = proxy.ended()
        case.check('reloads in the record', [(body, reply) for _, body, reply in record.reloads], [(new, 'reloaded 2')])
        old_conn, half_conn = case.served(record, client.name, line_of(old, 'server s')), case.served(record, half.name, line_of(old, 'server s'))
        case.check('the old text judges', (old_conn.version, half_conn.version, old_conn.offer[2]), (1, 1, servers[0].at))
        case.check('the new text judges', case.refused(record, barred_name, f'line {line_of(new, "session reject")}').version, 2)
        for conn in record.conns.values():
            case.check(f'the server of {conn.name}', conn.offer and conn.offer[2], {1: servers[0].at, 2: servers[1].at}[conn.version] if conn.line else None)


def case_reload_counts(case):
    """Counts and limits go through reloads: a source that has its two connections gets no third one by a new text."""
    def text(server, more=''):
        return f'frontend f\nbind 127.0.0.1:{port}\nstick-table type ip size 64 store conn_cur\ntcp-request connection track-sc0 src\n' \
            f'tcp-request connection reject if {{ sc0_conn_cur gt 2 }}\ndefault_backend b\nbackend b\nserver s {server.at}\n{more}'
    servers, port = [Server(named(name)) for name in (b'1', b'2', b'3')], case.port()
    with case.start(text(servers[0])) as proxy:
        held = [Client(port) for _ in range(2)]
        case.check('two of a source', [client.exactly(1) for client in held], [b'1', b'1'])
        for server, name in zip(servers[1:], (b'2', b'3')):
            proxy.reload(text(server, '# once more\n'))
            until(lambda name=name: exchange(port, b'', '127.0.0.2')[0] == name, 'the reload is in force')
            third, third_name = exchange(port, b'')
            case.check('a third of the source', third, b'')
        held[0].close()
        until(lambda: exchange(port, b'')[0] == b'3', 'the source has room again')
        held[1].close()
        record = proxy.ended()
        case.check('reloads', [reply for _, _, reply in record.reloads], ['reloaded 2', 'reloaded 3'])
        case.refused(record, third_name, 'line 5')


def case_reload_refused(case):
    """A text that is refused, a file that cannot be read, and other binds change nothing, and are said; the next right text
    is the version 2."""
    servers = [Server(named(name)) for name in (b'old:', b'new:')]
    old, port = plain(case, servers[0])
    new, other = old.replace(servers[0].at, servers[1].at), case.port()
    with case.start(old) as proxy:
        def after(what):
            told = len(proxy.said)
            proxy.tell(b'reload\n')
            until(lambda: len(proxy.said) > told, f'{what} is said on standard error', 5)
            time.sleep(1.2)  # at most one line a second is said of a cause
            case.check(f'after {what}', exchange(port, b'hello')[0], b'old:hello')
        proxy.file.write_text(new.replace('default_backend b', 'default_backend nobody'))
        after('a text that is refused')
        proxy.file.write_text(new + 'no such keyword\n')
        after('a text with an unknown keyword')
        proxy.file.write_text('')
        after('an empty file')
        proxy.file.write_text(new.replace(f':{port}', f':{other}'))
        after('other binds')
        proxy.file.write_text(new.replace('default_backend b', f'bind 127.0.0.1:{other}\ndefault_backend b'))
        after('one more bind')
        with socket.socket() as probe:
            case.holds('nothing listens on the other port', probe.connect_ex((HOST, other)) != 0)
        proxy.file.write_bytes(new.encode() + b'# \xff\n')
        after('a file that is no UTF-8')
        proxy.file.unlink()
        after('a file that is not there')
        proxy.file.mkdir()
        after('a folder in the place of the file')
        proxy.file.rmdir()
        proxy.reload(new)
        until(lambda: exchange(port, b'')[0] == b'new:', 'a right text is in force')
        record = proxy.ended()
        case.check('reloads in the record', [reply for _, _, reply in record.reloads], ['reloaded 2'])
        case.check('the versions', {conn.version: conn.offer[2] for conn in record.conns.values()}, {1: servers[0].at, 2: servers[1].at})


def case_long_line(case):
    """A line of 64 MB on standard input: it is skipped, with no memory for it, and the words after it are heard."""
    config, port = plain(case, Server(echo))
    with case.start(config) as proxy:
        memory, used = proxy.resident(), proxy.seconds()
        for _ in range(64):
            proxy.tell(b'x' * (1 << 20))
        proxy.tell(b'\n')
        proxy.reload(config)
        until(lambda: any('reloaded as version 2' in line for line in proxy.said), 'the reload after it')
        case.holds('memory', proxy.resident() - memory < 4_000, f'{proxy.resident() - memory} KB more')
        case.holds('seconds of processors', proxy.seconds() - used < 5, proxy.seconds() - used)
        case.check('lines that say so', sum('is skipped' in line for line in proxy.said), 1)
        case.check('it goes on', exchange(port, b'hello')[0], b'hello')
        case.check('reloads', len(proxy.ended().reloads), 1)


def case_quit_under_load(case):
    """`quit` while connections come and go, stand idle, wait for headers and carry bytes: all end, and the record says
    how."""
    def serve(link):
        if link.recv(1, socket.MSG_PEEK) == b'#':
            while True:
                link.sendall(bytes(65_536))
        echo(link)
    server = Server(serve)
    ports = case.port(), case.port()
    config = f'frontend f\nbind 127.0.0.1:{ports[0]}\ndefault_backend b\nfrontend g\nbind 127.0.0.1:{ports[1]} accept-proxy\ndefault_backend b\n' \
        f'backend b\nserver s {server.at}\n'
    with case.start(config) as proxy:
        idle, waits = [Client(ports[0]) for _ in range(20)], [Client(ports[1]) for _ in range(5)]
        for client in idle:
            client.put(b'x')
            client.exactly(1)
        for client in waits:
            client.put(LINE[:30])
        streams = [Client(ports[0]) for _ in range(3)]
        for client in streams:
            client.put(b'#')

        def drain(client):
            with contextlib.suppress(OSError):
                while client.recv(1 << 18):
                    pass
        stopped, done, lock = threading.Event(), [], threading.Lock()

        def come_and_go():
            while not stopped.is_set():
                try:
                    answer, name = exchange(ports[0], b'hello')
                except OSError:
                    return
                if answer == b'hello':
                    with lock:
                        done.append(name)
        threads = [threading.Thread(target=drain, args=(client,), daemon=True) for client in streams]
        threads += [threading.Thread(target=come_and_go, daemon=True) for _ in range(8)]
        for thread in threads:
            thread.start()
        time.sleep(1.5)
        begun = time.monotonic()
        record = proxy.ended(rest=0)
        case.holds('it ends soon', time.monotonic() - begun < 10, f'{time.monotonic() - begun:.1f} seconds')
        stopped.set()
        for client in [*idle, *streams]:
            case.served(record, client.name, line_of(config, 'server s'), 'closed stopped')
        for client in waits:
            case.check('one that waits for its header', record.of(client.name).end, 'closed stopped')
        for client in [*idle, *waits]:
            case.check('what an open connection gets then', client.rest(), b'')
        ends = record.ends()
        # (the last ones of the eight threads may be served, and stopped before their own end was read)
        case.holds('those who were served are in the record as done', ends.get('closed done', 0) + 8 >= len(done) > 50, ends, len(done))
        peers = {conn.peer for conn in record.conns.values() if conn.end in ('closed done', 'closed stopped')}
        case.check('clients that were served and are not in the record', [name for name in done if name not in peers], [])


def case_end_of_input(case):
    """The end of standard input is `quit`, also where a line lacks its end; other lines are skipped."""
    config, port = plain(case, Server(echo))
    with case.start(config) as proxy:
        with Client(port) as client:
            client.put(b'hello')
            client.exactly(5)
            name = client.name
            record = proxy.ended(quit_by=None)
            case.check('what it gets then', client.rest(), b'')
        case.served(record, name, line_of(config, 'server s'), 'closed stopped')
    with case.start(config) as proxy:
        for line in (b'\n', b'stop\n', b'QUIT\n', b'quit now\n', b'reloads\n', b'\xff\xfe\n', b'x' * 200_000 + b'\n'):
            proxy.tell(line)
            case.check(f'after the line {line[:20]!r}', exchange(port, b'hello')[0], b'hello')
        record = proxy.ended(rest=0.5)
        case.check('how they ended', (record.ends(), record.reloads), ({'closed done': 7}, []))
    with case.start(config) as proxy:
        record = proxy.ended(rest=0)
        case.check('a record of nothing', record.text, '')
    with case.start(config) as proxy:
        proxy.tell(b'quit')
        case.check('the status after a last line without its end', (proxy.ended(rest=0, quit_by=None).text), '')


def case_many_words(case):
    """300 words at once, while connections come: the balancer goes on, and each reload is made in its turn."""
    servers = [Server(named(name)) for name in (b'old:', b'new:')]
    config, port = plain(case, servers[0])
    with case.start(config) as proxy:
        proxy.tell(b'reload\n' * 300)
        got = many(20, lambda _: exchange(port, b'hello')[0])
        case.check('meanwhile', got, [b'old:hello'] * 20)
        time.sleep(1)
        proxy.reload(config.replace(servers[0].at, servers[1].at))
        until(lambda: exchange(port, b'')[0] == b'new:', 'a later reload is in force')
        record = proxy.ended()
        case.check('the versions', [reply for _, _, reply in record.reloads], [f'reloaded {number}' for number in range(2, 303)])
        case.check('how they ended', set(record.ends()), {'closed done'})


def case_address_in_use(case):
    """A listener that cannot be bound: status 3, and its address is said."""
    server, free = Server(echo), case.port()
    addresses = [server.at, '192.0.2.1:8080']
    for address in addresses:
        config = f'frontend f\nbind 127.0.0.1:{free}\nbind {address}\ndefault_backend b\nbackend b\nserver s {server.at}\n'
        with case.start(config, waits=False) as proxy:
            status = proxy.wait()
            case.check(f'{address}: the status', status, 3, proxy.said)
            case.holds(f'{address}: it is said', any(address in line and 'listening on' not in line for line in proxy.said), proxy.said)
            case.holds(f'{address}: it is not ready', 'l4proxy: ready' not in proxy.said, proxy.said)
            case.check(f'{address}: no record', proxy.record.read_bytes(), b'')
        with socket.socket() as probe:
            case.holds(f'{address}: nothing listens', probe.connect_ex((HOST, free)) != 0)


def case_refused_configuration(case):
    """A configuration that is refused, or cannot be read: the status, and nothing listens."""
    config, port = plain(case, Server(echo))
    faulty = config.replace('default_backend b', 'default_backend nobody')
    with case.start(faulty, waits=False) as proxy:
        case.check('the status', (proxy.wait(), proxy.record.read_bytes()), (1, b''), proxy.said)
        case.holds('the fault is said with its line', any(f':{line_of(faulty, "nobody")}: NoBackend' in line for line in proxy.said), proxy.said)
    _, _, said = case.program_run('check', proxy.file)
    case.check('the message is that of check', proxy.said, said.splitlines())
    with case.start('', waits=False) as proxy:
        case.check('an empty one', (proxy.wait(), proxy.record.read_bytes()), (1, b''), proxy.said)
    missing = case.program_run('serve', proxy.room / 'none')
    case.check('a file that is not there', missing[:2], (3, ''), missing[2])
    folder = case.program_run('serve', proxy.room)
    case.check('a folder', folder[:2], (3, ''), folder[2])
    proxy.file.write_bytes(config.encode() + b'# \xff\n')
    other = case.program_run('serve', proxy.file)
    case.check('a file that is no UTF-8', other[:2], (3, ''), other[2])
    with socket.socket() as probe:
        case.holds('nothing listens', probe.connect_ex((HOST, port)) != 0)


def case_warnings(case):
    """Sections that lack a timeout are warned of by their lines, as by `check`, and it serves as without a warning. A reload
    warns of nothing, and neither does a configuration that is refused."""
    config, port = plain(case, Server(echo))
    timeouts = 'defaults\ntimeout connect 5s\ntimeout client 1m\ntimeout server 1m\n'
    with case.start(timeouts + config) as proxy:
        proxy.reload(config)
        until(lambda: any('reloaded as version 2' in line for line in proxy.said), 'the reload is said')
        case.check('what is said', proxy.said[:2], [f'l4proxy: listening on 127.0.0.1:{port} (frontend f)', 'l4proxy: ready'])
        case.check('what a client gets', exchange(port, b'hello')[0], b'hello')
        case.check('how it ended', proxy.ended().ends(), {'closed done': 1})
        case.check('what is warned of with all timeouts', proxy.warned, [])
    with case.start(config) as proxy:
        case.check('what is warned of without timeouts', proxy.warned, [
            f'l4proxy: {proxy.file}:1: warning: frontend f has no timeout client, so a silent client stays connected',
            f'l4proxy: {proxy.file}:{line_of(config, "server s") - 1}: warning: backend b has no timeout connect and no timeout server, '
            'so a server that does not accept is waited for as long as the kernel tries, and a silent server stays connected'])
        status, out, said = case.program_run('check', proxy.file)
        case.check('what `check` says', (status, out, said.splitlines()), (0, 'ok\n', proxy.warned))
        case.check('what is said then', proxy.said, [f'l4proxy: listening on 127.0.0.1:{port} (frontend f)', 'l4proxy: ready'])
        case.check('what a client gets then', exchange(port, b'hello')[0], b'hello')
        case.check('how that ended', proxy.ended().ends(), {'closed done': 1})
    with case.start(config.replace('default_backend b', 'default_backend nobody'), waits=False) as proxy:
        case.check('one that is refused', (proxy.wait(), proxy.warned, len(proxy.said) > 0), (1, [], True))


def case_usage(case):
    """Words that are no command: status 2, a message, and nothing on standard output."""
    config, _ = plain(case, Server(echo))
    file = pathlib.Path(case.room, 'proxy.cfg')
    file.write_text(config)
    for words in ([], [file, 'more'], [file, '--workers'], [file, '--workers', '0'], [file, '--workers', '65'], [file, '--workers', 'x'],
                  [file, '--workers', '-1'], [file, '--workers', ''], [file, '--workers', '18446744073709551617'], [file, '--worker', '2']):
        status, out, said = case.program_run('serve', *words)
        case.check(f'serve {" ".join(map(str, words[1:]))}: status and output', (status, out), (2, ''), said)
        case.holds(f'serve {" ".join(map(str, words[1:]))}: it is said', said)
    status, out, _ = case.program_run('serve', '--help')
    case.check('serve --help', (status, '--workers' in out), (0, True))
