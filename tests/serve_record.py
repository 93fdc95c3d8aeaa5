"""Cases of `tests/serve`: the record, and standard output and standard error that fail."""
import contextlib
import os
import pathlib
import re
import resource
import signal
import subprocess
import threading
import time

from serving import (
    beginning, Client, Closer, echo, exchange, Load, named, PATIENCE, plain, ROOT, Server, Skipped, until,
)

SLOW = re.compile(r'\[WARN  socket_core::door\] standard output is slow: at least (\d+) records wait in memory')
LOST = re.compile(r'\[WARN  socket_core::door\] standard output cannot be written: (\d+) segments? of the record (?:is|are) lost')


def said_of(proxy, line):
    """The numbers in the lines of that form that the proxy wrote."""
    return [int(found[1]) for said in proxy.said if (found := line.fullmatch(said))]


def case_output_closed(case):
    """Standard output that takes nothing: it serves, says so, and ends in order with status 3."""
    config, port = plain(case, Server(echo))
    for what in ('a pipe that nobody reads', 'a full disk'):
        if what == 'a full disk':
            out = os.open('/dev/full', os.O_WRONLY)
        else:
            front, out = os.pipe()
            os.close(front)
        with case.start(config, out=out) as proxy:
            os.close(out)
            case.check(f'{what}: bytes', exchange(port, b'hello')[0], b'hello')
            held = Client(port)
            held.put(b'held')
            case.check(f'{what}: bytes', held.exactly(4), b'held')
            until(lambda: said_of(proxy, LOST), f'{what}: it is said while it serves')
            case.check(f'{what}: bytes after that', exchange(port, b'hello')[0], b'hello')
            proxy.tell(b'quit\n')
            case.check(f'{what}: what an open connection gets then', held.rest(), b'')
            case.check(f'{what}: the status', proxy.wait(), 3, proxy.said)
            case.holds(f'{what}: it is said at the end', 'l4proxy: standard output: cannot be written' in proxy.said, proxy.said)
    with case.start(config, before=lambda: os.close(1)) as proxy:
        held = Client(port)
        held.put(b'held')
        case.check('no standard output: bytes', (exchange(port, b'hello')[0], held.exactly(4)), (b'hello', b'held'))
        time.sleep(1.2)
        case.check('no standard output: bytes later', exchange(port, b'hello')[0], b'hello')
        proxy.tell(b'quit\n')
        case.check('no standard output: nothing of the record goes to a client', held.rest(), b'')
        case.holds('no standard output: the status', (status := proxy.wait()) in (0, 3), status, proxy.said)


@contextlib.contextmanager
def small_disk(folder, size):
    """A file system of so many bytes in a new folder."""
    folder.mkdir()
    made = subprocess.run(['mount', '-t', 'tmpfs', '-o', f'size={size}', 'tmpfs', folder], capture_output=True)
    if made.returncode != 0:
        raise Skipped('this user may not mount a small file system')
    try:
        yield folder
    finally:
        subprocess.run(['umount', '-l', folder], capture_output=True)


def refused_later(case, proxy, port, what, text_of):
    """Standard output takes some segments, and then no more: serving goes on, it is said once a second at the most, and
    what it took is the beginning of the record of all that came."""
    load = Load(port)
    until(lambda: said_of(proxy, LOST), f'{what}: it is said')
    begun, before = time.monotonic(), len(load.done)
    load.wait(before + 1000)
    until(lambda: said_of(proxy, LOST)[-1] > said_of(proxy, LOST)[0], f'{what}: it is said again')
    served, took = load.end(), time.monotonic() - begun
    case.holds(f'{what}: serving goes on', served >= before + 1000, before, served)
    numbers = said_of(proxy, LOST)
    case.check(f'{what}: the lost segments only become more', numbers, sorted(set(numbers)))
    case.holds(f'{what}: it is said once a second at the most', len(numbers) <= took + 3, numbers, took)
    case.check(f'{what}: a new client', exchange(port, b'')[0], b'')
    proxy.tell(b'quit\n')
    case.check(f'{what}: the status', proxy.wait(), 3, proxy.said[-3:])
    case.holds(f'{what}: it is said at the end', 'l4proxy: standard output: cannot be written' in proxy.said, proxy.said[-3:])
    text = text_of()
    record = beginning(case, proxy, what, text)
    case.holds(f'{what}: something was written', 0 < len(record.conns) < served, len(record.conns), served)
    peers = {name for name, _ in load.done}
    strangers = [conn.peer for conn in record.conns.values() if conn.end == 'closed done' and conn.peer not in peers]
    case.check(f'{what}: connections of nobody', strangers[:5], [])
    print(f'{case.name}: {what}: {len(text)} bytes were written, with {len(record.entries)} entries')


def case_output_refused(case):
    """Standard output that takes the beginning of the record, and then no more: a pipe whose reader goes away, a file that
    has its greatest size, and a disk that is full."""
    config, port = plain(case, Closer())
    front, out = os.pipe()
    with case.start(config, out=out) as proxy:
        os.close(out)
        parts = []

        def read_some():
            while sum(map(len, parts)) < 90_000:
                parts.append(os.read(front, 10_000))
            os.close(front)
        threading.Thread(target=read_some, daemon=True).start()
        refused_later(case, proxy, port, 'a pipe whose reader goes away', lambda: b''.join(parts))

    def small_file():
        signal.signal(signal.SIGXFSZ, signal.SIG_IGN)
        resource.setrlimit(resource.RLIMIT_FSIZE, (99_991, 99_991))
    with case.start(config, before=small_file) as proxy:
        refused_later(case, proxy, port, 'a file that may not grow', proxy.record.read_bytes)
        case.check('its size', proxy.record.stat().st_size, 99_991)
    try:
        with small_disk(pathlib.Path(case.room, 'disk'), 131_072) as disk:
            out = os.open(disk / 'record', os.O_WRONLY | os.O_CREAT)
            with case.start(config, out=out) as proxy:
                os.close(out)
                refused_later(case, proxy, port, 'a disk that is full', (disk / 'record').read_bytes)
    except Skipped as why:
        print(f'{case.name}: a disk that is full: not tried: {why}')


def case_output_slow(case):
    """Standard output that is not read while 9,000 connections come: serving goes on, and it is said that records wait.
    Once it is read nothing is missing, and it is said no more."""
    config, port = plain(case, Closer())
    front, out = os.pipe()
    with case.start(config, out=out) as proxy:
        os.close(out)
        load = Load(port, 9_000)
        load.wait(9_000, 45)
        case.check('served meanwhile', load.end(), 9_000, proxy.said[-3:])
        until(lambda: said_of(proxy, SLOW), 'it is said')
        case.holds('how many records wait', 0 < said_of(proxy, SLOW)[-1] <= 27_000 - 64 * 256, said_of(proxy, SLOW))
        parts = []

        def read_all():
            while part := os.read(front, 1 << 16):
                parts.append(part)
        reader = threading.Thread(target=read_all, daemon=True)
        reader.start()
        until(lambda: b''.join(parts).count(b'\n= ') == 27_000, 'what waited comes')
        time.sleep(1.2)
        said = len(proxy.said)
        time.sleep(1.5)
        case.check('what is said after that', proxy.said[said:], [])
        case.check('one more', exchange(port, b'')[0], b'')
        time.sleep(0.3)
        proxy.tell(b'quit\n')
        case.check('the status', proxy.wait(), 0, proxy.said[-3:])
        reader.join(PATIENCE)
        proxy.record.write_bytes(b''.join(parts))
        record = proxy.audited()
        case.check('how they ended', record.ends(), {'closed done': 9_001})
        numbers = said_of(proxy, SLOW)
        case.holds('it is said once a second at the most', len(numbers) <= 50, numbers)


def case_output_waits(case):
    """Standard output that is not read before the proxy is told to end: it waits, and then all is there."""
    config, port = plain(case, Closer())
    front, out = os.pipe()
    with case.start(config, out=out) as proxy:
        os.close(out)
        load = Load(port, 2_000)
        load.wait(2_000)
        case.check('served', load.end(), 2_000)
        time.sleep(0.3)
        proxy.tell(b'quit\n')
        time.sleep(1)
        case.check('it has not ended', proxy.child.poll(), None)
        with open(front, 'rb') as reader:
            proxy.record.write_bytes(reader.read())
        case.check('the status', proxy.wait(), 0, proxy.said[-3:])
        case.check('how they ended', proxy.audited().ends(), {'closed done': 2_000})


def case_record_in_time(case):
    """Where little happens each decision is on standard output within 2 seconds, while the proxy goes on."""
    config, port = plain(case, Server(echo))
    with case.start(config) as proxy:
        def written_within(entries, what):
            begun = time.monotonic()
            until(lambda: proxy.record.read_bytes().count(b'\n= ') >= entries, what, 2)
            case.holds(what, time.monotonic() - begun < 2)
            case.check(f'{what}: it is whole', len(beginning(case, proxy, what, proxy.record.read_bytes()).entries), entries)
        held = Client(port)
        held.put(b'hello')
        case.check('bytes', held.exactly(5), b'hello')
        written_within(2, 'an open connection')
        time.sleep(0.7)
        held.close()
        written_within(3, 'its end')
        exchange(port, b'hello')
        written_within(6, 'another one')
        proxy.reload(config)
        written_within(7, 'a reload')
        case.check('how they ended', proxy.ended().ends(), {'closed done': 2})


def case_record_killed(case):
    """A proxy that is killed under load: what is on disk is the beginning of its record, and has each connection that was
    over two seconds before. Where a pipe is not read, it is what the pipe took of a write."""
    config, port = plain(case, Closer())
    for pause in (2.2, 2.6, 3.1):
        with case.start(config) as proxy:
            load = Load(port, threads=6)
            time.sleep(pause)
            killed = time.monotonic()
            proxy.kill()
            load.end()
            record = beginning(case, proxy, f'after {pause} seconds', proxy.record.read_bytes())
            peers = {conn.peer for conn in record.conns.values()}
            old = [name for name, over in load.done if over < killed - 2]
            case.holds('some were over long before', old, len(load.done))
            case.check('those that are not in the record', [name for name in old if name not in peers][:5], [])
    front, out = os.pipe()
    with case.start(config, out=out) as proxy:
        os.close(out)
        load = Load(port, 1_500)
        load.wait(1_500)
        load.end()
        proxy.kill()
        with open(front, 'rb') as reader:
            text = reader.read()
        record = beginning(case, proxy, 'in the midst of a write', text)
        case.holds('what the pipe took of it', 0 < len(record.conns) < 1_500, len(text))


def case_record_memory(case):
    """Memory stays where it is while short connections come, also where standard output takes nothing."""
    config, port = plain(case, Closer())
    for what in ('a file', 'a full disk'):
        out = os.open('/dev/full', os.O_WRONLY) if what == 'a full disk' else None
        with case.start(config, out=out) as proxy:
            if out is not None:
                os.close(out)
            load = Load(port, 10_000)
            load.wait(2_000, 20)
            first = proxy.resident()
            load.wait(10_000, 30)
            case.check(f'{what}: served', load.end(), 10_000)
            grown = proxy.resident() - first
            case.holds(f'{what}: 8,000 connections leave nothing in memory', grown < 8_000, f'{grown} KB')
            if out is None:
                case.check('how they ended', proxy.ended().ends(), {'closed done': 10_000})


def case_record_in_parts(case):
    """A record that is split between entries into files, when it is whole or while it is written, is joined by `cat`."""
    servers = [Server(named(name)) for name in (b'old:', b'new:')]
    config, port = plain(case, servers[0], 'maxconn 100\n\n# a text of some lines\n')
    with case.start(config) as proxy:
        for number in range(40):
            exchange(port, b'%d' % number)
            if number % 10 == 9:
                proxy.reload(config.replace(servers[0].at, servers[number // 10 % 2].at))
                time.sleep(0.2)
        record = proxy.ended()
        case.check('reloads', len(record.reloads), 4)
        entries = re.split(r'^(?=\d)', record.text, flags=re.M)[1:]
        case.check('entries begin with a digit', len(entries), len(record.entries))
        files = []
        for number in range(0, len(entries), 7):
            files.append(proxy.room / f'part{number:05}')
            files[-1].write_text(''.join(entries[number:number + 7]))
        with open(proxy.record, 'wb') as joined:
            subprocess.run(['cat', *files], stdout=joined, check=True)
        case.check('joined', proxy.audited().text == record.text, True)
        status, out, _ = case.program_run('audit', proxy.opening, files[1])
        case.check('a part alone', (status, out), (1, 'line 1: Format\n'))
    parts = pathlib.Path(case.room, 'parts')
    parts.mkdir()
    is_mawk = 'mawk' in subprocess.run(['awk', '-W', 'version'], stdin=subprocess.DEVNULL, capture_output=True, text=True).stdout
    with subprocess.Popen(['awk', *(['-W', 'interactive'] if is_mawk else []), '-v', f'name={parts}/record', '-v', 'every=400',
                           '-f', ROOT / 'examples' / 'parts.awk'], stdin=subprocess.PIPE) as awk:
        with case.start(config, out=awk.stdin) as proxy:
            awk.stdin.close()
            for number in range(6):
                exchange(port, b'%d' % number)
                time.sleep(0.2)
            proxy.reload(config)

            def joined():
                return b''.join(file.read_bytes() for file in sorted(parts.iterdir()))
            until(lambda: joined().count(b'\n= ') == 19, 'the parts are written while it serves', 3)
            proxy.tell(b'quit\n')
            case.check('the status', (proxy.wait(), awk.wait(PATIENCE)), (0, 0), proxy.said)
            case.holds('there are some', len(list(parts.iterdir())) >= 3)
            proxy.record.write_bytes(joined())
            case.check('how they ended', proxy.audited().ends(), {'closed done': 6})


def case_errors_closed(case):
    """Standard error that takes nothing keeps nobody from being served."""
    config, port = plain(case, Server(echo))
    front, back = os.pipe()
    os.close(front)
    with case.start(config, before=lambda: os.dup2(back, 2), waits=False) as proxy:
        os.close(back)

        def is_there():
            with contextlib.suppress(OSError):
                return exchange(port, b'hello')[0] == b'hello'
        until(is_there, 'it serves')
        proxy.reload('nothing\n')
        time.sleep(0.3)
        case.check('after a reload that is refused', exchange(port, b'hello')[0], b'hello')
        case.check('how they ended', proxy.ended().ends(), {'closed done': 2})
