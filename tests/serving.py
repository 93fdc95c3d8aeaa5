"""What the tests of `serve` share: clients, servers and headers, a proxy with its record, and the way cases are run."""
import collections
import concurrent.futures
import contextlib
import hashlib
import os
import pathlib
import random
import re
import resource
import signal
import socket
import struct
import subprocess
import sys
import tempfile
import threading
import time

ROOT = pathlib.Path(__file__).resolve().parent.parent
PROGRAM = ROOT / 'crates' / 'l4proxy' / 'out' / 'l4proxy'
PATIENCE = 15  # the seconds that a socket, or what is waited for, may take
LIMIT = 60  # the seconds that a link of a server waits for bytes
HOST = '127.0.0.1'
HEADER_WAIT = 3.0
TICKS = os.sysconf('SC_CLK_TCK')
SIGNATURE = bytes.fromhex('0d0a0d0a000d0a515549540a')


class Wrong(Exception):
    """What keeps a case from going on."""


class Skipped(Exception):
    """What this machine does not have."""


# Ports, clients and servers


def free_port(held, host=HOST):
    """A port below those that the kernel gives out. It is held by a socket that does not listen: nobody else finds the
    port free, and a proxy may listen there."""
    family = socket.AF_INET6 if ':' in host else socket.AF_INET
    while True:
        port, holder = random.randrange(12_000, 32_000), socket.socket(family)
        try:
            holder.bind((host, port))
        except OSError:
            holder.close()
            continue
        holder.setsockopt(socket.SOL_SOCKET, socket.SO_REUSEADDR, 1)
        held.append(holder)
        return port


def written(address):
    """An address and a port as records have them."""
    return f'[{address[0]}]:{address[1]}' if ':' in address[0] else f'{address[0]}:{address[1]}'


def until(holds, what, patience=PATIENCE):
    """Waits until something holds, and gives it."""
    last = time.monotonic() + patience
    while not (got := holds()):
        if time.monotonic() > last:
            raise Wrong(f'{what}: not within {patience} seconds')
        time.sleep(0.02)
    return got


class Client(socket.socket):
    """A connection to the proxy, which keeps its own name. Where it is refused, and the end is quicker than what it
    does, that is no fault: it gets nothing."""

    names, guard = set(), threading.Lock()
    is_named_once = True  # not where more clients come than there are ports

    def __init__(self, port, source=HOST, host=HOST, prepare=None):
        super().__init__(socket.AF_INET6 if ':' in host else socket.AF_INET)
        self.bind((source, 0))
        # The kernel gives a port again soon after its connection ended. A name is that of one client alone.
        while not self.is_first():
            os.close(self.detach())
            super().__init__(socket.AF_INET6 if ':' in host else socket.AF_INET)
            self.bind((source, 0))
        self.settimeout(PATIENCE)
        if prepare:
            prepare(self)
        with contextlib.suppress(ConnectionResetError):
            self.connect((host, port))
            self.setsockopt(socket.IPPROTO_TCP, socket.TCP_NODELAY, 1)

    def is_first(self):
        """Whether no client had this end before."""
        self.name = written(self.getsockname())
        with Client.guard:
            is_first = self.name not in Client.names or not Client.is_named_once
            Client.names.add(self.name)
        return is_first

    def put(self, text):
        with contextlib.suppress(ConnectionResetError, BrokenPipeError):
            self.sendall(text)

    def finish(self):
        """Ends the sending."""
        with contextlib.suppress(OSError):
            self.shutdown(socket.SHUT_WR)

    def rest(self):
        """All that comes up to the end, or up to a reset."""
        return rest_of(self)[0]

    def exactly(self, count):
        """So many bytes, or fewer where the end comes."""
        parts = []
        with contextlib.suppress(ConnectionResetError):
            while count > 0 and (part := self.recv(count)):
                parts.append(part)
                count -= len(part)
        return b''.join(parts)

    def reset(self):
        """Ends as a process does whose machine is gone: with a reset."""
        reset(self)


def rest_of(link):
    """All that comes up to the end, and whether that is a proper end and no reset."""
    parts = []
    try:
        while part := link.recv(1 << 16):
            parts.append(part)
    except ConnectionResetError:
        return b''.join(parts), False
    return b''.join(parts), True


def reset(link):
    link.setsockopt(socket.SOL_SOCKET, socket.SO_LINGER, struct.pack('ii', 1, 0))
    link.close()


def exchange(port, text, source=HOST, host=HOST):
    """Sends a text, ends the sending, and gives all that comes back; with the name of the connection."""
    with Client(port, source, host) as client:
        client.put(text)
        client.finish()
        return client.rest(), client.name


class Server(threading.Thread):
    """A server on that port, or one of the kernel's choice; each connection goes to `serve`, in a thread."""

    def __init__(self, serve, host=HOST, limit=LIMIT, port=0):
        super().__init__(daemon=True)
        self.serve, self.limit, self.count, self.lock = serve, limit, 0, threading.Lock()
        self.listener = socket.socket(socket.AF_INET6 if ':' in host else socket.AF_INET)
        self.listener.setsockopt(socket.SOL_SOCKET, socket.SO_REUSEADDR, 1)
        self.listener.bind((host, port))
        self.listener.listen(4096)
        self.port = self.listener.getsockname()[1]
        self.at = written((host, self.port))
        self.start()

    def run(self):
        while True:
            try:
                link, _ = self.listener.accept()
            except OSError:
                return
            link.settimeout(self.limit)
            link.setsockopt(socket.IPPROTO_TCP, socket.TCP_NODELAY, 1)
            self.count += 1
            threading.Thread(target=self.serve_one, args=(link,), daemon=True).start()

    def serve_one(self, link):
        with link, contextlib.suppress(OSError):
            self.serve(link)

    def end(self):
        """Listens no more."""
        with contextlib.suppress(OSError):
            self.listener.shutdown(socket.SHUT_RDWR)
        self.listener.close()


class Closer(Server):
    """A server that ends each connection at once."""

    def __init__(self):
        super().__init__(None)

    def run(self):
        with contextlib.suppress(OSError):
            while True:
                self.listener.accept()[0].close()
                self.count += 1


class Load:
    """Clients that come one after another, in each of some threads, until so many came or it is ended. Each takes all
    that comes, and `done` has its name and when it was over."""

    def __init__(self, port, most=None, threads=4):
        self.port, self.left, self.done = port, most, []
        self.lock, self.is_over = threading.Lock(), False
        self.threads = [threading.Thread(target=self.come_and_go, daemon=True) for _ in range(threads)]
        for thread in self.threads:
            thread.start()

    def may_come(self):
        with self.lock:
            if self.is_over or self.left == 0:
                return False
            if self.left:
                self.left -= 1
            return True

    def come_and_go(self):
        while self.may_come():
            with socket.socket() as client, contextlib.suppress(OSError):
                client.settimeout(PATIENCE)
                client.connect((HOST, self.port))
                name = written(client.getsockname())
                if client.recv(1) == b'':
                    self.done.append((name, time.monotonic()))

    def wait(self, count, patience=40):
        until(lambda: len(self.done) >= count or not any(thread.is_alive() for thread in self.threads),
              f'{count} clients were served', patience)

    def end(self):
        """How many were served."""
        self.is_over = True
        for thread in self.threads:
            thread.join(PATIENCE)
        return len(self.done)


def echo(link):
    while part := link.recv(1 << 16):
        link.sendall(part)


def named(name):
    """A server that says its name, and then sends back what comes."""
    def serve(link):
        link.sendall(name)
        echo(link)
    return serve


@contextlib.contextmanager
def full_backlog():
    """A listener whose queue is full: the kernel answers no more."""
    with contextlib.ExitStack() as links:
        silent = links.enter_context(socket.socket())
        silent.bind((HOST, 0))
        silent.listen(0)
        for _ in range(4):
            one = links.enter_context(socket.socket())
            one.setblocking(False)
            one.connect_ex(silent.getsockname())
        time.sleep(0.2)
        yield silent


def accept_all(listener):
    """Accepts whoever waits at a listener, or comes later: each gets back what it sends."""
    def serve(link):
        with link:
            echo(link)
    with contextlib.suppress(OSError):
        while True:
            threading.Thread(target=serve, args=(listener.accept()[0],), daemon=True).start()


# Records

ACCEPT = re.compile(r'accept (\d+) (\S+) (\S+)')
END = re.compile(r'(closed|refuse) \S+ (?:used \d+ )?(.*?)(?: sc.*)?')
LISTED = re.compile(r'conn (\d+)\.\S+ real \S+ (?:src \S+ line \d+ )?((?:closed|refuse) .*)\n')
OFFER = re.compile(r'offer \S+ used (\d+) line (\d+) to (\S+) src (\S+) dst (\S+) send (\S+)(.*)')


class Conn:
    """What a record says of a connection."""

    def __init__(self, name, moment, accepted, version):
        self.name, self.moment, self.version = name, moment, version
        self.listener, self.peer, self.local = int(accepted[1]), accepted[2], accepted[3]
        self.events, self.replies, self.moments = [], [], []

    def take(self, moment, event, reply):
        self.events.append(event)
        self.replies.append(reply)
        self.moments.append(moment)

    @property
    def offer(self):
        """The parts of its offer: used, line, to, src, dst, send, tracks; or None."""
        return next((found.groups() for reply in self.replies if (found := OFFER.fullmatch(reply))), None)

    @property
    def offers(self):
        """The parts of each of its offers."""
        return [found.groups() for reply in self.replies if (found := OFFER.fullmatch(reply))]

    @property
    def line(self):
        """The line of the server that it was offered, or None."""
        return int(self.offer[1]) if self.offer else None

    @property
    def is_up(self):
        return f'up {self.name}' in self.replies

    @property
    def end(self):
        """How it ended: `closed done`, `refuse line 4`; or None."""
        found = END.fullmatch(self.replies[-1])
        return f'{found[1]} {found[2]}' if found else None


class Record:
    """The entries of a record."""

    def __init__(self, text):
        self.text, self.entries, self.conns, self.reloads, self.marks = text, [], {}, [], []
        event, body = None, []
        for line in text.split('\n')[:-1]:
            if line.startswith('|'):
                body.append(line[1:])
            elif line.startswith('= '):
                self.enter(event, body, line[2:])
                event, body = None, []
            else:
                event = line.split(' ', 2)

    def enter(self, event, body, reply):
        if event is None or len(event) != 3:
            raise Wrong(f'a reply without its event in the record: {reply}')
        number, moment, what = event
        self.entries.append((what, reply))
        if what.startswith('reload '):
            self.reloads.append((len(self.entries), '\n'.join(body), reply))
            return
        if what.startswith('server '):
            self.marks.append((int(moment), what, reply))
            return
        name = reply.split()[1]
        accepted = ACCEPT.fullmatch(what)
        if accepted:
            self.conns[name] = Conn(name, int(moment), accepted, 1 + len(self.reloads))
        self.conns[name].take(int(moment), what, reply)

    def of(self, name):
        """The connection of the client of that name."""
        found = [conn for conn in self.conns.values() if conn.peer == name]
        if len(found) != 1:
            raise Wrong(f'the record has {len(found)} connections from {name}')
        return found[0]

    def ends(self):
        """How many connections ended in each way."""
        return dict(collections.Counter(conn.end for conn in self.conns.values()))


BREAKS_OFF = re.compile(r'line (\d+): (Format|WrongReply)')


def beginning(case, proxy, what, text):
    """The record of the whole entries of a text, which is the beginning of a record: they are right by `audit`, and the
    text itself is right up to its end or breaks off in its last line, which is said."""
    ends = [found.end() for found in re.finditer(rb'^= .*\n', text, re.M)]
    whole, file = text[:ends[-1]] if ends else b'', proxy.room / 'beginning'
    file.write_bytes(whole)
    status, out, said = case.program_run('audit', proxy.opening, file)
    case.check(f'{what}: audit of its whole entries', (status, said), (0, ''), out[-300:])
    case.holds(f'{what}: how many they are', out.rpartition('checked ')[2].startswith(f'{len(ends)} open '), out[-200:],
               len(ends))
    file.write_bytes(text)
    status, out, said = case.program_run('audit', proxy.opening, file)
    fault = BREAKS_OFF.fullmatch(out.rstrip('\n'))
    if fault:
        entries = '1 whole entry is' if len(ends) == 1 else f'{len(ends)} whole entries are'
        right = f'{entries} right, and it breaks off at line {fault[1]}'
        case.holds(f'{what}: the fault is where it ends', int(fault[1]) > text.count(b'\n'), out, text[-300:])
        case.check(f'{what}: what is said', (status, said),
                   (1, f'l4proxy: {file}: it ends in the midst of an entry: {right}\n'))
    else:
        case.check(f'{what}: audit of all of it', (status, said), (0, ''), out[-300:])
    return Record(whole.decode())


def line_of(config, words):
    """The number of the only line that has these words."""
    found = [number for number, line in enumerate(config.split('\n'), 1) if words in line]
    if len(found) != 1:
        raise Wrong(f'{words!r} is on the lines {found}')
    return found[0]


# The proxy


class Proxy:
    """A proxy that was started and is ready. `ended` sends `quit`, and gives the record that was checked. What it says is in
    `said`, except for the warnings of its configuration, which are in `warned`: most cases have no timeouts."""

    def __init__(self, case, config, *words, descriptors=None, out=None, before=None, waits=True, env=None):
        self.case, self.config = case, config
        self.room = pathlib.Path(tempfile.mkdtemp(dir=case.room))
        self.file, self.opening, self.record = self.room / 'proxy.cfg', self.room / 'opening.cfg', self.room / 'record'
        self.file.write_text(config)
        self.opening.write_text(config)

        def prepare():
            if descriptors:
                resource.setrlimit(resource.RLIMIT_NOFILE, (descriptors, descriptors))
            if before:
                before()
        with open(self.record, 'wb') as record:
            self.child = subprocess.Popen([case.program, 'serve', str(self.file), *words], stdin=subprocess.PIPE,
                                          bufsize=0, stdout=record if out is None else out, stderr=subprocess.PIPE,
                                          preexec_fn=prepare, env={**os.environ, **(env or {})})
        case.proxies.append(self)
        self.said, self.warned, self.begun = [], [], time.monotonic()
        self.listener = threading.Thread(target=self.listen, daemon=True)
        self.listener.start()
        if waits:
            self.wait_ready()

    def __enter__(self):
        return self

    def __exit__(self, *_):
        self.kill()

    def listen(self):
        for line in self.child.stderr:
            lines = self.warned if b': warning: ' in line else self.said
            lines.append(line.decode(errors='replace').rstrip('\n'))

    def wait_ready(self):
        last = time.monotonic() + PATIENCE
        while 'l4proxy: ready' not in self.said:
            if self.child.poll() is not None or time.monotonic() > last:
                self.kill()
                raise Wrong(f'the proxy is not ready: status {self.child.returncode}, it said {self.said}')
            time.sleep(0.01)

    def tell(self, line):
        self.child.stdin.write(line)

    def reload(self, config):
        self.file.write_text(config)
        self.tell(b'reload\n')

    def process(self, name):
        return pathlib.Path(f'/proc/{self.child.pid}/{name}')

    def seconds(self):
        """The seconds of processors that it has used."""
        fields = self.process('stat').read_text().rpartition(')')[2].split()
        return (int(fields[11]) + int(fields[12])) / TICKS

    def resident(self):
        """Its resident memory, in KB."""
        return int(re.search(r'VmRSS:\s+(\d+)', self.process('status').read_text()).group(1))

    def descriptors(self):
        return len(os.listdir(self.process('fd')))

    def wait(self, patience=PATIENCE):
        """Its status."""
        try:
            status = self.child.wait(patience)
        except subprocess.TimeoutExpired:
            self.kill()
            raise Wrong(f'the proxy does not end within {patience} seconds; it said {self.said}') from None
        self.listener.join(5)
        return status

    def summed(self, frontend=None):
        """How many connections, or those of the frontend of that number, ended in each way, as `audit` lists them, once the
        proxy was told to end: the record is right, and nothing is open."""
        self.quit(patience=60)
        listed, ends, last = self.room / 'listed', collections.Counter(), ''
        with open(listed, 'wb') as out:
            status = subprocess.run([self.case.program, 'audit', self.opening, self.record], stdout=out).returncode
        with open(listed) as lines:
            for line in lines:
                last = line
                if (found := LISTED.fullmatch(line)) and frontend in (None, int(found[1])):
                    ends[found[2]] += 1
        self.case.check('audit of the record', (status, last[:8], last[-8:]), (0, 'checked ', ' open 0\n'), last)
        return ends

    def quit(self, rest=0.3, quit_by=b'quit\n', status=0, patience=PATIENCE):
        """Tells the proxy to end, which is to have that status."""
        time.sleep(rest)
        if self.child.poll() is not None:
            raise Wrong(f'the proxy ended by itself: status {self.child.returncode}, it said {self.said}')
        if quit_by:
            self.tell(quit_by)
        else:
            self.child.stdin.close()
        self.case.check('the status', self.wait(patience), status, self.said)

    def ended(self, **how):
        """The record, once the proxy was told to end and `audit` has found the record right with nothing open."""
        self.quit(**how)
        return self.audited()

    def audited(self):
        record = Record(self.record.read_text())
        done = subprocess.run([self.case.program, 'audit', self.opening, self.record], capture_output=True, text=True)
        lines = done.stdout.splitlines()
        last = lines[-1:] or [done.stderr]
        left = [conn.name for conn in record.conns.values() if not conn.end][:9]
        self.case.check('audit of the record', (done.returncode, last), (0, [f'checked {len(record.entries)} open 0']),
                        record.text[-1500:] if done.returncode else left)
        self.case.check('lines of audit', len(lines) - 1, len(record.conns))
        return record

    def kill(self):
        if self.child.poll() is None:
            self.child.kill()
            self.child.wait()


class Case:
    """What a case checks with."""

    def __init__(self, program, name, room):
        self.program, self.name, self.room = program, name, room
        self.passed = self.failed = 0
        self.held, self.proxies = [], []

    def check(self, what, got, expected, *more):
        if got == expected:
            self.passed += 1
            return
        self.failed += 1
        told = ''.join(f'\n  {one}' for one in more)
        print(f'{self.name}: {what} ... failed: expected {expected!r}, got {got!r}{told}', flush=True)

    def holds(self, what, true, *more):
        self.check(what, bool(true), True, *more)

    def say(self, text):
        """Prints what was seen."""
        print(f'{self.name}: {text}', flush=True)

    def port(self, host=HOST):
        return free_port(self.held, host)

    def start(self, config, *words, **how):
        return Proxy(self, config, *words, **how)

    def program_run(self, *words, **how):
        done = subprocess.run([self.program, *map(str, words)], stdin=subprocess.DEVNULL, capture_output=True,
                              text=True, timeout=PATIENCE, **how)
        return done.returncode, done.stdout, done.stderr

    def served(self, record, name, line, end='closed done'):
        """That the client of that name was offered the server on a line, which took it."""
        conn = record.of(name)
        self.check(f'{name} in the record', (conn.line, conn.is_up, conn.end), (line, True, end), conn.replies)
        return conn

    def refused(self, record, name, cause):
        conn = record.of(name)
        self.check(f'{name} in the record', (conn.line, conn.end), (None, f'refuse {cause}'), conn.replies)
        return conn


def plain(case, server, more='', host=HOST):
    """A configuration of one frontend and one server, and its port."""
    port = case.port(host)
    return f'frontend f\nbind {written((host, port))}\n{more}default_backend b\nbackend b\nserver s {server.at}\n', port


def many(count, one):
    """The results of calls at once, each with its number."""
    gate = threading.Barrier(count)

    def call(number):
        gate.wait()
        return one(number)
    with concurrent.futures.ThreadPoolExecutor(count) as pool:
        return list(pool.map(call, range(count)))


def both(link, data):
    """Sends data and takes what comes, at once; the checksum of what came, and its length."""
    with concurrent.futures.ThreadPoolExecutor(1) as pool:
        taken = pool.submit(rest_of, link)
        link.sendall(data)
        link.shutdown(socket.SHUT_WR)
        got = taken.result()[0]
    return hashlib.sha256(got).hexdigest(), len(got)


def shared_object(room, name):
    """The shared object of tests/NAME.c, for a program to load first."""
    library = pathlib.Path(room, f'{name}.so')
    source = ROOT / 'tests' / f'{name}.c'
    subprocess.run(['clang', '-O2', '-shared', '-fPIC', '-o', library, source, '-ldl'], check=True)
    return library


def come_and_reset(port, count):
    """So many clients one after another that reset: at once, after some bytes, or after their answer."""
    for number in range(count):
        with contextlib.suppress(OSError):
            client = socket.create_connection((HOST, port), PATIENCE)
            if number % 3:
                client.sendall(b'hello')
            if number % 3 == 2:
                client.recv(1)
            reset(client)


# PROXY headers

LINE = b'PROXY TCP4 203.0.113.7 198.51.100.1 4000 443\r\n'
BLOCK = SIGNATURE + bytes.fromhex('2111000ccb007107c63364010fa001bb')
LONG_BLOCK = SIGNATURE + bytes.fromhex('21110030cb007107c63364010fa001bb') + b'\x04\0\x21' + bytes(33)
WIDE_BLOCK = SIGNATURE + bytes.fromhex('21210024') + bytes.fromhex('20010db8000000000000000000000007') + \
    bytes.fromhex('20010db8000000000000000000000001') + bytes.fromhex('0fa001bb')
WIDE_LONG_BLOCK = WIDE_BLOCK[:14] + b'\0\x48' + WIDE_BLOCK[16:] + LONG_BLOCK[28:]
WIDE_LINE = b'PROXY TCP6 2001:db8::7 2001:db8::1 4000 443\r\n'
LOCAL = SIGNATURE + bytes.fromhex('20000000')
UNKNOWN = b'PROXY UNKNOWN\r\n'
NARROW, WIDE = ('203.0.113.7:4000', '198.51.100.1:443'), ('[2001:db8::7]:4000', '[2001:db8::1]:443')


def waiting(case, server, more='', by_rule=False):
    """A configuration that demands a header of everybody: by its listener, or by a rule."""
    port = case.port()
    demands = '\ntcp-request connection expect-proxy layer4' if by_rule else ' accept-proxy'
    return f'frontend f\nbind 127.0.0.1:{port}{demands}\n{more}default_backend b\nbackend b\nserver s {server.at}\n', port


# Running cases


def cases_of(names):
    """The cases among the names of a script: the functions that begin with `case_`."""
    return {name[5:]: value for name, value in names.items() if name.startswith('case_')}


def place_of(error):
    """Where an error comes from that no case has foreseen."""
    if isinstance(error, Wrong):
        return ''
    after = error.__traceback__.tb_next
    place = f'{pathlib.Path(after.tb_frame.f_code.co_filename).name}, line {after.tb_lineno}' if after else 'line 0'
    return f' ({type(error).__name__}, {place})'


def run_case(program, name, attempt, descriptors):
    """Runs one case in this process, which may have so many descriptors."""
    _, hard = resource.getrlimit(resource.RLIMIT_NOFILE)
    soft = descriptors if hard == resource.RLIM_INFINITY else min(hard, descriptors)
    resource.setrlimit(resource.RLIMIT_NOFILE, (soft, hard))
    with tempfile.TemporaryDirectory() as room:
        case = Case(program, name, room)
        try:
            attempt(case)
        except Skipped as why:
            print(f'{name}: not tried: {why}')
        except Exception as error:  # whatever goes wrong is a failure of the case
            case.failed += 1
            print(f'{name} ... failed: {error}{place_of(error)}')
            for proxy in case.proxies:
                for line in proxy.said[:20]:
                    print(f'  said: {line}')
        for proxy in case.proxies:
            proxy.kill()
    print(f'{case.passed} passed, {case.failed} failed', flush=True)
    os._exit(0 if case.failed == 0 else 1)  # threads of servers may still wait


def watched(words, name, limit):
    """Runs a case by a command in a process of its own, and gives its lines and what it counted."""
    begun = time.monotonic()
    with subprocess.Popen([sys.executable, *words, '--case', name], stdin=subprocess.DEVNULL, stdout=subprocess.PIPE,
                          stderr=subprocess.STDOUT, text=True, errors='replace', start_new_session=True) as child:
        try:
            out = child.communicate(timeout=limit)[0]
        except subprocess.TimeoutExpired:
            os.killpg(child.pid, signal.SIGKILL)
            late = f'{name} ... failed: it did not end within {limit} seconds'
            return name, [*child.communicate()[0].splitlines(), late], 0, 1, limit
    *lines, last = out.splitlines() or ['']
    counted, took = re.fullmatch(r'(\d+) passed, (\d+) failed', last), time.monotonic() - begun
    if not counted:
        return name, [*lines, last, f'{name} ... failed: it ended with status {child.returncode}'], 0, 1, took
    return name, lines, int(counted.group(1)), int(counted.group(2)), took


def run_cases(words, names, at_once, limit_of):
    """Runs cases by a command, so many at once, each within its seconds. Prints what they print, and gives what they
    counted."""
    passed = failed = 0
    with concurrent.futures.ThreadPoolExecutor(at_once) as pool:
        for name, lines, right, wrong, took in pool.map(lambda name: watched(words, name, limit_of(name)), names):
            for line in lines:
                print(line)
            print(f'{name}: {"ok" if not wrong else "failed"}, {took:.1f} seconds', flush=True)
            passed += right
            failed += wrong
    return passed, failed
