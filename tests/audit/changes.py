#!/usr/bin/env python3
"""Every front of a small record, and the record with each of its bytes changed in three ways.

    tests/audit/changes.py PROGRAM

What `audit` has to write of each on standard output and on standard error is worked out here, by a model of the one
configuration below and of the form of records, and without the program. Prints what differs, and how many texts were tried;
the exit status is 0 if nothing differs.
"""
import concurrent.futures
import ipaddress
import pathlib
import re
import subprocess
import sys
import tempfile

CONFIG = """frontend f
bind 127.0.0.1:9000
stick-table type ip size 8 store conn_cur
tcp-request connection reject if { src 198.51.100.0/24 }
tcp-request connection track-sc0 src
tcp-request connection reject if { sc0_conn_cur gt 1 }
default_backend b
backend b
server s 10.0.0.20:80
"""
RECORD = b"""1 0 accept 0 192.0.2.5:4000 127.0.0.1:9000
= offer 0.1 used 0 line 9 to 10.0.0.20:80 src 192.0.2.5:4000 dst 127.0.0.1:9000 send - sc0=1.0/192.0.2.5
2 1 connected 0.1
= up 0.1
3 1 accept 0 198.51.100.9:4001 127.0.0.1:9000
= refuse 0.2 used 0 line 4
4 2 accept 0 192.0.2.5:4001 127.0.0.1:9000
= refuse 0.3 used 0 line 6 sc0=1.0/192.0.2.5
5 3 close 0.1 done
= closed 0.1 done
6 4 accept 0 192.0.2.5:4002 127.0.0.1:9000
= offer 0.4 used 0 line 9 to 10.0.0.20:80 src 192.0.2.5:4002 dst 127.0.0.1:9000 send - sc0=1.0/192.0.2.5
7 4 failed 0.4
= closed 0.4 failed
"""
AUDIT = b"""conn 0.2 real 198.51.100.9:4001 refuse line 4
conn 0.3 real 192.0.2.5:4001 refuse line 6
conn 0.1 real 192.0.2.5:4000 src 192.0.2.5:4000 line 9 closed done
conn 0.4 real 192.0.2.5:4002 src 192.0.2.5:4002 line 9 closed failed
checked 7 open 0
"""
EVENTS = (b'0 accept 0 0.0.0.0:0 0.0.0.0:0', b'0 accept 0 [::]:0 [::]:0', b'0 piece 0.1 00', b'0 connected 0.1', b'0 failed 0.1',
          b'0 expire 0.1', b'0 close 0.1 done', b'0 close 0.1 fault', b'0 close 0.1 stopped', b'0 close 0.1 failed', b'0 reload 1')
FAULT = re.compile(rb'line (\d+): (?:Format|WrongReply)\n')
DECIMAL = re.compile(rb'0|[1-9][0-9]*')
FAR = ipaddress.ip_network('198.51.100.0/24')


def number(word, limit):
    """The number of a word below a limit, or None."""
    return int(word) if DECIMAL.fullmatch(word) and int(word) < limit else None


def endpoint(word):
    """The address and the port of a word, or None."""
    host, colon, port = word.rpartition(b':') if word.startswith(b'[') else word.partition(b':')
    if not colon or number(port, 1 << 16) is None:
        return None
    try:
        if host.startswith(b'[') and host.endswith(b']'):
            return ipaddress.IPv6Address(host[1:-1].decode('ascii')), int(port)
        return ipaddress.IPv4Address(host.decode('ascii')), int(port)
    except ValueError:
        return None


def name(word):
    """The name of a connection, or None."""
    frontend, dot, serial = word.partition(b'.')
    parts = number(frontend, 1 << 16), number(serial, 1 << 64)
    return parts if dot and None not in parts else None


def event(line, expected):
    """The verb of the event of a line under the expected number, and what it needs, or None."""
    words = line.split(b' ')
    if len(words) < 4 or words[0] != b'%d' % expected or number(words[1], 1 << 64) is None:
        return None
    verb, rest = words[2], words[3:]
    if verb == b'accept' and len(rest) == 3:
        listener, peer, local = number(rest[0], 1 << 16), endpoint(rest[1]), endpoint(rest[2])
        right = listener is not None and peer and local and peer[0].version == local[0].version
        return (verb, listener, peer, local) if right else None
    found = name(rest[0])
    if verb in (b'connected', b'failed', b'expire') and len(rest) == 1 and found:
        return verb, found
    if verb == b'piece' and len(rest) == 2 and found and re.fullmatch(rb'-|([0-9a-f]{2})+', rest[1]):
        return verb, found
    if verb == b'close' and len(rest) == 2 and found and rest[1] in (b'done', b'fault', b'stopped', b'failed'):
        return verb, found, rest[1]
    return None


def shown(found):
    """An endpoint as it is written."""
    addr, port = found
    return (b'%s:%d' if addr.version == 4 else b'[%s]:%d') % (str(addr).encode(), port)


class Balancer:
    """What the configuration answers to an event: a reply, or None for a fault; and the lines of what ended."""

    def __init__(self):
        self.serial, self.open, self.taken, self.lines = 0, {}, set(), []

    def accept(self, listener, peer, local):
        if listener != 0:
            return None
        self.serial += 1
        end = b'conn 0.%d real %s ' % (self.serial, shown(peer))
        if peer[0] in FAR:
            self.lines.append(end + b'refuse line 4')
            return b'refuse 0.%d used 0 line 4' % self.serial
        track = b' sc0=1.0/%s' % str(peer[0]).encode() if peer[0].version == 4 else b''
        if track and any(source[0] == peer[0] for source, _ in self.open.values()):
            self.lines.append(end + b'refuse line 6')
            return b'refuse 0.%d used 0 line 6' % self.serial + track
        self.open[0, self.serial] = peer, end + b'src %s line 9 ' % shown(peer)
        return b'offer 0.%d used 0 line 9 to 10.0.0.20:80 src %s dst %s send -' % (self.serial, shown(peer), shown(local)) + track

    def close(self, found, why):
        if found not in self.open:
            return None
        _, end = self.open.pop(found)
        self.lines.append(end + b'closed ' + why)
        return b'closed %d.%d ' % found + why

    def connected(self, found):
        if found not in self.open or found in self.taken:
            return None
        self.taken.add(found)
        return b'up %d.%d' % found

    def failed(self, found):
        return None if found in self.taken else self.close(found, b'failed')

    def answer(self, verb, *words):
        """No connection of this configuration waits for a header, so no piece and no expiry is answered."""
        answers = {b'accept': self.accept, b'connected': self.connected, b'failed': self.failed, b'close': self.close}
        return answers[verb](*words) if verb in answers else None


def begins_event(line, expected):
    """Whether a line has an ending with which it is an event under the expected number: one of those of each form."""
    reload = re.compile(rb'%d (?:0|[1-9][0-9]*) reload [1-9][0-9]*' % expected)
    wholes = [b'%d %s' % (expected, sample) for sample in EVENTS]
    ended = (line + whole[at:] for whole in wholes for at in range(len(whole)))
    return any(event(it, expected) or reload.fullmatch(it) for it in ended)


def audit(text):
    """What `audit` writes of a text, its exit status, and whether the line of the fault begins one that is due there."""
    balancer, awaited = Balancer(), None
    lines = text.split(b'\n')
    lines = lines[:-1] if lines[-1] == b'' else lines
    for at, line in enumerate(lines, 1):
        if at % 2 == 1:
            found = event(line, at // 2 + 1)
            if found is None:
                return b'line %d: Format\n' % at, 1, begins_event(line, at // 2 + 1)
            awaited = balancer.answer(*found)
        elif awaited is None or line != b'= ' + awaited:
            kind = b'WrongReply' if line.startswith(b'= ') else b'Format'
            return b'line %d: %s\n' % (at, kind), 1, awaited is not None and (b'= ' + awaited).startswith(line)
    if len(lines) % 2 == 1:
        return b'line %d: Format\n' % (len(lines) + 1), 1, True
    ends = b''.join(line + b'\n' for line in balancer.lines)
    return ends + b'checked %d open %d\n' % (len(lines) // 2, len(balancer.open)), 0, False


def broken_off(name, text, out, is_begun):
    """What `audit` says of a text that ends before the line of its fault does, where that line is begun, or nothing."""
    fault = FAULT.fullmatch(out)
    if not is_begun or not fault or int(fault.group(1)) <= text.count(b'\n'):
        return b''
    line = int(fault.group(1))
    whole = sum(part.startswith(b'= ') for part in text.split(b'\n')[:line - 1])
    right = b'%d whole %s right' % (whole, b'entry is' if whole == 1 else b'entries are')
    return b'l4proxy: %s: it ends in the midst of an entry: %s, and it breaks off at line %d\n' % (name, right, line)


def texts(record):
    """Each front of a record, and each of them with another last byte; and each text that differs from the record in one
    byte: by its lowest bit, by a line feed (or else a space), and by a byte that no text has."""
    for end in range(len(record) + 1):
        yield f'the first {end} bytes', record[:end]
        if end:
            yield f'the first {end} bytes, the last one changed', record[:end - 1] + bytes([record[end - 1] ^ 1])
    for at, byte in enumerate(record):
        for other in byte ^ 1, 32 if byte == 10 else 10, 255:
            yield f'byte {at} is {other}', record[:at] + bytes([other]) + record[at + 1:]


def compare(program, config, record, audit, whole):
    """Whether `audit` of each text says what the model says of it, and the model of the record what it has to."""
    program = str(pathlib.Path(program).resolve())
    with tempfile.TemporaryDirectory() as room, concurrent.futures.ThreadPoolExecutor() as pool:
        opening = pathlib.Path(room, 'cfg')
        opening.write_text(config)

        def tried(numbered):
            number_of_text, (title, text) = numbered
            file = pathlib.Path(room, f'record{number_of_text}')
            file.write_bytes(text)
            done = subprocess.run([program, 'audit', opening, file], stdin=subprocess.DEVNULL, capture_output=True)
            file.unlink()
            out, status, is_begun = audit(text)
            expected = out, status, broken_off(str(file).encode(), text, out, is_begun)
            got = done.stdout, done.returncode, done.stderr
            return status, None if got == expected else f'{title}: {got!r}, not {expected!r}'

        results = list(pool.map(tried, enumerate(texts(record))))
    wrong = [what for _, what in results if what]
    if audit(record) != (whole, 0, False):
        wrong.append('the record itself is wrong')
    right = sum(status == 0 for status, _ in results)
    print('\n'.join(wrong) or f'{len(results)} texts, of which {right} are right')
    return 1 if wrong else 0


if __name__ == '__main__':
    sys.exit(compare(sys.argv[1], CONFIG, RECORD, audit, AUDIT))
