#!/usr/bin/env python3
"""Every front of a small record with reloads, and the record with each of its bytes changed in three ways.

    tests/audit/reloads.py PROGRAM

What `audit` has to write of each on standard output and on standard error is worked out here, by the plain model of
tests/plain.py and the form of records, and without the program: a byte of a text may make another configuration of it,
one that is refused, or no text. Prints what differs, and how many texts were tried; the exit status is 0 if nothing
differs."""
import pathlib
import re
import sys

import changes

sys.path.insert(0, str(pathlib.Path(__file__).resolve().parent.parent))
import plain  # noqa: E402

CONFIG = """frontend f
bind 127.0.0.1:9000
bind 127.0.0.1:9001 accept-proxy
stick-table type ip size 8 store conn_cur
tcp-request connection track-sc0 src
default_backend b
backend b
server s 10.0.0.20:80
"""
RECORD = b"""1 0 accept 0 192.0.2.5:4000 127.0.0.1:9000
= offer 0.1 used 0 line 8 to 10.0.0.20:80 src 192.0.2.5:4000 dst 127.0.0.1:9000 send - sc0=1.0/192.0.2.5
2 0 accept 1 10.1.1.1:5000 127.0.0.1:9001
= wait 0.2 used 0 sc0=1.0/10.1.1.1
3 1 reload 9
|frontend f
|bind 127.0.0.1:9000
|bind 127.0.0.1:9001 accept-proxy
|stick-table type ip size 8 store conn_cur
|tcp-request connection track-sc0 src
|tcp-request connection reject if { sc0_conn_cur gt 1 }
|default_backend b
|backend b
|server s 10.0.0.20:81 maxconn 1
= reloaded 2
4 2 accept 0 192.0.2.5:4001 127.0.0.1:9000
= refuse 0.3 used 0 line 6 sc0=1.0/192.0.2.5
5 2 piece 0.2 50524f585920554e4b4e4f574e0d0a
= offer 0.2 used 15 line 8 to 10.0.0.20:80 src 10.1.1.1:5000 dst 127.0.0.1:9001 send -
6 3 accept 0 192.0.2.6:4000 127.0.0.1:9000
= offer 0.4 used 0 line 9 to 10.0.0.20:81 src 192.0.2.6:4000 dst 127.0.0.1:9000 send - sc0=1.0/192.0.2.6
7 3 accept 0 192.0.2.7:4000 127.0.0.1:9000
= refuse 0.5 used 0 noserver line 8 sc0=1.0/192.0.2.7
8 4 reload 4
|frontend f # without
|bind 127.0.0.1:9001 accept-proxy
|bind 127.0.0.1:9000
|tcp-request connection expect-proxy layer4 if { src 192.0.2.8 }
= reloaded 3
9 5 accept 0 192.0.2.8:4000 127.0.0.1:9000
= wait 0.6 used 0
10 5 accept 0 192.0.2.6:4000 127.0.0.1:9000
= refuse 0.7 used 0 nobackend line 1
11 5 piece 0.6 50524f585920554e4b4e4f574e0d0a
= refuse 0.6 used 15 nobackend line 1
12 5 close 0.1 done
= closed 0.1 done
13 6 close 0.4 fault
= closed 0.4 fault
"""
AUDIT = b"""conn 0.3 real 192.0.2.5:4001 refuse line 6
conn 0.5 real 192.0.2.7:4000 refuse noserver line 8
conn 0.7 real 192.0.2.6:4000 refuse nobackend line 1
conn 0.6 real 192.0.2.8:4000 refuse nobackend line 1
conn 0.1 real 192.0.2.5:4000 src 192.0.2.5:4000 line 8 closed done
conn 0.4 real 192.0.2.6:4000 src 192.0.2.6:4000 line 9 closed fault
checked 13 open 1
"""


class Wrong(Exception):
    """The line of a record that is wrong, how, and whether it begins one that is due there."""


def reload_of(line, expected):
    """How many lines the text of a reload has, if the line begins one under the expected number."""
    found = re.fullmatch(rb'%d (\d+) reload (\d+)' % expected, line)
    if found is None or changes.number(found.group(1), 1 << 64) is None:
        return None
    return changes.number(found.group(2), 1 << 64) or None


def bar_text(lines, at):
    """The text of the line of that number after its bar."""
    if at > len(lines):
        raise Wrong(at, 'Format', True)
    line = lines[at - 1]
    try:
        if line[:1] == b'|' and line.decode():
            return line[1:]
    except UnicodeDecodeError as fault:
        raise Wrong(at, 'Format', fault.reason == 'unexpected end of data') from fault
    raise Wrong(at, 'Format', False)


def answer(balancer, line, texts):
    """The answer to an event, of which texts are the lines after the first."""
    _, moment, verb, *words = line.decode().split(' ')
    return balancer.step(int(moment), verb, *([b'\n'.join(texts)] if verb == 'reload' else words)).encode()


def follow(lines, balancer):
    """The number of events of a record, each of which has to be answered as it says."""
    at = count = 0
    while at < len(lines):
        at, count = at + 1, count + 1
        line = lines[at - 1]
        missing = reload_of(line, count)
        if missing is None and changes.event(line, count) is None:
            raise Wrong(at, 'Format', changes.begins_event(line, count))
        texts = []
        while len(texts) < (missing or 0):
            at += 1
            texts.append(bar_text(lines, at))
        said = answer(balancer, line, texts)
        at += 1
        if at > len(lines):
            raise Wrong(at, 'Format', True)
        given, is_refused = lines[at - 1], said.startswith(b'fault ')
        if is_refused or given != b'= ' + said:
            kind = 'WrongReply' if given.startswith(b'= ') else 'Format'
            raise Wrong(at, kind, not is_refused and (b'= ' + said).startswith(given))
    return count


def audit(text):
    """What `audit` writes of a text, its exit status, and whether the line of the fault begins one that is due there."""
    lines, balancer = text.split(b'\n'), plain.Balancer(CONFIG.encode())
    try:
        count = follow(lines[:-1] if lines[-1] == b'' else lines, balancer)
    except Wrong as wrong:
        at, kind, is_begun = wrong.args
        return b'line %d: %s\n' % (at, kind.encode()), 1, is_begun
    ends = ''.join(line + '\n' for line in balancer.ended).encode()
    return ends + b'checked %d open %d\n' % (count, len(balancer.open)), 0, False


if __name__ == '__main__':
    sys.exit(changes.compare(sys.argv[1], CONFIG, RECORD, audit, AUDIT))
