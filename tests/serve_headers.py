"""Cases of `tests/serve`: PROXY headers."""
import concurrent.futures
import pathlib
import re
import resource
import select
import signal
import socket
import struct
import time

from serving import (
    BLOCK, Client, echo, exchange, HEADER_WAIT, LINE, line_of, LOCAL, LONG_BLOCK, many, named, NARROW, Server,
    shared_object, SIGNATURE, Skipped, UNKNOWN, until, waiting, WIDE, WIDE_BLOCK, WIDE_LINE, Wrong,
)

TRIES = 4  # for clients that are too slow to say anything of the proxy


def send_pieces(client, pieces, pause):
    """Sends the pieces and ends the sending; how many seconds that took, which no proxy can make longer."""
    begun = time.monotonic()
    for piece in pieces:
        client.put(piece)
        if pause:
            time.sleep(pause)
    client.finish()
    return time.monotonic() - begun


def in_pieces(port, pieces, pause):
    with Client(port) as client:
        send_pieces(client, pieces, pause)
        return client.rest(), client.name


def in_time(port, pieces):
    """What a client gets that sends its pieces 3 ms apart, its name, and how often it came. One that took so long to send them that
    its header may be late says nothing of the proxy, and comes again."""
    for came in range(1, TRIES + 1):
        with Client(port) as client:
            took = send_pieces(client, pieces, 0.003)
            answer, name = client.rest(), client.name
        if took < HEADER_WAIT / 2:
            break
    return answer, name, came


def cut_headers(case, headers, by_rule):
    """Headers in pieces of every size, and cut in two at every place, with payload after them."""
    config, port = waiting(case, Server(echo), by_rule=by_rule)
    tries = []
    for header, pair in headers:
        whole = header + b'hello, server\n'
        tries += [(header, pair, [whole[at:at + size] for at in range(0, len(whole), size)]) for size in range(1, len(whole) + 1)]
        tries += [(header, pair, [part for part in (whole[:at], whole[at:]) if part]) for at in range(1, len(whole))]
    with case.start(config) as proxy:
        with concurrent.futures.ThreadPoolExecutor(24) as pool:
            got = list(pool.map(lambda one: in_time(port, one[2]), tries))
        record = proxy.ended()
        for (header, pair, pieces), (answer, name, _) in zip(tries, got):
            sizes = [len(piece) for piece in pieces][:4]
            case.check(f'payload after {header[:20]!r} in pieces of {sizes}', answer, b'hello, server\n')
            conn = case.served(record, name, line_of(config, 'server s'))
            case.check('the pair that was judged', conn.offer[3:5] if conn.offer else None, pair or (name, f'127.0.0.1:{port}'), conn.replies)
        came = sum(came for _, _, came in got)
        case.check('connections in the record', len(record.conns), came)
        if came > len(tries):
            case.say(f'{came - len(tries)} clients were too slow to send their pieces, and came again')


def case_header_lines(case):
    """PROXY headers of version 1 in pieces of every size."""
    cut_headers(case, [(LINE, NARROW), (WIDE_LINE, WIDE), (UNKNOWN, None)], by_rule=False)


def case_header_blocks(case):
    """PROXY headers of version 2 in pieces of every size, which a rule demands."""
    cut_headers(case, [(BLOCK, NARROW), (LONG_BLOCK, NARROW), (WIDE_BLOCK, WIDE), (LOCAL, None)], by_rule=True)


def case_header_payload(case):
    """What follows a header in its piece arrives whole, however much it is, and whatever it looks like."""
    config, port = waiting(case, Server(echo))
    payloads = [b'', b'\0', LINE, BLOCK, b'\r\n' * 9, bytes(range(256)) * 40, bytes(range(256)) * 1000,
                *(bytes(65 + at % 26 for at in range(16_384 - len(LINE) + more)) for more in (-1, 0, 1))]
    with case.start(config) as proxy:
        got = []
        for header in (LINE, BLOCK):
            for payload in payloads:
                with Client(port) as client, concurrent.futures.ThreadPoolExecutor(1) as pool:
                    answer = pool.submit(client.rest)
                    client.put(header + payload)
                    client.finish()
                    got.append((header, payload, answer.result(), client.name))
        record = proxy.ended()
        for header, payload, answer, name in got:
            case.holds(f'{len(payload)} bytes after a header of {len(header)}', answer == payload, f'{len(answer)} bytes came: {answer[:40]!r}')
            conn = case.served(record, name, line_of(config, 'server s'))
            case.check('what is sent first', conn.offer and conn.offer[5], '-')


def case_header_refused(case):
    """A header that is wrong is refused with its fault; rules of `session` see the declared source; an end or a reset in
    the header is a fault of the connection."""
    server = Server(echo)
    config, port = waiting(case, server, 'tcp-request connection reject if { src 127.0.0.2 }\ntcp-request session reject if { src 203.0.113.9 }\n')
    faults = [(b'GET / HTTP/1.1\r\n\r\n', 'NotProxy'), (b'PROXY TCP4 1.2.3.4 5.6.7.8 04000 443\r\nhello', 'BadPort'),
              (b'PROXY TCP4 1.2.3.256 5.6.7.8 4000 443\r\n', 'BadAddress'), (b'PROXY TCP4  1.2.3.4 5.6.7.8 4000 443\r\n', 'BadLine'),
              (b'PROXY ' + b'x' * 101, 'TooLong'), (SIGNATURE + b'\x11\x11\0\x0c', 'BadVersion'), (SIGNATURE + b'\x22\x11\0\x0c', 'BadCommand'),
              (SIGNATURE + b'\x21\x41\0\x0c', 'BadFamily'), (SIGNATURE + b'\x21\x11\0\x0b', 'ShortBlock')]
    with case.start(config) as proxy:
        got = []
        for text, _ in faults:
            with Client(port) as client:
                client.put(text)  # without an end: the refusal is the proxy's own
                got.append((client.rest(), client.name))
        barred, barred_name = exchange(port, LINE.replace(b'113.7', b'113.9') + b'hello')
        outside, outside_name = exchange(port, LINE + b'hello', '127.0.0.2')
        ends = [exchange(port, part) for part in (b'', LINE[:20], LINE[:-1], BLOCK[:-1])]
        gone = Client(port)
        gone.put(LINE[:30])
        time.sleep(0.2)
        gone.reset()
        right, right_name = exchange(port, LINE + b'hello')
        record = proxy.ended()
        for (text, fault), (answer, name) in zip(faults, got):
            case.check(f'an answer to {text[:30]!r}', answer, b'')
            case.refused(record, name, f'header {fault}')
        case.check('a declared source that is barred', barred, b'')
        conn = case.refused(record, barred_name, f'line {line_of(config, "session reject")}')
        case.check('a peer that is barred', outside, b'')
        case.refused(record, outside_name, f'line {line_of(config, "connection reject")}')
        for answer, name in [*ends, (b'', gone.name)]:
            case.check('an answer to the beginning of a header', answer, b'')
            conn = record.of(name)
            case.check(f'{name}, which ended in its header', (conn.line, conn.end), (None, 'closed fault'), conn.replies)
        case.check('a right header', right, b'hello')
        case.served(record, right_name, line_of(config, 'server s'))
        case.check('connections that the server saw', server.count, 1)


def own_header(name, port):
    """The header of version 1 that states a client of that name and a listener of that port."""
    host, own_port = name.split(':')
    return f'PROXY TCP4 {host} 127.0.0.1 {own_port} {port}\r\n'.encode()


def case_header_by_rule(case):
    """One listener for clients with a header and without: a rule names those of which it is demanded. The others are served
    at once, and what they send is payload, also where it looks like a header."""
    server, port = Server(named(b'220 ready\r\n')), case.port()
    config = f"""frontend f
bind 127.0.0.1:{port}
tcp-request connection accept if {{ src 127.0.0.5 }}
tcp-request connection expect-proxy layer4 if {{ src 127.0.0.1 127.0.0.3 127.0.0.5 }}
tcp-request connection reject if {{ src 127.0.0.3 }}
tcp-request session reject if {{ src 203.0.113.9 127.0.0.4 }}
default_backend b
backend b
server s {server.at} send-proxy
"""
    line, barred = line_of(config, 'server s'), LINE.replace(b'113.7', b'113.9')
    local = f'127.0.0.1:{port}'

    def tried(source, text):
        answer, name = exchange(port, text, source)
        return source, text, answer, name

    def left_alone(text):
        """What one who is named gets that sends no more than that, its name, and after how long."""
        begun = time.monotonic()
        with Client(port) as client:
            client.put(text)
            return client.rest(), client.name, time.monotonic() - begun
    with case.start(config, '--workers', '3') as proxy, concurrent.futures.ThreadPoolExecutor(2) as pool:
        waiting_ones = [pool.submit(left_alone, text) for text in (b'', LINE[:20])]
        with Client(port, '127.0.0.2') as quiet:  # the server speaks before the client does
            greeting = b'220 ready\r\n' + own_header(quiet.name, port)
            case.check('what one who is not named gets before it says a word', quiet.exactly(len(greeting)), greeting)
            quiet_name = quiet.name
        named_ones = [tried('127.0.0.1', header + payload) for header in (LINE, BLOCK) for payload in (b'', b'hello', LINE, bytes(100_000))]
        local_one, local_name = exchange(port, LOCAL + b'hello')
        others = [tried(source, text) for source in ('127.0.0.2', '127.0.0.5') for text in (b'', b'hello', LINE + b'hello', BLOCK, barred + b'hello')]
        cut, cut_name = in_pieces(port, [LINE[:1], LINE[1:30], LINE[30:] + b'hel', b'lo'], 0.05)
        refused = [tried('127.0.0.1', text) for text in (b'EHLO mail.example\r\n', b'\0', barred + b'hello')]
        refused += [tried('127.0.0.3', LINE + b'hello'), tried('127.0.0.4', b'hello')]
        with Client(port) as client:  # without an end: the refusal is the proxy's own
            client.put(b'EHLO mail.example\r\n')
            started = time.monotonic()
            case.check('an answer to the first bytes of one who is named and sends no header', client.rest(), b'')
            case.holds('it is refused after them, and not later', time.monotonic() - started < 1.5, time.monotonic() - started)
            greeter = client.name

        def one(number):
            source = f'127.0.0.{1 + number % 2}'
            return source, *exchange(port, (LINE if number % 2 == 0 else b'') + b'%d' % number, source), b'%d' % number
        mixed = many(40, one)
        seen, waited = server.count, [one.result() for one in waiting_ones]
        record = proxy.ended()
        for answer, name, seconds in waited:
            case.check('an answer to nothing, or to the beginning of a header', answer, b'')
            case.holds('it is refused 3 s after it came', HEADER_WAIT - 0.1 < seconds < HEADER_WAIT + 1.5, seconds)
            case.refused(record, name, 'expired')
        for source, text, answer, name in named_ones:
            payload = text[len(LINE):] if text.startswith(LINE) else text[len(BLOCK):]
            case.holds(f'what the server of {name} got', answer == b'220 ready\r\n' + LINE + payload, answer[:100], len(answer))
            case.check('the declared pair is judged', case.served(record, name, line).offer[3:5], NARROW)
        case.check('one whose header declares nobody', local_one, b'220 ready\r\n' + own_header(local_name, port) + b'hello')
        case.check('its own pair is judged', case.served(record, local_name, line).offer[3:5], (local_name, local))
        for source, text, answer, name in others:
            case.check(f'what the server of {name} got', answer, b'220 ready\r\n' + own_header(name, port) + text)
            conn = case.served(record, name, line)
            case.check('its own pair is judged, at its accept', (conn.offer[3:5], conn.offer[0], conn.replies[0].split()[0]), ((name, local), '0', 'offer'))
        case.check('one whose header comes in pieces', cut, b'220 ready\r\n' + LINE + b'hello')
        case.check('the declared pair is judged', case.served(record, cut_name, line).offer[3:5], NARROW)
        for source, answer, name, text in mixed:
            header = LINE if source == '127.0.0.1' else own_header(name, port)
            case.check(f'what the server of {name} got', answer, b'220 ready\r\n' + header + text)
            case.served(record, name, line)
        causes = ['header NotProxy', 'header NotProxy', f'line {line_of(config, "203.0.113.9")}',
                  f'line {line_of(config, "connection reject")}', f'line {line_of(config, "203.0.113.9")}']
        for (source, text, answer, name), cause in zip(refused, causes):
            case.check(f'an answer to {name}, which is refused', answer, b'')
            case.refused(record, name, cause)
        case.check('the events of one who is rejected after such a rule', record.of(refused[3][3]).events, [f'accept 0 {refused[3][3]} {local}'])
        case.refused(record, greeter, 'header NotProxy')
        case.served(record, quiet_name, line)
        case.check('connections that the server saw', seen, 3 + len(named_ones) + len(others) + len(mixed))


def case_header_by_rule_reload(case):
    """A reload adds a rule that demands a header, and takes one away, while connections wait and while others talk: each goes
    on as it began, and who comes later is judged by the new text."""
    servers, port = [Server(named(name)) for name in (b'old:', b'new:', b'last:')], case.port()

    def text(server, rule):
        return f'frontend f\nbind 127.0.0.1:{port}\n{rule}tcp-request session reject if {{ src 203.0.113.9 }}\ndefault_backend b\n' \
            f'backend b\nserver s {server.at}\n'
    first = text(servers[0], 'tcp-request connection expect-proxy layer4 if { src 127.0.0.1 }\n')
    second = text(servers[1], 'tcp-request connection expect-proxy layer4 unless { src 127.0.0.1 }\n')
    third = text(servers[2], '')
    with case.start(first) as proxy:
        half, late, talking = Client(port), Client(port), Client(port, '127.0.0.2')
        half.put(LINE[:20])
        talking.put(b'one,')
        case.check('one who is not named', talking.exactly(8), b'old:one,')
        proxy.reload(second)
        until(lambda: exchange(port, b'', '127.0.0.1')[0] == b'new:', 'the reload is in force')
        talking.put(LINE)  # it waits for no header, so this is payload
        case.check('the one who talks goes on', talking.exactly(len(LINE)), LINE)
        half.put(LINE[20:] + b'hello')
        half.finish()
        case.check('the one who waited since before', half.rest(), b'old:hello')
        late.put(b'EHLO mail.example\r\n')
        case.check('another one, which sends no header', late.rest(), b'')
        plain_one, plain_name = exchange(port, LINE + b'hello', '127.0.0.1')
        case.check('one of whom no header is demanded any more', plain_one, b'new:' + LINE + b'hello')
        declared, declared_name = exchange(port, LINE + b'hello', '127.0.0.2')
        case.check('one of whom it is demanded now', declared, b'new:hello')
        bare, bare_name = exchange(port, b'hello', '127.0.0.2')
        case.check('one of whom it is demanded now, and who sends none', bare, b'')
        waits = Client(port, '127.0.0.3')
        waits.put(LINE[:30])
        proxy.reload(third)
        until(lambda: exchange(port, b'', '127.0.0.3')[0] == b'last:', 'the second reload is in force')
        waits.put(LINE[30:])
        waits.finish()
        case.check('one who waited when the rule went', waits.rest(), b'new:')
        talking.put(b'two')
        case.check('the one who talks goes on', talking.exactly(3), b'two')
        talking.close()
        record = proxy.ended()
        case.check('reloads', [reply for _, _, reply in record.reloads], ['reloaded 2', 'reloaded 3'])
        case.check('who waited since before', case.served(record, half.name, line_of(first, 'server s')).offer[2:4], (servers[0].at, NARROW[0]))
        case.refused(record, late.name, 'header NotProxy')
        case.check('the versions', [record.of(name).version for name in (half.name, talking.name, plain_name, declared_name, waits.name)], [1, 1, 2, 2, 2])
        case.served(record, talking.name, line_of(first, 'server s'))
        case.check('its own pair is judged', case.served(record, plain_name, line_of(second, 'server s')).offer[3], plain_name)
        case.check('the declared pair is judged', case.served(record, declared_name, line_of(second, 'server s')).offer[3], NARROW[0])
        case.refused(record, bare_name, 'header NotProxy')
        case.served(record, waits.name, line_of(second, 'server s'))


def case_header_sent(case):
    """`send-proxy` and `send-proxy-v2`: the server is told the source that was judged, once, before the payload."""
    server, ports = Server(echo), [case.port() for _ in range(4)]
    config = ''.join(f'frontend f{at}\nbind 127.0.0.1:{port}{" accept-proxy" * (at > 1)}\ndefault_backend b{at % 2}\n' for at, port in enumerate(ports))
    config += f'backend b0\nserver s {server.at} send-proxy\nbackend b1\nserver s {server.at} send-proxy-v2\n'

    def block(source, target):
        def packed(address):
            return socket.inet_aton(address.split(':')[0])
        return SIGNATURE + b'\x21\x11\0\x0c' + packed(source) + packed(target) + struct.pack('>HH', int(source.split(':')[1]), int(target.split(':')[1]))

    def line(source, target):
        (here, port), (there, other) = source.split(':'), target.split(':')
        return f'PROXY TCP4 {here} {there} {port} {other}\r\n'.encode()
    with case.start(config) as proxy:
        got = []
        for at, port in enumerate(ports):
            for source in ('127.0.0.1', '127.3.2.1'):
                for payload in (b'', b'hello', bytes(100_000)):
                    answer, name = exchange(port, (LINE if at > 1 else b'') + payload, source)
                    judged = NARROW if at > 1 else (name, f'127.0.0.1:{port}')
                    got.append((at, answer, (block if at % 2 else line)(*judged) + payload, name))
        with Client(ports[2]) as client:  # the header comes before the client has said a word of its own
            client.put(LINE)
            case.check('what is sent first', client.exactly(len(LINE)), LINE)
            quiet = client.name
        record = proxy.ended()
        for at, answer, wanted, name in got:
            case.holds(f'what the server of {at} got', answer == wanted, f'expected {wanted[:60]!r}, got {answer[:60]!r}, {len(answer)} bytes')
            conn = record.of(name)
            case.check('what is sent in the record', (conn.end, conn.offer and wanted.startswith(bytes.fromhex(conn.offer[5]))), ('closed done', True))
        case.check('the one who said nothing', record.of(quiet).end, 'closed done')


def case_stopped_for_long(case):
    """The process is stopped while headers arrive: those that came whole in time are taken after that, however late it is, and
    the others are refused."""
    config, port = waiting(case, Server(echo))
    with case.start(config) as proxy:
        whole, part = [Client(port) for _ in range(50)], [Client(port) for _ in range(50)]
        until(lambda: proxy.descriptors() > 100, 'all are accepted')
        proxy.child.send_signal(signal.SIGSTOP)
        for client in whole:
            client.put(LINE + b'hello')
            client.finish()
        for client in part:
            client.put(LINE[:20])
        time.sleep(HEADER_WAIT + 1)
        proxy.child.send_signal(signal.SIGCONT)
        case.check('what came back', [client.rest() for client in whole], [b'hello'] * 50)
        case.check('to the others', [client.rest() for client in part], [b''] * 50)
        record = proxy.ended()
        for client in whole:
            case.served(record, client.name, line_of(config, 'server s'))
        for client in part:
            case.refused(record, client.name, 'expired')


def case_clock_set_back(case):
    """The clock of the system is set back by an hour: a header is waited for as long as without that, and no moment of the
    record is before another one."""
    back = pathlib.Path(case.room, 'back')
    variables = {'LD_PRELOAD': str(shared_object(case.room, 'clock')), 'CLOCK_BACK': str(back)}
    config, port = waiting(case, Server(echo))
    with case.start(config, env=variables) as proxy:
        case.check('before', exchange(port, LINE + b'hello')[0], b'hello')
        begun, client = time.monotonic(), Client(port)
        client.put(LINE[:20])
        time.sleep(0.5)
        back.touch()
        case.check('after', exchange(port, LINE + b'hello')[0], b'hello')
        case.check('one that does not finish its header', client.rest(), b'')
        took = time.monotonic() - begun
        case.holds('it is refused in time', HEADER_WAIT - 0.01 <= took < HEADER_WAIT + 2, took)
        record = proxy.ended()
        case.refused(record, client.name, 'expired')
        moments = [int(moment) for moment in re.findall(r'^\d+ (\d+) ', record.text, re.M)]
        case.check('the moments rise', moments, sorted(moments))


def open_unfinished(port):
    """1,000 clients that begin a header, with the moments before the first and after the last; or nothing where they took so
    long that the first may be over before the last is there."""
    begun = time.monotonic()
    clients = [Client(port) for _ in range(1000)]
    for client in clients[:-10]:
        client.put(b'PROXY TCP4 ')
    opened = time.monotonic()
    if opened - begun < 2:
        return clients, begun, opened
    for client in clients:
        client.close()
    return None


def ends_of(clients, opened):
    """What each client gets, by its name, and when that was. The first sends a byte now and then."""
    ends = {}
    waits = {client.fileno(): client for client in clients}
    poll = select.epoll()
    for number in waits:
        poll.register(number, select.EPOLLIN | select.EPOLLRDHUP)
    while waits and time.monotonic() - opened < HEADER_WAIT + 5:
        for number, _ in poll.poll(0.25, 1000):
            client = waits.pop(number)
            poll.unregister(number)
            ends[client.name] = (client.rest(), time.monotonic())
        if clients[0].fileno() in waits:
            clients[0].put(b'1')
    return ends


def check_unfinished(case, config, port, proxy, clients, begun, opened):
    time.sleep(0.3)
    over, over_name = exchange(port, LINE + b'hello')
    case.check('one beyond the limit', over, b'')
    used = proxy.seconds()
    ends = ends_of(clients, opened)
    case.check('clients that were ended', len(ends), 1000)
    case.check('bytes that they got', {text for text, _ in ends.values()}, {b''})
    first, last = (pick(moment for _, moment in ends.values()) for pick in (min, max)) if ends else (0, 0)
    case.holds('not before 3 seconds', first - begun >= HEADER_WAIT - 0.01, f'{first - begun:.2f} s after the first came')
    case.holds('soon after 3 seconds', last - opened < HEADER_WAIT + 2, f'{last - opened:.2f} s after the last came')
    case.holds('waiting costs little', proxy.seconds() - used < 1.5, proxy.seconds() - used)
    again, again_name = exchange(port, LINE + b'hello')
    case.check('one more, then', again, b'hello')
    for client in clients:
        client.close()
    record = proxy.ended()
    case.check('how they ended', record.ends(),
               {'refuse expired': 1000, f'refuse line {line_of(config, "maxconn 1000")}': 1, 'closed done': 1})
    case.refused(record, over_name, f'line {line_of(config, "maxconn 1000")}')
    case.served(record, again_name, line_of(config, 'server s'))


def case_unfinished_headers(case):
    """1,000 clients that never finish their header are refused after 3 seconds, and their places are free again."""
    if resource.getrlimit(resource.RLIMIT_NOFILE)[0] < 2100:
        raise Skipped('a process may not have 2,100 descriptors here')
    config, port = waiting(case, Server(echo), 'maxconn 1000\n')
    for _ in range(TRIES):
        with case.start(config) as proxy:
            if opened := open_unfinished(port):
                check_unfinished(case, config, port, proxy, *opened)
                return
            case.say('1,000 connections took 2 seconds or more, and come again')
    raise Wrong(f'1,000 connections took 2 seconds or more, {TRIES} times')
