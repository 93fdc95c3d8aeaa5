"""Cases of `tests/serve`: who is let in, and which server a client gets."""
import collections
import concurrent.futures
import pathlib

from serving import (
    Client, echo, exchange, HOST, line_of, many, named, plain, Server, Skipped, until,
)


def case_tenants(case):
    """Two tenants in one configuration: what one does is not felt by the other."""
    first, second = Server(named(b'first:')), Server(named(b'second:'))
    ports = case.port(), case.port()
    config = f"""frontend first
bind 127.0.0.1:{ports[0]}
maxconn 5
stick-table type ip size 16 store conn_cur
tcp-request connection track-sc0 src
default_backend first
frontend second
bind 127.0.0.1:{ports[1]}
stick-table type ip size 16 store conn_cur
tcp-request connection track-sc0 src
tcp-request connection reject if {{ sc0_conn_cur gt 5 }}
default_backend second
backend first
server one {first.at}
backend second
server two {second.at}
"""
    with case.start(config) as proxy:
        flood = many(30, lambda _: Client(ports[0]))
        answers = sorted(client.exactly(6) for client in flood)
        case.check('answers to the flood', answers, [b''] * 25 + [b'first:'] * 5)
        names = []
        for _ in range(5):
            answer, name = exchange(ports[1], b'hello')
            case.check('the other tenant', answer, b'second:hello')
            names.append(name)
        for client in flood:
            client.close()
        until(lambda: exchange(ports[0], b'again')[0] == b'first:again', 'the first tenant has room again')
        record = proxy.ended()
        for name in names:
            conn = case.served(record, name, line_of(config, 'server two'))
            case.check('its table', conn.offer[6], ' sc0=1.1/127.0.0.1')
        refusals = [conn for conn in record.conns.values() if conn.end == f'refuse line {line_of(config, "maxconn 5")}']
        case.holds('refusals of the flood', len(refusals) >= 25, record.ends())


def case_rules(case):
    """Rules on the source, in their order: each refusal cites its line, and a refused client gets no byte."""
    server = Server(named(b'b:'))
    other = Server(named(b'c:'))
    port = case.port()
    config = f"""frontend f
bind 127.0.0.1:{port}
acl bad src 127.0.0.6 127.0.0.7
tcp-request connection accept if {{ src 127.0.0.2 }}
tcp-request connection reject if {{ src 127.0.0.2/31 }}
tcp-request connection reject if bad
tcp-request session reject if {{ src 127.0.0.9 }}
use_backend c if {{ src 127.1.0.0/16 }}
default_backend b
backend b
server s {server.at}
backend c
server t {other.at}
"""
    expected = {'127.0.0.1': b'b:hi', '127.0.0.2': b'b:hi', '127.0.0.3': 5, '127.0.0.6': 6, '127.0.0.7': 6, '127.0.0.8': b'b:hi',
                '127.0.0.9': 7, '127.1.2.3': b'c:hi', '127.2.0.1': b'b:hi'}
    with case.start(config) as proxy:
        got = {source: exchange(port, b'hi', source) for source in expected}
        before = server.count + other.count
        record = proxy.ended()
        for source, (answer, name) in got.items():
            wanted = expected[source]
            if isinstance(wanted, int):
                case.check(f'from {source}', answer, b'')
                case.refused(record, name, f'line {wanted}')
            else:
                case.check(f'from {source}', answer, wanted)
                case.served(record, name, line_of(config, 'server s' if wanted[:1] == b'b' else 'server t'))
        case.check('connections that servers saw', before, 5)


def at_once(clients):
    """What each of many clients that were sent back a byte, or refused, got."""
    def one(client):
        client.put(b'!')
        return client.exactly(1)
    with concurrent.futures.ThreadPoolExecutor(50) as pool:
        return list(pool.map(one, clients))


def all_at_once(port, sources):
    """A client from each source, 50 at a time."""
    with concurrent.futures.ThreadPoolExecutor(50) as pool:
        return list(pool.map(lambda source: Client(port, source), sources))


def case_limit_of_frontend(case):
    """200 connections at once, of which a frontend lets 50 in."""
    config, port = plain(case, Server(echo), 'maxconn 50\n')
    with case.start(config, '--workers', '4') as proxy:
        clients = all_at_once(port, [HOST] * 200)
        got = at_once(clients)
        case.check('clients that were let in', got.count(b'!'), 50)
        for client in clients:
            client.close()
        until(lambda: proxy.descriptors() < 40, 'the proxy closes what it held')
        case.check('one more, later', exchange(port, b'again')[0], b'again')
        record = proxy.ended()
        for client, answer in zip(clients, got):
            if answer:
                case.holds('a client that was let in', record.of(client.name).line == line_of(config, 'server s'))
            else:
                case.refused(record, client.name, f'line {line_of(config, "maxconn 50")}')
        case.check('how they ended', {end: count for end, count in record.ends().items() if not end.startswith('closed')},
                   {f'refuse line {line_of(config, "maxconn 50")}': 150})


def case_limit_per_source(case):
    """200 connections at once from 10 sources, of which each may have 5 open."""
    rules = 'stick-table type ip size 1k store conn_cur,conn_cnt\ntcp-request connection track-sc0 src\n' \
        'tcp-request connection reject if { sc0_conn_cur gt 5 }\n'
    config, port = plain(case, Server(echo), rules)
    sources = [f'127.0.1.{1 + number % 10}' for number in range(200)]
    with case.start(config, '--workers', '3') as proxy:
        clients = all_at_once(port, sources)
        got = at_once(clients)
        let_in = collections.Counter(source for source, answer in zip(sources, got) if answer)
        case.check('clients of each source that were let in', dict(let_in), {source: 5 for source in set(sources)})
        for client in clients:
            client.close()
        until(lambda: proxy.descriptors() < 40, 'the proxy closes what it held')
        case.check('one more of a source, later', exchange(port, b'again', '127.0.1.4')[0], b'again')
        record = proxy.ended()
        limit = line_of(config, 'sc0_conn_cur gt 5')
        refused = collections.Counter(conn.peer.split(':')[0] for conn in record.conns.values() if conn.end == f'refuse line {limit}')
        case.check('refusals of each source in the record', dict(refused), {source: 15 for source in set(sources)})
        case.check('connections in the record', len(record.conns), 201)
        keys = {conn.peer.split(':')[0] == reply.rsplit('/', 1)[-1] for conn in record.conns.values() for reply in conn.replies[:1]}
        case.check('each tracks its own source', keys, {True})


def case_limit_of_server(case):
    """A server with room for 3, and one with room for 2: the sixth connection finds none."""
    servers = Server(named(b's')), Server(named(b't'))
    port = case.port()
    config = f'frontend f\nbind 127.0.0.1:{port}\ndefault_backend b\nbackend b\nserver s {servers[0].at} maxconn 3\nserver t {servers[1].at} maxconn 2\n'
    with case.start(config) as proxy:
        clients = [Client(port) for _ in range(5)]
        case.check('the first five', sorted(client.exactly(1) for client in clients), [b's', b's', b's', b't', b't'])
        none, none_name = exchange(port, b'')
        case.check('the sixth', none, b'')
        clients[0].close()
        again, name = until(lambda: (got := exchange(port, b'')) and got[0] and got, 'a place is free again')
        record = proxy.ended()
        case.refused(record, none_name, 'noserver line 4')
        case.served(record, name, line_of(config, f'server {again.decode()}'))


def case_balance(case):
    """The servers that clients reach one after another are those that the documents say, by each method."""
    servers = {name: Server(named(name.encode())) for name in ('s', 't', 'u')}
    ports = [case.port() for _ in range(4)]
    at = {name: server.at for name, server in servers.items()}
    names = ('turns', 'fewest', 'shares', 'full')
    config = ''.join(f'frontend {name}\nbind 127.0.0.1:{port}\ndefault_backend {name}\n' for name, port in zip(names, ports))
    config += f"""backend turns
server s {at['s']} weight 4
server t {at['t']} weight 2
server u {at['u']} weight 1
backend fewest
balance leastconn
server s {at['s']} weight 2
server t {at['t']} weight 1
server u {at['u']} disabled
backend shares
balance source
server s {at['s']} weight 2
server t {at['t']} weight 1
server u {at['u']} weight 0
backend full
balance roundrobin
server s {at['s']} maxconn 1
server t {at['t']} weight 2
"""
    with case.start(config) as proxy:
        case.check('turns of weights 4, 2 and 1', b''.join(exchange(ports[0], b'')[0] for _ in range(14)).decode(), 'stsusts' * 2)
        held, order = [], ''
        for _ in range(6):
            held.append(Client(ports[1]))
            order += held[-1].exactly(1).decode()
        case.check('fewest connections of weights 2 and 1', order, 'ststss')
        shares, wanted = '', ''
        for last in range(1, 13):
            shares += exchange(ports[2], b'', f'127.0.0.{last}')[0].decode()
            wanted += 'sst'[((127 << 24) + last) % 3]
        case.check('shares of sources', shares, wanted)
        order = ''
        for _ in range(5):
            held.append(Client(ports[3]))
            order += held[-1].exactly(1).decode()
        case.check('turns where the first has room for one', order, 'tsttt')
        for client in held:
            client.close()
        record = proxy.ended()
        case.check('connections in the record', len(record.conns), 14 + 6 + 12 + 5)


def case_ipv6(case):
    """A listener, a server and rules of IPv6."""
    try:
        server = Server(echo, '::1')
    except OSError as error:
        raise Skipped('this machine has no [::1]') from error
    ports = case.port('::1'), case.port()
    config = f'frontend f\nbind [::1]:{ports[0]}\ntcp-request connection reject if {{ src 127.0.0.0/8 2001:db8::/32 }}\ndefault_backend b\n' \
        f'frontend g\nbind 127.0.0.1:{ports[1]}\ndefault_backend b\nfrontend h\nbind [::1]:{(third := case.port("::1"))}\n' \
        f'tcp-request connection reject if {{ src ::1 }}\ndefault_backend b\nbackend b\nserver s {server.at} send-proxy\n'
    with case.start(config) as proxy:
        case.holds('what is said', f'l4proxy: listening on [::1]:{ports[0]} (frontend f)' in proxy.said, proxy.said)
        wide, wide_name = exchange(ports[0], b'hello', '::1', '::1')
        port = wide_name.rsplit(':', 1)[1]
        case.check('by IPv6', wide, f'PROXY TCP6 ::1 ::1 {port} {ports[0]}\r\nhello'.encode())
        narrow, name = exchange(ports[1], b'hello')
        case.check('by IPv4, to a server of IPv6', narrow, f'PROXY TCP4 127.0.0.1 127.0.0.1 {name.split(":")[1]} {ports[1]}\r\nhello'.encode())
        barred, barred_name = exchange(third, b'hello', '::1', '::1')
        case.check('who is barred', barred, b'')
        record = proxy.ended()
        case.check('its local end', case.served(record, wide_name, line_of(config, 'server s')).local, f'[::1]:{ports[0]}')
        case.served(record, name, line_of(config, 'server s'))
        case.refused(record, barred_name, f'line {line_of(config, "src ::1 }")}')


def case_ipv6_and_ipv4(case):
    """A listener on [::] takes IPv4 connections as what they are, where the system hands them to it."""
    flag = pathlib.Path('/proc/sys/net/ipv6/bindv6only')
    if not flag.exists() or flag.read_text().strip() != '0':
        raise Skipped('here a listener on [::] takes no IPv4 connections')
    server, port = Server(echo), case.port('::')
    config = f'frontend f\nbind [::]:{port}\ntcp-request connection reject if {{ src 127.0.0.2 }}\ndefault_backend b\n' \
        f'backend b\nserver s {server.at} send-proxy\n'
    with case.start(config) as proxy:
        wide, wide_name = exchange(port, b'hello', '::1', '::1')
        case.check('by IPv6', wide, f'PROXY TCP6 ::1 ::1 {wide_name.rsplit(":", 1)[1]} {port}\r\nhello'.encode())
        narrow, name = exchange(port, b'hello')
        case.check('by IPv4', narrow, f'PROXY TCP4 127.0.0.1 127.0.0.1 {name.split(":")[1]} {port}\r\nhello'.encode())
        barred, barred_name = exchange(port, b'hello', '127.0.0.2')
        case.check('who is barred by an IPv4 address', barred, b'')
        record = proxy.ended()
        case.check('its local end', case.served(record, name, line_of(config, 'server s')).local, f'127.0.0.1:{port}')
        case.check('its local end', case.served(record, wide_name, line_of(config, 'server s')).local, f'[::1]:{port}')
        case.refused(record, barred_name, f'line {line_of(config, "src 127.0.0.2")}')
