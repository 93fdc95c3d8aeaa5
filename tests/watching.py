"""Cases of `tests/serve` that watch a proxy: by `GET /metrics` of `--stats`, and by the word `status`."""
import argparse
import collections
import contextlib
import json
import os
import re
import shutil
import socket
import subprocess
import threading
import time

from serving import (
    Client, Closer, echo, exchange, HOST, LINE, line_of, many, named, plain, reset, rest_of, ROOT, Server, Skipped, until,
    Wrong,
)

GET = b'GET /metrics HTTP/1.1\r\nHost: proxy\r\n\r\n'
SAMPLE = re.compile(r'([a-z_][a-z0-9_]*)(?:\{((?:[a-z_]+="[^"\\\n]*",?)+)\})? ([0-9]+(?:\.[0-9]+)?)')
LABEL = re.compile(r'([a-z_]+)="([^"]*)"')
NAME = re.compile(r'\b(?:l4proxy|process)_[a-z_]+')
WHYS = 'done', 'fault', 'stopped', 'failed', 'client-timeout', 'server-timeout'
TYPES = {
    **dict.fromkeys((
        'l4proxy_frontend_connections', 'l4proxy_frontend_connections_limit', 'l4proxy_backend_connections',
        'l4proxy_server_connections', 'l4proxy_server_connections_limit', 'l4proxy_server_up', 'l4proxy_table_entries',
        'l4proxy_table_size', 'l4proxy_config_version', 'l4proxy_config_versions_kept', 'l4proxy_records_waiting',
        'l4proxy_segments_waiting', 'l4proxy_build_info', 'process_start_time_seconds'), 'gauge'),
    **dict.fromkeys((
        'l4proxy_frontend_accepted_total', 'l4proxy_offered_total', 'l4proxy_moved_total', 'l4proxy_connected_total',
        'l4proxy_refused_total', 'l4proxy_closed_total', 'l4proxy_server_reports_total', 'l4proxy_failed_dials_total',
        'l4proxy_retries_total', 'l4proxy_sent_bytes_total', 'l4proxy_records_total', 'l4proxy_records_written_total',
        'l4proxy_segments_refused_total', 'l4proxy_reloads_total'), 'counter'),
}


def asked(port, text=GET, patience=10):
    """All that comes in reply to a request."""
    with socket.create_connection((HOST, port), timeout=patience) as link:
        link.sendall(text)
        return rest_of(link)[0]


def scraped(port, text=GET):
    """The status of a reply, its fields, and its body."""
    head, _, body = asked(port, text).partition(b'\r\n\r\n')
    lines = head.decode().split('\r\n')
    fields = dict(line.lower().split(': ', 1) for line in lines[1:])
    if int(fields.get('content-length', -1)) != len(body):
        raise Wrong(f'the reply has {len(body)} bytes, and says {fields.get("content-length")}')
    return int(lines[0].split()[1]), fields, body.decode()


class Samples(dict):
    """The numbers of a page by name and labels, as `samples['x_total', 'to=client']`; and the type of each name."""

    def __init__(self, text, has_types=True):
        super().__init__()
        self.types, last = {}, None
        for line in text.splitlines():
            if line.startswith('# HELP '):
                last = line.split(' ', 3)[2]
            elif line.startswith('# TYPE '):
                _, _, name, kind = line.split(' ')
                if name != last or name in self.types:
                    raise Wrong(f'the type of {name} is said twice, or not after its help')
                self.types[name] = kind
            else:
                self.enter(line, last if has_types else None)

    def enter(self, line, last):
        found = SAMPLE.fullmatch(line)
        if not found or last not in (None, found[1]):
            raise Wrong(f'no sample of {last}: {line}')
        key = (found[1], *sorted(f'{name}={value}' for name, value in LABEL.findall(found[2] or '')))
        if key in self:
            raise Wrong(f'a sample is there twice: {line}')
        self[key] = float(found[3])

    def of(self, name):
        """The samples of a name, by their labels."""
        return {key[1:]: value for key, value in self.items() if key[0] == name}

    def total(self, name):
        """The sum of the samples of a name."""
        return sum(self.of(name).values())

    def counters(self):
        return {key: value for key, value in self.items() if self.types[key[0]] == 'counter'}


def read(port):
    """The samples of a scrape that goes well."""
    status, fields, text = scraped(port)
    if status != 200 or not fields['content-type'].startswith('text/plain; version=0.0.4'):
        raise Wrong(f'a scrape has status {status} and {fields}')
    return Samples(text)


def is_settled(samples, left):
    is_written = samples['l4proxy_records_written_total',] == samples['l4proxy_records_total',]
    return is_written and samples.total('l4proxy_frontend_connections') == left


def settled(port, left=0):
    """The samples once so many connections are open, and the record is on standard output: it is what decisions are counted
    from."""
    until(lambda: is_settled(read(port), left), f'{left} connections are open, and the record is written')
    return read(port)


def cause_of(reply):
    """The labels of a refusal."""
    cause, *more = reply.split(' used ', 1)[1].split(' ', 1)[1].split(' sc', 1)[0].split()
    if cause == 'line':
        return 'cause=line', f'line={more[0]}'
    if cause == 'header':
        return 'cause=header', f'fault={more[0]}'
    return (f'cause={cause}', *(f'line={line}' for line in more[1:]))


def counted(record):
    """What the counters are after the events of a record, as far as it says so."""
    counts = collections.Counter({('l4proxy_closed_total', f'why={why}'): 0 for why in WHYS})
    counts.update({('l4proxy_server_reports_total', f'health={health}'): 0 for health in ('down', 'up')})
    counts.update({(f'l4proxy_{what}_total',): 0 for what in ('offered', 'moved', 'connected')})
    counts['l4proxy_records_total',] = counts['l4proxy_records_written_total',] = len(record.entries)
    counts['l4proxy_reloads_total', 'result=accepted'] = len(record.reloads)
    for what, reply in record.entries:
        verb, said = what.split()[0], reply.split()
        if verb == 'accept':
            counts['accepted', said[1].split('.')[0]] += 1
        if said[0] == 'offer':
            counts['l4proxy_moved_total' if verb == 'failed' else 'l4proxy_offered_total',] += 1
        elif said[0] == 'up':
            counts['l4proxy_connected_total',] += 1
        elif said[0] == 'closed':
            counts['l4proxy_closed_total', f'why={said[2]}'] += 1
        elif said[0] == 'marked':
            counts['l4proxy_server_reports_total', f'health={said[-1]}'] += 1
        elif said[0] == 'refuse':
            counts[('l4proxy_refused_total', *cause_of(reply))] += 1
    return counts


def compared(case, what, samples, record, frontends):
    """That each counter of the samples is what the record says; the frontends are named by their numbers."""
    expected = counted(record)
    for number, name in enumerate(frontends):
        key = 'l4proxy_frontend_accepted_total', f'frontend={name}'
        case.check(f'{what}: {key}', samples.get(key), expected.pop(('accepted', str(number)), 0))
    for key, count in expected.items():
        case.check(f'{what}: {key}', samples.get(key), count)
    refused = {key for key, count in samples.of('l4proxy_refused_total').items() if count}
    case.check(f'{what}: no other refusals', refused, {key[1:] for key in expected if key[0] == 'l4proxy_refused_total'})


def watched(case, config, *words, **how):
    """A proxy that is watched, and the port at which it is asked."""
    port = case.port()
    return case.start(config, '--stats', f'{HOST}:{port}', *words, **how), port


def open_now(samples):
    """The open connections of each frontend, backend and server."""
    return {part: {'/'.join(label.split('=')[1] for label in key): value
                   for key, value in samples.of(f'l4proxy_{part}_connections').items()}
            for part in ('frontend', 'backend', 'server')}


def up_now(samples):
    """Which servers are up, of those that are checked."""
    return {key[1].split('=')[1]: value for key, value in samples.of('l4proxy_server_up').items()}


def come(port):
    """A client that sends nothing: what comes to it, up to the end."""
    with Client(port) as client:
        return client.rest()


def case_metrics(case):
    """The numbers of a known run before, during and after it; each counter is what the record of the run says."""
    begun = time.time()
    one, two, front, second = Server(echo), Server(echo), case.port(), case.port()
    config = f"""frontend web
bind {HOST}:{front}
maxconn 9
stick-table type ip size 5 store conn_cur
tcp-request connection track-sc0 src
default_backend app
frontend mail
bind {HOST}:{second}
default_backend post
backend app
server a {one.at} maxconn 7
server b {two.at}
backend post
server c {one.at}
"""
    proxy, port = watched(case, config, '--workers', '3')
    with proxy:
        case.holds('where it is asked', f'l4proxy: metrics on {HOST}:{port}' in proxy.said, proxy.said)
        samples = read(port)
        case.check('the names', samples.types, TYPES)
        case.check('what is open before', open_now(samples), {
            'frontend': {'web': 0, 'mail': 0}, 'backend': {'app': 0, 'post': 0}, 'server': {'app/a': 0, 'app/b': 0, 'post/c': 0}})
        case.check('limits of frontends', samples.of('l4proxy_frontend_connections_limit'), {('frontend=web',): 9, ('frontend=mail',): 2000})
        case.check('limits of servers', samples.of('l4proxy_server_connections_limit'), {('backend=app', 'server=a'): 7})
        case.check('servers without checks', samples.of('l4proxy_server_up'), {})
        case.check('the table', samples.of('l4proxy_table_size'), {('section=frontend', 'table=web'): 5})
        case.check('its entries before', samples.of('l4proxy_table_entries'), {('section=frontend', 'table=web'): 0})
        case.check('the version', samples['l4proxy_config_version',], 1)
        case.check('versions that are kept', samples['l4proxy_config_versions_kept',], 1)
        case.check('the program', samples.of('l4proxy_build_info'), {('version=0.1.0',): 1})
        case.holds('its start', begun - 2 < samples['process_start_time_seconds',] < time.time() + 2)
        clients = [Client(front, source) for source in ('127.0.0.1', '127.0.0.1', '127.0.0.2')] + [Client(second)]
        for client in clients:
            client.put(b'hello')
            case.check('an answer', client.exactly(5), b'hello')
        samples = read(port)
        case.check('what is open during it', open_now(samples), {
            'frontend': {'web': 3, 'mail': 1}, 'backend': {'app': 3, 'post': 1}, 'server': {'app/a': 2, 'app/b': 1, 'post/c': 1}})
        case.check('entries of two sources', samples.total('l4proxy_table_entries'), 2)
        samples = settled(port, 4)
        counts = {name: samples[f'l4proxy_{name}_total',] for name in ('offered', 'connected', 'records', 'records_written')}
        case.check('what is counted during it', counts, {'offered': 4, 'connected': 4, 'records': 8, 'records_written': 8})
        for client in clients:
            client.finish()
            case.check('its end', client.rest(), b'')
        samples = settled(port)
        case.check('what is open after it', samples.total('l4proxy_server_connections'), 0)
        case.check('entries that nobody tracks', samples.total('l4proxy_table_entries'), 2)
        case.check('bytes', samples.of('l4proxy_sent_bytes_total'), {('to=client',): 20, ('to=server',): 20})
        waits = 'records_waiting', 'segments_waiting', 'segments_refused_total'
        case.check('nothing waits', [samples[f'l4proxy_{name}',] for name in waits], [0, 0, 0])
        compared(case, 'after it', samples, proxy.ended(), ('web', 'mail'))


def case_metrics_refused(case):
    """Each refusal is counted by its cause, and by its line or the fault of its header."""
    server = Server(named(b'b:'))
    first, second, third = case.port(), case.port(), case.port()
    config = f"""frontend f
bind {HOST}:{first}
tcp-request connection reject if {{ src 127.0.0.3 }}
tcp-request session reject if {{ src 127.0.0.4 }}
default_backend b
frontend g
bind {HOST}:{second}
frontend h
bind {HOST}:{third} accept-proxy
default_backend c
backend b
server s {server.at}
backend c
server t {server.at} disabled
"""
    proxy, port = watched(case, config)
    with proxy:
        for source, count in ('127.0.0.3', 3), ('127.0.0.4', 2), ('127.0.0.1', 1):
            for _ in range(count):
                exchange(first, b'hello', source)
        exchange(second, b'hello')
        for text in LINE, b'hello, this is no header', LINE.replace(b'PROXY TCP4', b'PROXY TCP5'), LINE:
            with Client(third) as client:
                client.put(text)
                client.rest()
        with Client(third) as client:
            case.check('one that never sends its header', client.rest(), b'')
        samples = settled(port)
        compared(case, 'refusals', samples, proxy.ended(), ('f', 'g', 'h'))
        for words, count in ('tcp-request connection reject', 3), ('tcp-request session reject', 2):
            key = 'l4proxy_refused_total', 'cause=line', f'line={line_of(config, words)}'
            case.check(f'refusals by {words}', samples[key], count)
        lines, refused = config.splitlines(), samples.of('l4proxy_refused_total')
        case.check('without a server', refused['cause=noserver', f'line={lines.index("backend c") + 1}'], 2)
        case.check('without a backend', refused['cause=nobackend', f'line={lines.index("frontend g") + 1}'], 1)
        case.check('without a header', refused['cause=expired',], 1)


def case_metrics_dials(case):
    """Dials that fail or are made again, and timeouts by side."""
    port = case.port()
    config, front = plain(case, argparse.Namespace(at=f'{HOST}:{port}'))
    for retries in 0, 2:
        more = f'\nbackend b\ntimeout connect 50ms\nretries {retries}\n'
        proxy, stats = watched(case, config.replace('\nbackend b\n', more))
        with proxy:
            for _ in range(3):
                case.check('no answer', exchange(front, b'hello')[0], b'')
            samples = settled(stats)
            case.check(f'dials by retries {retries}', (samples['l4proxy_failed_dials_total',], samples['l4proxy_retries_total',]),
                       (3 + 3 * retries, 3 * retries))
            case.check('ends', samples['l4proxy_closed_total', 'why=failed'], 3)
            compared(case, f'dials by retries {retries}', samples, proxy.ended(), ('f',))
    config, front = plain(case, Server(echo), 'timeout client 300ms\n')
    proxy, stats = watched(case, config)
    with proxy:
        client = Client(front)
        client.put(b'hello')
        case.check('an answer, and then the end', client.rest(), b'hello')
        samples = settled(stats)
        case.check('timeouts of clients', samples['l4proxy_closed_total', 'why=client-timeout'], 1)
        compared(case, 'timeouts', samples, proxy.ended(), ('f',))


def case_metrics_health(case):
    """A server that is down is seen, also over a reload, and so is one that is up again; reports are counted. Servers that
    are not checked are not among them."""
    front, at = case.port(), case.port()
    other, server = Server(named(b'a')), Server(named(b'z'), port=at)
    config = f"""frontend f
bind {HOST}:{front}
default_backend b
backend b
server a {other.at} check inter 100ms fall 2 rise 2
server z {HOST}:{at} check inter 100ms fall 2 rise 2
server n {other.at}
server d {other.at} check disabled
"""
    proxy, port = watched(case, config)
    with proxy:
        case.check('both are up', up_now(read(port)), {'a': 1, 'z': 1})
        server.end()
        until(lambda: up_now(read(port)) == {'a': 1, 'z': 0}, 'one is down')
        until(lambda: read(port).of('l4proxy_server_reports_total') == {('health=down',): 1, ('health=up',): 0}, 'its report')
        proxy.reload(config.replace('server z', '# moved\nserver z').replace(' check disabled', ' check inter 1h'))
        until(lambda: read(port)['l4proxy_config_version',] == 2, 'the reload')
        case.check('it is still down, and a new one is up', up_now(read(port)), {'a': 1, 'z': 0, 'd': 1})
        Server(named(b'z'), port=at)
        until(lambda: up_now(read(port)) == {'a': 1, 'z': 1, 'd': 1}, 'it is up again')
        samples = settled(port)
        case.check('reports', samples.of('l4proxy_server_reports_total'), {('health=down',): 1, ('health=up',): 1})
        compared(case, 'reports', samples, proxy.ended(), ('f',))


def case_metrics_moved(case):
    """A connection that is offered another server since the first is out of reach is offered once, and moved once."""
    front, closed, server = case.port(), case.port(), Server(echo)
    config = f"""frontend f
bind {HOST}:{front}
default_backend b
backend b
timeout connect 50ms
retries 1
option redispatch
server z {HOST}:{closed}
server a {server.at}
"""
    proxy, port = watched(case, config)
    with proxy:
        for _ in range(3):
            case.check('an answer', exchange(front, b'hello')[0], b'hello')
        samples = settled(port)
        counts = {name: samples[f'l4proxy_{name}_total',] for name in ('offered', 'moved', 'connected', 'failed_dials')}
        case.check('what is counted', counts, {'offered': 3, 'moved': 3, 'connected': 3, 'failed_dials': 3})
        compared(case, 'moves', samples, proxy.ended(), ('f',))


def case_metrics_reload(case):
    """Over a reload counters go on, and limits and names are those of the new text. A refused one is counted as well."""
    server = Server(echo)
    config, front = plain(case, server, 'maxconn 5\n')
    later = config.replace('maxconn 5', 'maxconn 8').replace('backend b\n', 'backend new\n').replace('server s ', 'server t ')
    proxy, port = watched(case, config)
    with proxy:
        client = Client(front)
        client.put(b'hello')
        case.check('an answer', client.exactly(5), b'hello')
        proxy.reload(later)
        samples = until(lambda: (now := read(port))['l4proxy_config_version',] == 2 and now, 'the reload')
        case.check('the new limit', samples['l4proxy_frontend_connections_limit', 'frontend=f'], 8)
        case.check('what is open', open_now(samples), {'frontend': {'f': 1}, 'backend': {'new': 0}, 'server': {'new/t': 0}})
        proxy.reload(later + 'nonsense\n')
        samples = until(lambda: (now := read(port))['l4proxy_reloads_total', 'result=refused'] and now, 'the reload that is refused')
        case.check('reloads', samples.of('l4proxy_reloads_total'), {('result=accepted',): 1, ('result=refused',): 1})
        case.check('the version', samples['l4proxy_config_version',], 2)
        case.check('versions, one of which judges a connection', samples['l4proxy_config_versions_kept',], 2)
        client.close()
        until(lambda: read(port)['l4proxy_config_versions_kept',] == 1, 'the version before is forgotten')
        compared(case, 'over a reload', settled(port), proxy.ended(), ('f',))


def case_metrics_entries(case):
    """The entries of each table that are in memory: no more than there may be, also of one that expired and whose place nobody
    took. Tables are named by the newest text, also where it leaves one out."""
    server = Server(echo)
    config, front = plain(case, server, 'stick-table type ip size 3 expire 100ms store conn_cnt\ntcp-request connection track-sc0 src\n'
                          'tcp-request connection track-sc1 src table wide\n')
    config += f'backend wide\nstick-table type ip size 100\nserver s {server.at}\n'
    web, wide = ('section=frontend', 'table=f'), ('section=backend', 'table=wide')
    proxy, port = watched(case, config)
    with proxy:
        for number in range(1, 6):
            with Client(front, f'127.0.0.{number}') as client:
                client.put(b'hello')
                case.check('an answer', client.exactly(5), b'hello')
                client.finish()
                client.rest()
        samples = settled(port)
        case.check('five sources', samples.of('l4proxy_table_entries'), {web: 3, wide: 5})
        case.check('sizes', samples.of('l4proxy_table_size'), {web: 3, wide: 100})
        time.sleep(0.3)
        case.check('those that expired', read(port)['l4proxy_table_entries', *sorted(web)], 3)
        proxy.reload(re.sub(r'stick-table type ip size 3.*\n|tcp-request .*track-sc0.*\n', '', config))
        samples = until(lambda: (now := read(port))['l4proxy_config_version',] == 2 and now, 'the reload')
        case.check('the table that is left', samples.of('l4proxy_table_entries'), {wide: 5})
        proxy.ended()


def case_metrics_output(case):
    """A record that waits for standard output is seen, and so is one that is lost. Each record is counted once."""
    config, front = plain(case, Closer())
    end, out = os.pipe()
    proxy, port = watched(case, config, out=out)
    with proxy:
        os.close(out)
        many(4, lambda _: [come(front) for _ in range(250)])
        samples = until(lambda: (now := read(port))['l4proxy_records_total',] == 3_000 and now, 'all have ended')
        written = samples['l4proxy_records_written_total',]
        case.holds('records wait', written < 3_000 and samples['l4proxy_segments_waiting',] > 0, written)
        case.check('how many', samples['l4proxy_records_waiting',], 3_000 - written)
        parts = []

        def read_all():
            while part := os.read(end, 1 << 16):
                parts.append(part)
        reader = threading.Thread(target=read_all, daemon=True)
        reader.start()
        samples = settled(port)
        case.check('nothing waits', (samples['l4proxy_records_waiting',], samples['l4proxy_segments_waiting',]), (0, 0))
        proxy.quit()
        reader.join()
        proxy.record.write_bytes(b''.join(parts))
        compared(case, 'when it is read', samples, proxy.audited(), ('f',))
    out = os.open('/dev/full', os.O_WRONLY)
    proxy, port = watched(case, config, out=out)
    with proxy:
        os.close(out)
        come(front)
        until(lambda: (now := read(port))['l4proxy_segments_refused_total',] and not now['l4proxy_records_waiting',], 'it is lost')
        case.check('what is written', read(port)['l4proxy_records_written_total',], 0)
        proxy.quit(status=3)


def case_metrics_hostile(case):
    """Half a request, garbage, nothing, a slow client and other requests: each is ended in time, and harms nobody."""
    config, front = plain(case, Server(echo))
    proxy, port = watched(case, config)
    with proxy:
        for what, text, status in (
                ('garbage', b'\x16\x03\x01\0\xf4\x01\0\0\xf0\x03\x03', 400), ('no method', b' / HTTP/1.1\r\n\r\n', 400),
                ('another path', b'GET / HTTP/1.1\r\n\r\n', 404), ('a longer path', b'GET /metrics/x HTTP/1.1\r\n\r\n', 404),
                ('another method', b'POST /metrics HTTP/1.1\r\nContent-Length: 3\r\n\r\nabc', 405),
                ('many fields', b'GET /metrics HTTP/1.1\r\n' + b'a: b\r\n' * 65 + b'\r\n', 431),
                ('a long head', b'GET /metrics HTTP/1.1\r\na: ' + b'x' * 4_096, 431),
                ('a query', b'GET /metrics?x=1 HTTP/1.0\r\n\r\n', 200)):
            got = asked(port, text).split(b'\r\n')[0]
            case.check(what, got[:12], b'HTTP/1.0 %d' % status, got)
        link = socket.create_connection((HOST, port), timeout=10)
        link.sendall(GET[:-2])
        begun = time.monotonic()
        case.check('a client is served meanwhile', exchange(front, b'hello')[0], b'hello')
        case.check('half a request', rest_of(link)[0], b'')
        case.holds('it is ended after 2 s', 1.5 < time.monotonic() - begun < 4, time.monotonic() - begun)
        silent = socket.create_connection((HOST, port), timeout=10)
        slow = socket.create_connection((HOST, port), timeout=10)
        begun = time.monotonic()
        case.check('one that says nothing', rest_of(silent)[0], b'')
        for byte in GET:
            try:
                slow.sendall(bytes([byte]))
            except OSError:
                break
            time.sleep(0.1)
        case.check('one that is slow', rest_of(slow)[0], b'')
        case.holds('both are ended in time', time.monotonic() - begun < 8, time.monotonic() - begun)
        for _ in range(50):
            reset(socket.create_connection((HOST, port), timeout=10))
        gone = [socket.create_connection((HOST, port), timeout=10) for _ in range(20)]
        for link in gone:
            link.sendall(GET)
            link.close()
        case.check('after some that read nothing', scraped(port)[0], 200)
        case.check('a client', exchange(front, b'hello')[0], b'hello')
        case.holds('nothing is left', proxy.descriptors() < 40, proxy.descriptors())
        with case.start(config.replace(f':{front}', f':{case.port()}')) as other:
            case.holds('without --stats nobody is asked', not any('metrics' in line for line in other.said), other.said)
            other.quit()
        case.check('how they ended', proxy.ended().ends(), {'closed done': 2})


def case_metrics_load(case):
    """Scrapes without a pause take no connection away, and no counter falls from one to the next."""
    config, front = plain(case, Closer())
    proxy, port = watched(case, config)
    with proxy:
        answers, pages = many(2, lambda number: [read(port) for _ in range(200)] if number else
                              [come(front) for _ in range(600)])
        case.check('what the clients saw', answers, [b''] * 600)
        fallen = {key for page, later in zip(pages, pages[1:]) for key, count in page.counters().items() if later.get(key, 0) < count}
        case.check('counters that fall', fallen, set())
        compared(case, 'under load', settled(port), proxy.ended(), ('f',))


def case_metrics_after_quit(case):
    """After `quit` nobody is asked any more."""
    config, front = plain(case, Closer())
    proxy, port = watched(case, config)
    with proxy:
        come(front)
        read(port)
        proxy.quit()
        with contextlib.suppress(OSError):
            case.check('nobody listens any more', asked(port), None)
        proxy.audited()


def case_status(case):
    """The word `status` writes the same samples on standard error, also without --stats."""
    config, front = plain(case, Server(echo))
    proxy, port = watched(case, config)
    with proxy:
        client = Client(front)
        client.put(b'hello')
        case.check('an answer', client.exactly(5), b'hello')
        expected, before = dict(settled(port, 1)), len(proxy.said)
        proxy.tell(b'status\n')
        until(lambda: len(proxy.said) - before >= len(expected), 'it is said')
        said = [line.removeprefix('l4proxy: ') for line in proxy.said[before:] if line.startswith('l4proxy: ')]
        case.check('the samples', dict(Samples('\n'.join(said), has_types=False)), expected)
        proxy.tell(b'STATUS\n')
        until(lambda: any('none of `reload`, `status` and `quit`' in line for line in proxy.said), 'another word is skipped')
        client.close()
        case.check('how it ended', proxy.ended().ends(), {'closed done': 1})
    with case.start(config) as proxy:
        proxy.tell(b'status\n')
        until(lambda: 'l4proxy: l4proxy_frontend_connections{frontend="f"} 0' in proxy.said, 'it is said without --stats')
        proxy.ended()


def case_stats_address(case):
    """An address that is none is usage, and one that is in use ends the start before anything listens."""
    config, _ = plain(case, Server(echo))
    file = f'{case.room}/proxy.cfg'
    with open(file, 'w') as out:
        out.write(config)
    for word in 'localhost:9101', '127.0.0.1', '9101':
        status, _, said = case.program_run('serve', file, '--stats', word)
        case.check(f'--stats {word}', (status, '--stats: an address' in said), (2, True), said)
    with socket.socket() as taken:
        taken.bind((HOST, 0))
        taken.listen()
        at = f'{HOST}:{taken.getsockname()[1]}'
        status, _, said = case.program_run('serve', file, '--stats', at)
        case.check('one that is in use', (status, f'cannot listen on {at}' in said, 'listening' in said), (3, True, False), said)


def case_promtool(case):
    """`promtool` finds no fault in the format, and none in the alerts of the examples."""
    tool = shutil.which('promtool')
    if not tool:
        raise Skipped('promtool is not installed here')
    config, front = plain(case, Server(echo), 'stick-table type ip size 5 store conn_cur\n')
    proxy, port = watched(case, config)
    with proxy:
        exchange(front, b'hello')
        text = scraped(port)[2]
        done = subprocess.run([tool, 'check', 'metrics'], input=text, capture_output=True, text=True)
        case.check('promtool check metrics', (done.returncode, done.stdout + done.stderr), (0, ''))
        proxy.ended()
    done = subprocess.run([tool, 'check', 'rules', ROOT / 'examples' / 'alerts.yml'], capture_output=True, text=True)
    case.check('promtool check rules', done.returncode, 0, done.stdout + done.stderr)


def case_metrics_named(case):
    """OPERATING lists the numbers that there are, and the alerts and the dashboard of the examples name no others."""
    page = (ROOT / 'docs' / 'OPERATING.md').read_text().partition('## Numbers to watch')[2].partition('\n## ')[0]
    rows = '\n'.join(line.split('|')[1] for line in page.splitlines() if line.startswith('|'))
    case.check('names of the page', set(NAME.findall(rows)), set(TYPES))
    for name in 'alerts.yml', 'dashboard.json':
        names = set(NAME.findall((ROOT / 'examples' / name).read_text()))
        case.check(f'names of {name} that are not there', (bool(names), names - set(TYPES)), (True, set()))
    for panel in json.loads((ROOT / 'examples' / 'dashboard.json').read_text())['panels']:
        case.holds(f'what the panel {panel["title"]} asks for', all(target['expr'] for target in panel['targets']))
