"""Cases of `tests/serve`: descriptors, memory and threads, of which there may be too few."""
import contextlib
import pathlib
import re
import resource
import select
import time

from serving import (
    Client, echo, exchange, line_of, many, PATIENCE, plain, Server, shared_object, until,
)


def case_no_descriptors(case):
    """With 40 descriptors 60 clients come at once: accepting pauses, and goes on as places are free; each of them is served
    or, where its server could not be reached for want of a descriptor, ended as failed; nobody is forgotten."""
    config, port = plain(case, Server(echo))
    with case.start(config, descriptors=40) as proxy:
        idle = proxy.descriptors()
        clients = [Client(port) for _ in range(60)]
        for client in clients:
            client.put(b'hello')
        answered, ended = {}, {}
        waits = {client.fileno(): client for client in clients}

        def look(seconds):
            """Takes what comes, until nothing came for so many seconds."""
            quiet = time.monotonic() + seconds
            while waits and time.monotonic() < quiet:
                ready, _, _ = select.select(list(waits), [], [], 0.05)
                for number in ready:
                    client = waits.pop(number)
                    text = client.exactly(5)
                    (answered if text else ended)[client.name] = client, text
                    quiet = time.monotonic() + seconds
        look(1)
        case.holds('some are served', answered, f'{len(ended)} were ended')
        case.holds('some wait', waits, f'{len(answered)} were answered, {len(ended)} ended')
        used = proxy.seconds()
        time.sleep(1)
        case.holds('it does not spin', proxy.seconds() - used < 0.5, proxy.seconds() - used)
        last, done = time.monotonic() + 25, set()
        while (waits or set(answered) - done) and time.monotonic() < last:
            for name in set(answered) - done:
                client = answered[name][0]
                client.finish()
                case.check('no byte more', client.rest(), b'')
                client.close()
                done.add(name)
            look(0.3)
        case.check('clients that are left waiting', len(waits), 0, proxy.said[-5:])
        case.check('what was answered', {text for _, text in answered.values()}, {b'hello'})
        until(lambda: proxy.descriptors() <= idle, 'the descriptors are free again')
        again, again_name = exchange(port, b'again')
        case.check('one more, then', again, b'again')
        record = proxy.ended()
        line = line_of(config, 'server s')
        for name in answered:
            case.served(record, name, line)
        for name in ended:
            case.check(f'{name}, which was ended', record.of(name).end, 'closed failed', record.of(name).replies)
        case.check('connections in the record', len(record.conns), 61)
        if ended:
            print(f'{case.name}: {len(ended)} of 60 connections failed for want of a descriptor for their server')


def served_within(case, what, clients, seconds):
    """That each of the clients, which have sent 5 bytes, gets them back within so many seconds."""
    begun = time.monotonic()
    case.check(f'{what}: answers', [client.exactly(5) for client in clients], [b'hello'] * len(clients))
    case.holds(f'{what}: they are soon there', time.monotonic() - begun < seconds, time.monotonic() - begun)


def free_descriptors(case, workers):
    """All places are taken, and later all descriptors: nobody is accepted, and nobody is lost. Within a second of places or
    descriptors that are free those who waited are served."""
    config, port = plain(case, Server(echo))

    def come(count):
        clients = [Client(port) for _ in range(count)]
        for client in clients:
            client.put(b'hello')
        return clients
    # Of 100 the listener has one, each worker, the door and the checker two, and 12 are for all else.
    places = (100 - 1 - (workers + 2) * 2 - 12) // 2
    with case.start(config, '--workers', str(workers), descriptors=100) as proxy:
        alone = proxy.descriptors()
        held = come(places)
        served_within(case, 'as many as there are places', held, PATIENCE)
        late = come(20)
        case.check('one more', select.select(late, [], [], 1)[0], [])
        for client in held[:20]:
            client.close()
        served_within(case, 'places are free', late, 1)
        for client in [*held[20:], *late]:
            client.close()
        until(lambda: proxy.descriptors() == alone, 'the proxy closes what it held')
        resource.prlimit(proxy.child.pid, resource.RLIMIT_NOFILE, (alone, 100))
        late, used = come(20), proxy.seconds()
        case.check('without descriptors', select.select(late, [], [], 1)[0], [], proxy.said[-3:])
        case.holds('it does not spin', proxy.seconds() - used < 0.5, proxy.seconds() - used)
        resource.prlimit(proxy.child.pid, resource.RLIMIT_NOFILE, (100, 100))
        served_within(case, 'descriptors are free', late, 1)
        for client in late:
            client.close()
        case.check('how they ended', proxy.ended().ends(), {'closed done': places + 40})


def case_descriptors_are_freed(case):
    """Places and descriptors that are free are used at once, by workers that take clients themselves."""
    free_descriptors(case, 2)


def case_descriptors_are_freed_at_the_door(case):
    """The same if the door takes the clients."""
    free_descriptors(case, 9)


def case_memory_comes_back(case):
    """While there is no memory for a record, a connection that ends is over for its client, and keeps its place; nobody is
    let in. As soon as there is memory its end is recorded, and its place is free."""
    wall = pathlib.Path(case.room, 'no-memory')
    variables = {'LD_PRELOAD': str(shared_object(case.room, 'memory')), 'REFUSED_WHILE': str(wall)}
    config, port = plain(case, Server(echo), 'maxconn 8\n')
    with case.start(config, '--workers', '1', env=variables) as proxy:
        held = [Client(port) for _ in range(8)]
        for client in held:
            client.put(b'hello')
            case.check('what comes back', client.exactly(5), b'hello')
        # Once the records went out none is in memory: the next one takes some.
        until(lambda: proxy.record.read_bytes().count(b'\n= ') == 16, 'the records are written')
        wall.touch()
        held[0].finish()
        case.check('the end of one', held[0].rest(), b'')
        time.sleep(0.8)
        with Client(port) as client:
            client.put(b'hello')
            case.check('one more, without memory', client.rest(), b'')
        held[1].put(b'hello')
        case.check('another one goes on', held[1].exactly(5), b'hello')
        wall.unlink()
        until(lambda: exchange(port, b'hello')[0] == b'hello', 'its place is free')
        record = proxy.ended()
        first, last = record.of(held[0].name), record.of(held[7].name)
        case.check('its end', first.end, 'closed done')
        case.holds('its end is recorded when there is memory', first.moments[-1] >= last.moments[1] + 800, (first.moments, last.moments))


def case_thread_refused(case):
    """Each thread that it starts is refused in turn, that of the record too: it ends before it is ready, and says why. A client
    that waits meanwhile is not taken."""
    library, note, refused, waiting = shared_object(case.room, 'threads'), pathlib.Path(case.room, 'refused'), 0, []
    config, port = plain(case, Server(echo))
    while refused < 50:
        number = refused + 1
        variables = {'LD_PRELOAD': str(library), 'REFUSED_THREAD': str(number), 'REFUSED_NOTE': str(note)}
        with case.start(config, '--workers', '2', env=variables, waits=False) as proxy:
            until(lambda: proxy.said or proxy.child.poll() is not None, 'it listens, or ends')
            with contextlib.suppress(OSError):
                waiting.append(Client(port))
                waiting[-1].put(b'hello')
            until(lambda: 'l4proxy: ready' in proxy.said or proxy.child.poll() is not None, 'it is ready, or ends')
            if not note.exists():
                case.check('with all threads', exchange(port, b'hello')[0], b'hello')
                case.check('the client that waited', waiting[-1].exactly(5), b'hello')
                proxy.ended()
                break
            note.unlink()
            refused += 1
            case.holds(f'thread {number}: it is never ready', 'l4proxy: ready' not in proxy.said, proxy.said)
            case.check(f'thread {number}: the status', proxy.wait(), 3, proxy.said)
            case.check(f'thread {number}: what is said', proxy.said[-1], 'l4proxy: a thread cannot be started')
            case.check(f'thread {number}: the record', proxy.record.read_bytes(), b'')
    for client in waiting:
        client.close()
    # The reader of standard input, the recorder and two workers are four of them.
    case.holds('how many threads there are', 4 <= refused < 50, refused)


def switches(proxy):
    """How often each thread of the proxy has waited."""
    waited = {}
    for task in proxy.process('task').iterdir():
        with contextlib.suppress(OSError):
            waited[task.name] = int(re.search(r'^voluntary_ctxt_switches:\s+(\d+)', (task / 'status').read_text(), re.M).group(1))
    return waited


def case_workers(case):
    """1, 4 and 64 workers: as many threads, over which connections that last are spread, and one record."""
    for workers in (1, 4, 64):
        config, port = plain(case, Server(echo))
        with case.start(config, '--workers', str(workers)) as proxy:
            until(lambda count=workers: len(switches(proxy)) > count, f'{workers} workers are threads')
            clients = []
            for _ in range(2 * workers):
                clients.append(Client(port))
                clients[-1].put(b'x')
                clients[-1].exactly(1)
            before = switches(proxy)
            for _ in range(30):
                for client in clients:
                    client.put(b'x')
                for client in clients:
                    client.exactly(1)
            busy = [task for task, count in switches(proxy).items() if count - before.get(task, 0) >= 10]
            case.holds(f'{workers} workers: most of them work', 4 * len(busy) >= 3 * workers, f'{len(busy)} threads did')
            got = many(40, lambda number: exchange(port, b'%d' % number * 1000))
            case.holds(f'{workers} workers: bytes', all(answer == b'%d' % number * 1000 for number, (answer, _) in enumerate(got)))
            for client in clients:
                client.close()
            record = proxy.ended()
            case.check(f'{workers} workers: how they ended', record.ends(), {'closed done': 2 * workers + 40})


def case_stuck_worker(case):
    """One of two workers is stuck. The other one goes on getting connections, all except the few that the first one has; and
    these are served once it goes on."""
    hold = pathlib.Path(case.room, 'hold')
    variables = {'LD_PRELOAD': str(shared_object(case.room, 'stop')), 'HOLD_AT_READ': str(hold)}
    config, port = plain(case, Server(echo))
    with case.start(config, '--workers', '2', env=variables) as proxy:
        hold.touch()
        clients = [Client(port) for _ in range(400)]
        for client in clients:
            client.put(b'hello')
        until(lambda: not hold.exists(), 'a worker is stuck')

        def answered():
            return select.select(clients, [], [], 0)[0]
        until(lambda: len(answered()) >= 390, 'all except a few clients are served beside a worker that is stuck')
        time.sleep(0.5)
        case.holds('some wait for the one that is stuck', len(answered()) < 400, len(answered()))
        hold.with_suffix('.done').touch()
        served_within(case, 'all of them once it goes on', clients, 10)
        for client in clients:
            client.close()
        case.check('how they ended', proxy.ended().ends(), {'closed done': 400})
