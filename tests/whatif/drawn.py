#!/usr/bin/env python3
"""`whatif` of drawn records against changed configurations.

    tests/whatif/drawn.py PROGRAM [long]

Two records are drawn by a fixed seed, as tests/replay/reloads.py and frontends.py draw their scripts: one of two tenants
whose text is reloaded again and again, and one of 64 frontends without reloads. Of each of them some thousand events, or
with the word `long` 100,000, are played against OLD itself and ten texts with the same binds: drawn anew in part, with
limits raised and lowered, with rules that come and go, and with servers that are gone.

What `whatif` has to write is worked out here, over the balancers of tests/plain.py and by the rules of docs/FORMATS.md,
"Whatif". Prints what differs, or how many differences of how many kinds there were; the exit status is 0 if nothing
differs."""
import collections
import concurrent.futures
import pathlib
import random
import re
import subprocess
import sys
import tempfile

sys.dont_write_bytecode = True
sys.path[:0] = [str(pathlib.Path(__file__).resolve().parent.parent), str(pathlib.Path(__file__).resolve().parent.parent / 'replay')]
import plain  # noqa: E402
import frontends  # noqa: E402 (what is drawn)
import reloads  # noqa: E402 (what is drawn)

EVENTS, LONG = 3_000, 100_000
CHANGED = 10
REPLY = re.compile(r'(wait|offer|refuse) (\S+) used \d+(?: (.*))?')
CAUSE = re.compile(r'(?:(?:nobackend |noserver )?line \d+|header \w+|expired)')
# The pairs of decisions that have to come up: the kinds of both, a refusal by that of its cause.
PAIRS = {('offer', 'line'), ('line', 'offer'), ('offer', 'wait'), ('wait', 'offer'), ('offer', 'offer'), ('line', 'wait'), ('wait', 'line'),
         ('noserver', 'offer'), ('offer', 'noserver'), ('offer', 'nobackend'), ('line', 'noserver'), ('noserver', 'line')}


class Decision:
    """What a reply decides, in the balancer that gave it; of a fault and of any other reply there is none."""

    def __init__(self, kind, backend=None, server=None, line=None, cause=None):
        self.kind, self.backend, self.server, self.line, self.cause = kind, backend, server, line, cause

    @classmethod
    def of(cls, said, balancer):
        found = REPLY.fullmatch(said)
        if not found:
            return None
        if found[1] == 'offer':
            backend, server, _ = balancer.open[found[2]].server
            return cls('offer', backend, server, re.search(r'line (\d+) to ', found[3])[1])
        return cls(found[1], cause=CAUSE.match(found[3])[0] if found[1] == 'refuse' else None)

    def kind_of_cause(self):
        return self.cause.split(' ')[0]

    def is_alike(self, other):
        if self.kind != other.kind:
            return False
        if self.kind == 'refuse':
            return self.kind_of_cause() == other.kind_of_cause()
        return self.backend == other.backend

    def short(self):
        """Its words, an offer by its backend alone."""
        return f'offer {self.backend}' if self.kind == 'offer' else f'refuse {self.cause}' if self.kind == 'refuse' else 'wait'

    def whole(self):
        return f'offer {self.backend}/{self.server} line {self.line}' if self.kind == 'offer' else self.short()

    def name(self):
        return self.kind_of_cause() if self.kind == 'refuse' else self.kind


class Twin:
    """The balancer of NEW beside a record of OLD, and what they decide otherwise."""

    def __init__(self, old, new):
        self.balancer = plain.Balancer(old)
        assert self.balancer.step(0, 'reload', new) == 'reloaded 2'
        self.lines, self.pairs, self.kinds = [], {}, collections.Counter()
        self.changed = self.other_server = self.let_in = self.accepted = self.lost = self.saved = 0

    def turn(self, moment, verb, words, said, decision, real, identity):
        """An event with the reply and the decision of the record, the peer of its connection, and what the server is known by
        that is reported."""
        self.accepted += verb == 'accept'
        name = said.split(' ')[1]
        if verb == 'server':
            return self.report(moment, words[2], identity)
        if verb != 'reload':
            answer = self.balancer.step(moment, verb, *words)
            if verb == 'failed':
                self.part(f'conn {name} at {moment}', said.split(' ')[0], answer.split(' ')[0])
            else:
                self.compare(f'conn {name} at {moment} real {real}', decision, Decision.of(answer, self.balancer))
            self.let_in += said.startswith('refuse ') and name in self.balancer.open
        if said.startswith(('refuse ', 'closed ')):
            self.balancer.step(moment, 'close', name, 'done')

    def report(self, moment, how, identity):
        """A server is down or up, which may have other numbers here, or none."""
        for number, backend in enumerate(self.balancer.versions[-1].config.backends):
            for place in range(len(backend.servers)):
                if backend.identity(place) == identity[:3]:
                    self.balancer.step(moment, 'server', str(number), str(place), how)

    def part(self, front, was, would):
        """A server is out of reach: each of the two offers another one or closes the connection, if that is open there."""
        if (was, would) == ('offer', 'closed'):
            self.lost += 1
            self.lines.append(f'{front}: was moved, would be closed failed')
        if (was, would) == ('closed', 'offer'):
            self.saved += 1
            self.lines.append(f'{front}: was closed failed, would be moved')

    def compare(self, front, was, would):
        if was is None or would is None:
            return
        if was.is_alike(would):
            self.other_server += was.server != would.server
            return
        self.changed += 1
        self.kinds[was.name(), would.name()] += 1
        self.lines.append(f'{front}: was {was.whole()}, would be {would.whole()}')
        pair = f'was {was.short()}, would be {would.short()}'
        self.pairs[pair] = self.pairs.get(pair, 0) + 1

    def text(self, is_summary):
        lines = [] if is_summary else list(self.lines)
        lines += [f'{count} {pair}' for pair, count in self.pairs.items()]
        lines += [f'changed {self.changed} of {self.accepted}', f'other server {self.other_server}', f'let in {self.let_in}']
        lines += [f'lost {self.lost}', f'saved {self.saved}']
        return ''.join(line + '\n' for line in lines), 1 if self.changed or self.lost or self.saved else 0


class Played:
    """A record as it is drawn, and the twins that are played along."""

    def __init__(self, old, news, requests):
        self.old, self.news, self.record = old, news, []
        self.twins = [Twin(old, new) for new in news]
        balancer, peers = plain.Balancer(old), {}
        for first, *more in requests:
            moment, verb, *words = first.split(' ')
            words = ['\n'.join(bar[1:] for bar in more).encode()] if verb == 'reload' else words
            reported = balancer.reported(*words[:2]) if verb == 'server' else None
            said = balancer.step(int(moment), verb, *words)
            if said.startswith('fault '):
                continue
            self.record.append([f'{len(self.record) + 1} {first}', *more, f'= {said}'])
            name = said.split(' ')[1]
            if verb == 'accept':
                peers[name] = plain.endpoint(words[1])
            decision = Decision.of(said, balancer)
            for twin in self.twins:
                twin.turn(int(moment), verb, words, said, decision, peers.get(name), reported)


def of_tenants(draw, events):
    """A text of two tenants, texts that are changed from it, and the requests of a script with reloads."""
    drawn = reloads.Drawn(draw)
    old, others = drawn.config, []
    kept = [(dict(tenant.tables), tenant.backends, tenant.rules) for tenant in drawn.tenants]
    for number in range(CHANGED):
        for tenant, (tables, backends, rules) in zip(drawn.tenants, kept):
            tenant.tables, tenant.backends, tenant.rules = dict(tables), backends, rules
        for tenant in draw.sample(drawn.tenants, draw.choice([1, 2])):
            change(tenant, number, draw)
        others.append(reloads.text_of(drawn.tenants, draw))
    for tenant, (tables, backends, rules) in zip(drawn.tenants, kept):
        tenant.tables, tenant.backends, tenant.rules = dict(tables), backends, rules
    while len(drawn.requests) < events:
        drawn.step()
    return old, others, [lines for _, lines, _ in drawn.requests if not lines[0].startswith('ask ')]


def change(tenant, number, draw):
    """The sections of a tenant in another form."""
    limits = [rule for rule in tenant.rules if not rule.startswith('maxconn')]
    expects = [rule for rule in limits if plain.EXPECTATION not in rule]
    if number == 0:
        tenant.rules = [*limits, 'maxconn 2']
    elif number == 1:
        tenant.rules = [*limits, 'maxconn 100']
    elif number == 2:
        tenant.rules = [f'tcp-request connection {plain.EXPECTATION} if {{ src 192.0.2.0/30 }}', *expects]
    elif number == 3:
        tenant.rules = expects
    elif number == 4:
        tenant.backends = {name: lines[:2] for name, lines in tenant.backends.items()}
    elif number == 5:
        tenant.rules = [rule for rule in limits if ' reject ' not in rule]
    elif number == 6:
        tenant.rules = [f'default_backend {tenant.name}q' if rule.startswith('default_backend ') else rule for rule in tenant.rules]
    elif number == 7:
        tenant.rules = [rule for rule in tenant.rules if not rule.startswith('default_backend ')]
    else:
        tenant.redraw(draw)


def of_frontends(draw, events):
    """A text of many frontends, texts that are changed from it, and the requests of a script without reloads."""
    drawn = frontends.Drawn(draw)
    old, others = drawn.config, []
    for _ in range(CHANGED):
        drawn.texts.redraw()
        others.append(drawn.texts.lines())
    while len(drawn.requests) < events:
        drawn.step()
    return old, others, [lines for lines, _ in drawn.requests]


def compared(program, room, played):
    """What is wrong with what is written of a record and each of the texts, by itself and in short."""
    old, record = room / 'old.cfg', room / 'record'
    old.write_bytes(played.old)
    record.write_text(''.join(line + '\n' for lines in played.record for line in lines))

    def tried(numbered):
        number, (new, twin) = numbered
        file = room / f'new{number}.cfg'
        file.write_bytes(new)
        for words in [], ['--summary']:
            done = subprocess.run([program, 'whatif', old, file, record, *words], stdin=subprocess.DEVNULL, capture_output=True)
            got = done.stdout.decode(errors='replace'), done.returncode
            if got != twin.text(bool(words)) or done.stderr:
                return f'{number} {words}: {first_difference(*got, *twin.text(bool(words)))} {done.stderr.decode(errors="replace")}'
        return None

    with concurrent.futures.ThreadPoolExecutor() as pool:
        return [wrong for wrong in pool.map(tried, enumerate(zip(played.news, played.twins))) if wrong]


def first_difference(out, status, expected, expected_status):
    lines, others = out.split('\n'), expected.split('\n')
    at = next((place for place, pair in enumerate(zip(lines, others)) if pair[0] != pair[1]), min(len(lines), len(others)))
    return f'status {status}, not {expected_status}, and line {at + 1} is {lines[at:at + 1]}, not {others[at:at + 1]}'


def main():
    program, events = str(pathlib.Path(sys.argv[1]).resolve()), LONG if sys.argv[2:] == ['long'] else EVENTS
    wrong, kinds, counts = [], collections.Counter(), collections.Counter()
    for seed, draw_texts in enumerate((of_tenants, of_frontends)):
        old, others, requests = draw_texts(random.Random(71 + seed), events)
        texts = ['\n'.join(lines).encode() + b'\n' for lines in [old, old, *others]]
        played = Played(texts[0], texts[1:], requests)
        with tempfile.TemporaryDirectory() as room:
            wrong += [f'{draw_texts.__name__}, {what}' for what in compared(program, pathlib.Path(room), played)]
        for twin in played.twins:
            kinds += twin.kinds
            counts += collections.Counter(changed=twin.changed, other_server=twin.other_server, let_in=twin.let_in, lost=twin.lost, saved=twin.saved)
        first = played.twins[0]
        if draw_texts is of_frontends and (first.changed or first.lost or first.saved):
            wrong.append('the model finds a difference of a text from itself')
    wrong += [f'no {was} that would be {would} was drawn' for was, would in sorted(PAIRS - set(kinds))]
    wrong += [f'nothing counts as {name}' for name in ('changed', 'other_server', 'let_in', 'lost', 'saved') if not counts[name]]
    print('\n'.join(wrong) or f'{counts["changed"]} differences of {len(kinds)} kinds, {counts["let_in"]} let in, {counts["lost"]} lost, {counts["saved"]} saved')
    return 1 if wrong else 0


if __name__ == '__main__':
    sys.exit(main())
