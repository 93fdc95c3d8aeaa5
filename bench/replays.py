"""What the benchmarks share that time the steps of `l4proxy replay`: a replay whose script comes through a pipe, and some of
them that take turns.

The processor time of a replay is read whenever it waits for more. So neither what it opens first nor its end, which ends all
that is open, is in the times of its steps. Since a machine's speed may change by half from one second to the next, replays
that are compared are there at the same time, on one processor, and take turns of some milliseconds: of each turn one is put
beside the first, and the median of these ratios is what is said of it.
"""
import array
import collections
import fcntl
import io
import os
import pathlib
import re
import statistics
import subprocess
import termios
import time

ROOT = pathlib.Path(__file__).resolve().parent.parent
PROGRAM = ROOT / 'crates' / 'l4proxy' / 'out' / 'l4proxy'
UNCOUNTED, COUNTED = 500, 2_500  # the rounds of a turn: those that fill the caches again, and those that are timed

Taken = collections.namedtuple('Taken', 'median least most ratio least_ratio most_ratio')


class Script:
    """A script as it is written, with the serials of the connections that are open."""

    def __init__(self):
        self.file, self.serial, self.open, self.now = io.StringIO(), 0, [], 0

    def taken(self):
        """What was written since it was last taken."""
        text, self.file = self.file.getvalue(), io.StringIO()
        return text.encode('ascii')

    def accept(self, source):
        """Accepts a connection of a source, which is a number."""
        self.serial += 1
        address = '10.%d.%d.%d' % (source >> 16 & 255, source >> 8 & 255, source & 255)
        self.file.write('%d accept 0 %s:4000 127.0.0.1:9000\n' % (self.now, address))

    def close(self, serial):
        self.file.write('%d close 0.%d done\n' % (self.now, serial))


class Replay:
    """A replay that runs."""

    def __init__(self, config):
        words = [str(PROGRAM), 'replay', str(config), '/dev/stdin']
        self.child = subprocess.Popen(words, stdin=subprocess.PIPE, stdout=subprocess.DEVNULL)
        os.sched_setaffinity(self.child.pid, [max(os.sched_getaffinity(0))])

    def feed(self, text):
        """Hands on a part of the script, and waits until all of it was answered."""
        self.child.stdin.write(text)
        self.child.stdin.flush()
        while not self.waits():
            time.sleep(0.001)

    def waits(self):
        """Whether it took all that it was given, and sleeps until there is more."""
        left = array.array('i', [0])
        fcntl.ioctl(self.child.stdin, termios.FIONREAD, left)
        state = pathlib.Path(f'/proc/{self.child.pid}/stat').read_text().rpartition(')')[2].split()[0]
        return not left[0] and state == 'S'

    def seconds(self):
        # the clock of the process, as clock_getcpuclockid(3) numbers it
        return time.clock_gettime(~self.child.pid << 3 | 2)

    def resident(self):
        """Its memory in bytes."""
        status = pathlib.Path(f'/proc/{self.child.pid}/status').read_text()
        return int(re.search(r'VmRSS:\s+(\d+)', status).group(1)) * 1024

    def end(self):
        self.child.stdin.close()
        if self.child.wait():
            raise SystemExit('replay failed')


def turn(replay, script, round_of):
    """The seconds of a processor of a round, in one turn."""
    for count in (UNCOUNTED, COUNTED):
        for _ in range(count):
            round_of(script)
        before = replay.seconds()
        replay.feed(script.taken())
    return (replay.seconds() - before) / COUNTED


def compare(subjects, round_of, turns):
    """What a round takes in each of some replays, which take turns. A subject is a replay and its script."""
    rounds = [[turn(replay, script, round_of) for replay, script in subjects] for _ in range(turns)]
    for times in zip(*rounds):
        ratios = [taken / first for taken, (first, *_) in zip(times, rounds)]
        yield Taken(statistics.median(times), min(times), max(times), statistics.median(ratios), min(ratios), max(ratios))


def show(names, found, steps, unit, first):
    """Prints what a step takes, of so many in a round, and its ratio to the first."""
    for name, taken in zip(names, found):
        print('%s: %9.0f %s/s, %6.0f ns each (%.0f to %.0f), %5.2f times %s (%.2f to %.2f)'
              % (name, steps / taken.median, unit, taken.median / steps * 1e9, taken.least / steps * 1e9, taken.most / steps * 1e9,
                 taken.ratio, first, taken.least_ratio, taken.most_ratio), flush=True)
