"""The gate, which `.ci/run` starts: `rt ci` at the top of the repository, and then whole runs of the program that it built.

It stops at the first part that fails. At its end it lists the wrong bodies that one clause refuses together, of which all
except one may be too many, and those that neither a clause of a function nor an invariant refuses. The wall time and the time
of processors of each part, the most expensive first, are written to `out/costs.txt`. The last line is `N passed, M failed`,
and the exit status is that of the part that failed.
"""
import collections
import pathlib
import re
import resource
import subprocess
import sys
import time

ROOT = pathlib.Path(__file__).resolve().parent.parent
COSTS = ROOT / 'out' / 'costs.txt'
PARTS = ('rt ci', 'tests/texts', 'tests/names', 'must-not-compile/run', 'tests/run', 'tests/pipe/run', 'tests/serve',
         'tests/health', 'tests/memory', 'tests/terminal', 'tests/hostile --random 1000')
REFUSED = re.compile(r'rt: must-fail (\w+)/(\w+)\.edit: refused, as it must be(?:: )?(.*)')
# Where a reason is that a clause or an invariant is not proved: the place, or the folder of the answers, and its name. A long
# reason is cut off
CLAUSE = re.compile(r'note: (src/\S+?:\d+):\d+: it is not proved that what the function ensures .*?\(`([^`]*)'
                    r'|note: (src/\S+?:\d+):\d+: .*?\(`((?:invariant|loop)[^`]*)'
                    r'|\./proofs/(\S+)/Answers\.antt:\d+:\d+: error: `([^`]*)`')


def processor_seconds():
    """The seconds of processors of all commands that have ended."""
    used = resource.getrusage(resource.RUSAGE_CHILDREN)
    return used.ru_utime + used.ru_stime


def run_part(part, refused):
    """Runs a command that ends in 'N passed, M failed': how many passed and failed, and its status. The wrong bodies that it
    tried are added to `refused`, by crate and by what refused them."""
    last = ''
    with subprocess.Popen(part.split(), cwd=ROOT, stdout=subprocess.PIPE, text=True, errors='replace') as process:
        for line in process.stdout:
            print(line, end='', flush=True)
            last = line.strip() or last
            if wrong := REFUSED.match(line):
                crate, name, reason = wrong.groups()
                refused[crate, refused_by(reason)].append(name)
    counted = re.match(r'(\d+) passed, (\d+) failed', last)
    passed, failed = map(int, counted.groups()) if counted else (0, 0)
    is_well = counted and process.returncode == 0 and failed == 0
    return passed, 0 if is_well else failed or 1, process.returncode


def refused_by(reason):
    """The place of what is not proved, and its name: none of a clause that has none. Or else the reason."""
    if not (found := CLAUSE.search(reason)):
        return reason, None
    place, clause = [it for it in found.groups() if it is not None]
    if 'clause-' in clause:
        return place, clause.rpartition('clause-')[2]
    return place, '' if clause.startswith('returns') else re.sub(r'-\d+$', '', clause)


def show_refused(refused):
    """Prints which wrong bodies one clause refuses together, and which neither a clause nor an invariant refuses."""
    print(f'{sum(map(len, refused.values()))} wrong bodies were tried, and {len(refused)} clauses refused them')
    for (crate, (place, clause)), names in sorted(refused.items(), key=str):
        if clause is None:
            print(f'by neither a clause nor an invariant: {crate}: {", ".join(names)}: {place[:120] or "no reason is printed"}')
        elif len(names) > 1:
            print(f'by one clause: {crate}: {", ".join(names)}')


def show_costs(costs):
    """Writes and prints the minutes of wall time and of processors of each part, the most expensive first."""
    rows = sorted(costs.items(), key=lambda it: it[1][::-1], reverse=True)
    whole = [sum(times) for times in zip(*costs.values())]
    lines = [f'{wall / 60:6.1f} minutes, {used / 60:6.1f} of processors: {part}' for part, (wall, used) in [('all', whole), *rows]]
    COSTS.parent.mkdir(exist_ok=True)
    COSTS.write_text('\n'.join([*lines, '']))
    print('\n'.join(lines))


def main():
    passed, costs, refused = 0, {}, collections.defaultdict(list)
    for part in PARTS:
        begun, before = time.monotonic(), processor_seconds()
        count, failed, status = run_part(part, refused)
        costs[part] = time.monotonic() - begun, processor_seconds() - before
        passed += count
        if failed:
            print(f'{part} failed')
            break
    show_refused(refused)
    show_costs(costs)
    print(f'{passed} passed, {failed} failed')
    return (status or 1) if failed else 0


if __name__ == '__main__':
    sys.exit(main())
