"""What the benchmarks share whose program is written in the language: it is proved and built in a folder of its own, beside
copies of the crates that it uses, so that the gate neither proves nor times it. Of these crates `rt ci` keeps what was proved
on the machine before."""
import contextlib
import pathlib
import re
import shutil
import subprocess
import sys
import tempfile

ROOT = pathlib.Path(__file__).resolve().parent.parent

sys.path.insert(0, str(ROOT / 'tools'))
import crates  # noqa: E402


def lay_out(top, here, name, uses):
    """Copies the crates that are used, and makes one of `program.txt` and `proofs` of that folder. Its line of crates.txt begins with
    the name, which may have words after it."""
    named = crates.libraries()
    needed = set().union(*(crates.with_libraries(crate, named) for crate in uses if crate in named))
    lines = [line for line in (ROOT / 'crates.txt').read_text().splitlines() if set(line.partition(':')[0].split()[:1]) & needed]
    (top / 'crates.txt').write_text('\n'.join([*lines, f'{name}: ' + ' '.join(uses)]) + '\n')
    shutil.copy(ROOT / 'HANDLES', top)
    for crate in needed:
        shutil.copytree(ROOT / 'crates' / crate, top / 'crates' / crate, ignore=shutil.ignore_patterns('out', 'must-fail'))
    bench = top / 'crates' / name.split()[0]
    (bench / 'src').mkdir(parents=True)
    shutil.copy(here / 'program.txt', bench / 'src' / 'main.rt')  # rt reads each .rt file of a repository as a crate's
    return bench


@contextlib.contextmanager
def built(here, name, uses, proofs=()):
    """The program of that folder, while it is there. `proofs` are files of its proofs, each with its text."""
    with tempfile.TemporaryDirectory() as folder:
        top = pathlib.Path(folder)
        bench = lay_out(top, here, name, uses)
        for place, text in dict(proofs).items():
            (bench / 'proofs' / place).parent.mkdir(parents=True, exist_ok=True)
            (bench / 'proofs' / place).write_text(text)
        done = subprocess.run(['rt', 'ci'], cwd=top, stdout=subprocess.PIPE, stderr=subprocess.STDOUT, text=True)
        program = bench / 'out' / bench.name
        # (its status is also that of a run without words, which a program may refuse)
        if not re.search(rf'^rt: {bench.name} (proved|is kept)', done.stdout, re.M) or not program.exists():
            raise SystemExit('the program was not built:\n' + done.stdout[-2000:])
        yield program


def output_of(program, *words):
    """The lines that a program writes to standard output."""
    done = subprocess.run([program, *words], stdout=subprocess.PIPE, text=True)
    if done.returncode:
        raise SystemExit('the program did not run to its end:\n' + done.stdout[-2000:])
    return done.stdout.splitlines()
