"""The crates of the repository, as crates.txt lists them."""
import pathlib

ROOT = pathlib.Path(__file__).resolve().parent.parent


def libraries():
    """Each crate, with the libraries that are named for it."""
    lines = (ROOT / 'crates.txt').read_text().splitlines()
    named = (line.partition(':') for line in lines if line and not line.startswith('#'))
    return {crate.split()[0]: words.split() for crate, _, words in named}


def with_libraries(crate, of):
    """A crate and all libraries of the repository below it."""
    below = (with_libraries(it, of) for it in of[crate] if it in of)
    return {crate}.union(*below)
