"""The crates of the repository, and what they import."""

import re
from pathlib import Path

TOP = Path(__file__).resolve().parent.parent.parent
IMPORT = re.compile(
    r"^\s*ghost use Rattle\.(\w+)\.specs\.([\w.]+?)(?:\.\{(.*?)\})?(?: as (\w+))?;", re.MULTILINE
)
WORD = re.compile(r"[^\W\d]\w*(?:\.[^\W\d]\w*)*")


def shown(path):
    return str(path.relative_to(TOP))


def rows():
    """The lines of crates.txt: each crate, its floor, which is the heading above it, and what it uses."""
    floor = ""
    for line in (TOP / "crates.txt").read_text().splitlines():
        if line.startswith("# "):
            floor = line[2:]
        elif words := re.findall(r"\w+", line.partition("#")[0]):
            yield words[0], floor, words[1:]


def crates():
    """The names of the crates."""
    return [crate for crate, _, _ in rows()]


def root_of(crate):
    """The root file of a crate, a library or a program."""
    library = TOP / "crates" / crate / "src" / "lib.rt"
    return library if library.exists() else library.with_name("main.rt")
