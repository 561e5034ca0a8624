"""The definitions on which the headline stands, held to docs/DEFINITIONS.md."""

import re

from places import IMPORT, TOP, WORD, crates, shown

USED = re.compile(r"^(?:pub )?use Rattle\.(\w+)\.specs\.([\w.]+?)(?:\.\{| as |$)", re.MULTILINE)
# The clause of `explore`; and those by which all parts, merged, are the whole.
EXPLORED = [("cli/src/answers.rt", r"ensures explored \{.*?\n    ensures")]
MERGED = [
    ("cli/src/merges.rt", r"ensures \{ IsMergePerformed.*?\n\{"),
    ("part_laws/src/laws.rt", r"pub fn merged_parts_are_the_whole.*?\n\{"),
]
CONSTANTS = re.compile(r"^use Rattle\.\w+\.specs\.declared\.[\w.]+\.TheConstants\.\{(.*?)\}", re.MULTILINE)
# How much of definitions the clause of `explore` may stand on.
MOST_FILES = 35
MOST_LINES = 1700


def is_written(crate, module, own):
    """Whether a module of specs is a file of the repository, and neither of the library nor made of the code."""
    return crate in own and module.split(".")[0] not in ("declared", "deriving")


def specs_file(crate, module):
    return TOP.joinpath("crates", crate, "specs", *module.split(".")).with_suffix(".antt")


def imported(files, own):
    """These files of definitions, and all from which they import."""
    found, waiting = set(), list(files)
    while waiting:
        path = waiting.pop()
        if path not in found:
            found.add(path)
            waiting += [
                specs_file(*used) for used in USED.findall(path.read_text()) if is_written(*used, own)
            ]
    return found


def cited(path, clause):
    """The files of definitions that a clause of a source names, each name by itself or behind its file's."""
    text, own = (TOP / "crates" / path).read_text(), crates()
    words = set(WORD.findall(re.search(clause, text, re.DOTALL)[0]))
    words |= {word.partition(".")[0] for word in words}
    for crate, module, listed, name in IMPORT.findall(text):
        if is_written(crate, module, own) and words & {name, *(it.strip() for it in listed.split(","))}:
            yield specs_file(crate, module)


def closure(clauses):
    """The files on which clauses stand."""
    return imported([file for path, clause in clauses for file in cited(path, clause)], crates())


def core():
    """The files on which the headline stands."""
    return closure(EXPLORED)


def line_count(path):
    """How many lines of definitions and comments a file has."""
    return sum(bool(line.strip()) and not line.startswith("use ") for line in path.read_text().splitlines())


def size_of(files):
    return f"{len(files)} files of {sum(map(line_count, files))} lines"


def listed_core():
    """The files that the first table of docs/DEFINITIONS.md lists."""
    _, _, section = (
        (TOP / "docs" / "DEFINITIONS.md").read_text().partition("\n## What to read to believe the headline\n")
    )
    for files, crate in re.findall(r"^\| (`[^|]*) \| (\w+) \|", section.partition("\n## ")[0], re.MULTILINE):
        for name in re.findall(r"`(\w+)\.antt`", files):
            yield specs_file(crate, name)


def unread():
    """Where docs/DEFINITIONS.md lists other files than those on which the headline stands, and where these are too many."""
    page = TOP / "docs" / "DEFINITIONS.md"
    files, listed = core(), set(listed_core())
    for path in sorted(files - listed):
        yield f"{shown(page)}: the headline stands on {shown(path)}, too, which the first table does not list"
    for path in sorted(listed - files):
        yield f"{shown(page)}: the first table lists {shown(path)}, on which the headline does not stand"
    whole = closure(EXPLORED + MERGED)
    for told in (page, TOP / "README.md"):
        if size_of(files) not in told.read_text():
            yield f"{shown(told)}: the headline stands on {size_of(files)}"
        if size_of(whole) not in told.read_text():
            yield f"{shown(told)}: what it says of parts stands on {size_of(whole)}"
    if len(files) > MOST_FILES or sum(map(line_count, files)) > MOST_LINES:
        yield f"the headline stands on {size_of(files)}, more than {MOST_FILES} files or {MOST_LINES} lines"


def unlisted():
    """Where docs/DEFINITIONS.md lists other constants than those that the headline takes from the code."""
    page = TOP / "docs" / "DEFINITIONS.md"
    _, _, section = page.read_text().partition("\n### Constants to read as well\n")
    listed = set(re.findall(r"`([A-Z_]+)`", section.partition("\n### ")[0]))
    lists = [names for path in core() for names in CONSTANTS.findall(path.read_text())]
    taken = {name.strip() for names in lists for name in names.split(",")}
    for name in sorted(taken - listed):
        yield f"{shown(page)}: the headline takes {name} from the code, which no table lists"
    for name in sorted(listed - taken):
        yield f"{shown(page)}: the headline takes no {name} from the code"


def list_files(files):
    """Prints these files, each with its lines, and how many they are."""
    for path in sorted(files):
        print(f"{line_count(path):5} {shown(path)}")
    print(size_of(files))
