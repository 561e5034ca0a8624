"""What each crate says of itself, in its README.md and in crates.txt."""

import re

from functions import exported, public_functions
from places import TOP, crates, root_of, rows, shown

TYPE = re.compile(r"^pub (?:struct|enum|trait|type|const) (\w+)", re.MULTILINE)
HEAD = re.compile(r"- (`[^`]+`(?:,\s+`[^`]+`)*):\s")

# The floor whose files docs/TESTED.md tells of.
TESTS = "tests"

# How long the README of a crate may be, and each of its lines.
MOST_README_LINES = 60
MOST_COLUMNS = 110


def public_items(crate):
    """The public items of a crate, those of a public module as `module::name`, and the functions of a public
    type or trait as `Owner::name`. In a program all modules are open."""
    root, methods = root_of(crate), set()
    modules = re.findall(r"^pub mod (\w+);", root.read_text(), re.MULTILINE)
    items = set(exported(root.read_text()))
    for source in root.parent.rglob("*.rt"):
        text, module = source.read_text(), source.relative_to(root.parent).with_suffix("").parts[0]
        functions = [*public_functions(text)]
        methods |= {(owner, name) for owner, name in functions if owner}
        if source == root or root.name == "main.rt" or module in modules:
            within = f"{module}::" if module in modules else ""
            free = [name for owner, name in functions if not owner]
            items |= {within + name for name in [*TYPE.findall(text), *free]}
    return items | {f"{owner}::{name}" for owner, name in methods if owner in items}


def misnamed(crate, page):
    """What the README of a crate says of items that it does not have, and where it says something of none."""
    items, told = public_items(crate), False
    text = page.read_text()
    for item in re.finditer(r"^- ", text, re.MULTILINE):
        head = HEAD.match(text, item.start())
        if not head:
            line = text[item.start() :].partition("\n")[0]
            yield f"{shown(page)}: an item that does not begin with names in backquotes and a colon: {line}"
            continue
        owner = ""
        for name in re.findall(r"`([^`]+)`", head[1]):
            if name.endswith(".rt"):
                continue
            if not items & {name, f"{owner}::{name}"}:
                yield f"{shown(page)}: `{name}` is no public item of {crate}"
            owner = name.rpartition("::")[0] or owner
            told = True
    if items and not told and root_of(crate).name == "lib.rt":
        yield f"{shown(page)}: says nothing of any public item of {crate}"


def misfiled(crate, page):
    """Where the README of a crate names a file that is not there, or has no words of its own for one that is:
    `file.rt` and a colon. `part/*.rt` stands for each file of a folder."""
    root, text = root_of(crate), page.read_text()
    sources = [*root.parent.rglob("*.rt")]
    for name in sorted(set(re.findall(r"`([^`\s]+\.rt)`", text))):
        if not any(root.parent.glob(name)):
            yield f"{shown(page)}: `{name}` is no file of {crate}"
    told = {file for name in re.findall(r"`([^`\s]+\.rt)`:\s", text) for file in root.parent.glob(name)}
    for source in sorted({*sources} - told - {root}):
        yield f"{shown(page)}: has no words for `{source.relative_to(root.parent)}`"


def overlong(page):
    """Where the README of a crate has too many lines or columns."""
    lines = page.read_text().splitlines()
    if len(lines) > MOST_README_LINES:
        yield f"{shown(page)}: {len(lines)} lines, more than {MOST_README_LINES}"
    for number, line in enumerate(lines, 1):
        if len(line) > MOST_COLUMNS:
            yield f"{shown(page)}:{number}: {len(line)} columns, more than {MOST_COLUMNS}"


def unfit():
    """Where a crate stands before one that it uses, and where its README is missing or does not fit."""
    later = crates()
    for crate, floor, libraries in rows():
        later.remove(crate)
        if early := set(libraries) & set(later):
            yield f"crates.txt: {crate} stands before what it uses: {', '.join(sorted(early))}"
        page = TOP / "crates" / crate / "README.md"
        if not page.exists():
            yield f"{shown(page)}: there is no such file"
            continue
        beginning = f"# {crate}\n\nFloor: {floor}. "
        if not floor or not page.read_text().startswith(beginning):
            yield f"{shown(page)}: does not begin with {beginning!r}, by crates.txt"
        if "```" in page.read_text():
            yield f"{shown(page)}: shows a block, which no test runs"
        yield from overlong(page)
        yield from misnamed(crate, page)
        if floor != TESTS:
            yield from misfiled(crate, page)
