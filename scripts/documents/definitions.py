"""Whether the definitions of the crates are said in words, where they stand."""

import re

from places import TOP, shown

DEFINITION = re.compile(r"(?:abbrev |pub |record |data )+\S+.* :(?: |$)")
MARK = re.compile(r"infix[lr]? ")


def unsaid():
    """The definitions with no comment above them. Worked examples need none."""
    for path in sorted(TOP.glob("crates/*/specs/**/*.antt")):
        if "Examples" in path.name:
            continue
        above = ""
        for number, line in enumerate(path.read_text().splitlines(), 1):
            if DEFINITION.match(line) and not above.startswith("--"):
                yield f"{shown(path)}:{number}: no comment says what this is"
            if not MARK.match(line):
                above = line
