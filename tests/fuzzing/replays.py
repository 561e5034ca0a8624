"""Whether the failing schedule of a report leads where it says, and is drawn so."""

import re

from runs import run


def replayed_fault(folder, report):
    """Whether the failing schedule that a report names leads where it says, and is drawn so."""
    named = re.search(rb"^least (.*)\nfails (.*)\n", report, re.MULTILINE)
    if not named:
        return
    schedule, outcome = named[1].decode(), named[2]
    status, out, _ = run(folder, ["replay", "case.reg", schedule])
    replayed = re.fullmatch(rb"outcome (.*)\nregisters (.*)\n", out)
    if status != 0 or not replayed or replayed[1] != outcome:
        yield f"the failing schedule {schedule} is replayed to {out[:80]!r}"
        return
    yield from drawn_fault(folder, schedule, outcome)
    status, out, _ = run(folder, ["show", "case.reg", schedule, "--all"])
    row, end = (line.replace(b"*", b"").split() for line in [b"", b"", *lines_of(out)][-2:])
    registers = replayed[2].split()
    if status != 0 or end != outcome.replace(b";", b"").split() or row[-len(registers) :] != registers:
        yield f"the failing schedule {schedule} is drawn with all registers to {out[-200:]!r}"


def lines_of(drawing):
    """The lines of a drawing, but for what is told below them: how many registers are left out, and which process is at fault."""
    return [
        line for line in drawing.splitlines() if not line.startswith((b"left out: ", b"At its end process "))
    ]


def drawn_fault(folder, schedule, outcome):
    """Whether the drawing of a schedule ends with its outcome, and keeps its form."""
    status, out, _ = run(folder, ["show", "case.reg", schedule])
    lines = lines_of(out)
    if status != 0 or not lines or lines[-1].split() != outcome.replace(b";", b"").split():
        yield f"the failing schedule {schedule} is drawn to {out[-80:]!r}"
    places = 80 if outcome.count(b";") < 2 else 132
    # Two spaces part columns. The last head is that of a register, one word, or else that of a process.
    has_register = b" " not in b"".join(lines[:1]).rpartition(b"  ")[2]
    if any(line.endswith(b" ") or len(line) > places and has_register for line in lines):
        yield f"the failing schedule {schedule} is drawn as {out!r}"
