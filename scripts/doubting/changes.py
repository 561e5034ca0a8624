"""Changes of a source, one at a time, and what comes of each."""

import re
from concurrent.futures import Executor
from functools import partial
from typing import Any, Iterator

from calls import FAILS, HOLDS
from coverage import Check, Coverage
from statements import ACCESSES, MOST_NUMBER, Line, parts

OUTCOME, BROKEN = re.compile(r"(?m)^outcome .*"), re.compile(r": (check [\w ]+\w|process \d is at fault)")
REGISTERS = {"read": 2, "write": 1, "scan": 2}
Edit = tuple[str, list[Line]]  # What is changed, and the lines then.


def left_out(lines: list[Line], at: int) -> Iterator[Edit]:
    """A statement left out."""
    yield "left out", [*lines[:at], *lines[parts(lines, at)[-1] + 1 :]]


def turned_round(lines: list[Line], at: int) -> Iterator[Edit]:
    """An `if` with its branches exchanged."""
    if lines[at].words[0] == "if":
        _, other, end = parts(lines, at)
        branches = [*lines[other + 1 : end], lines[other], *lines[at + 1 : other]]
        yield "turned round", [*lines[: at + 1], *branches, *lines[end:]]


def renumbered(lines: list[Line], at: int) -> Iterator[Edit]:
    """A number that is written or compared one more, the next register, or a `repeat` a turn shorter."""
    words, registers = lines[at].words, int(lines[0].words[1])
    is_raised = words[0] == "write" or "=" in words or "<" in words
    for place in (it for it in range(1, len(words)) if words[it].isdecimal()):
        number = int(words[place])
        if place == REGISTERS.get(words[0]):
            number = (number + 1) % (registers + 1 - (int(words[3]) if words[0] == "scan" else 1))
        elif is_raised:
            number = min(number + 1, MOST_NUMBER)
        elif words[0] == "repeat" and len(words) == 2 and number > 1:
            number -= 1
        if str(number) != words[place]:
            line = lines[at]._replace(words=[*words[:place], str(number), *words[place + 1 :]])
            yield f"made `{line}`", [*lines[:at], line, *lines[at + 1 :]]


def exchanged(lines: list[Line], at: int) -> Iterator[Edit]:
    """An access exchanged with the next one."""
    one, other = lines[at : at + 2]
    if one.words[0] in ACCESSES and other.words[0] in ACCESSES and one.words != other.words:
        yield f"exchanged with `{other}`", [*lines[:at], other, one, *lines[at + 2 :]]


CHANGES = (left_out, turned_round, renumbered, exchanged)


def result(check: Check, lines: list[Line]) -> tuple[int, list[str]]:
    """The status of a check of lines, and what is broken first, or all outcomes, or why that is not known."""
    status, said = check("".join(f"{line}\n" for line in lines), "--outcomes")
    found = {HOLDS: OUTCOME.findall(said), FAILS: BROKEN.findall(said)[:1]}
    return status, found.get(status, [said])


def tried(covered: Coverage, pool: Executor) -> dict[str, Any]:
    """What comes of the changes of each statement that some schedule may execute, to be told."""
    lines, result_of = covered.lines, partial(result, covered.check)
    own = result_of(lines)
    if own[0] != HOLDS:
        return {"fails": own[1]}
    executed = [it for it in covered.statements if it.spot in covered.reached or not covered.is_finished]
    edits = [(it, *edit) for it in executed for change in CHANGES for edit in change(lines, it.begin)]
    results = [*pool.map(result_of, [changed for *_, changed in edits])]
    told = [{"line": it.place, "statement": str(it), "change": what} for it, what, _ in edits]
    broken = [found[0] for status, found in results if status == FAILS]
    checks = [it for it in lines if it.words[0] == "check"]
    return {
        "changes": len(edits),
        "noticed": len(broken),
        "faults": sum(it.startswith("process") for it in broken),
        "checks": [{"line": it.place, "statement": str(it), "first": broken.count(str(it))} for it in checks],
        "unbroken": [it.place for it in checks if edits and str(it) not in broken],
        "unnoticed": [{**it, "same": came == own} for it, came in zip(told, results) if came[0] == HOLDS],
        "unfinished": [it for it, came in zip(told, results) if came[0] > FAILS],
    }
