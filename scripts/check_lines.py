"""The check lines of a source as conditions of Promela, over the globals of what ./promela makes."""

from sources import int_of
from use_lines import Refused

DONE = 5
# Of each clause that speaks of each process by itself how many numbers it has, and what it says of one.
OF_EACH = {
    "within": (2, "NAME({process}) < 0 || {} <= NAME({process}) && NAME({process}) <= {}"),
    "adaptive": (0, "NAME({process}) < 0 || 1 <= NAME({process}) && NAME({process}) + 1 <= 2 * {moved}"),
    "triangle": (
        0,
        "NAME({process}) < 0 || 1 <= NAME({process}) && 2 * NAME({process}) <= {moved} * (1 + {moved})",
    ),
    "ended": (0, "stand[{process}] != 0"),
    "nofault": (0, "stand[{process}] == 0 || stand[{process}] > 4"),
}


def holds(line, words, kept):
    """The condition that a clause holds, where so many numbers of each process are kept."""
    everyone = range(len(kept))
    numbers = [int_of(line, word) for word in words[1:]]
    if words[:1] == ["distinct"]:
        pairs = [(one, other) for one in everyone for other in everyone if one < other]
        return all_of(f"(NAME({one}) < 0 || NAME({one}) != NAME({other}))" for one, other in pairs)
    if words[:1] == ["atmost"] and len(numbers) == 2:
        return " + ".join(f"(NAME({it}) == {numbers[0]})" for it in everyone) + f" <= {numbers[1]}"
    if words[:1] == ["selfseen"]:
        return all_of(
            f"(!moved[{it}] || stand[{it}] != {DONE} || {sees_itself(it, kept[it])})" for it in everyone
        )
    count, condition = OF_EACH.get(words[0] if words else "", (None, ""))
    if len(numbers) != count:
        raise Refused(line, f"no clause: {' '.join(words)}")
    moved = "(" + " + ".join(f"moved[{it}]" for it in everyone) + ")"
    return all_of(f"({condition.format(*numbers, process=it, moved=moved)})" for it in everyone)


def sees_itself(process, kept):
    """The condition that a process has its own number, counted from 1, among those that it emitted."""
    held = [f"count[{process}] > {it} && numbers{process}[{it}] == {process + 1}" for it in range(kept)]
    return f"({' || '.join(held)})"


def all_of(conditions):
    """The condition that all of these hold."""
    return " && ".join(conditions) or "true"
