"""The parts of an exploration, merged whole and merged where one of them is hurt."""

from inputs import exploration
from runs import faults_of, run


def least_alone(answer):
    """What an exploration for the least failing schedule alone is to answer, where that for a report answers so."""
    status, report, err = answer
    kept = [
        line
        for line in report.splitlines(keepends=True)
        if not line.startswith((b"tried ", b"outcomes ", b"outcome "))
    ]
    return status, b"".join(kept), err


def parts_of(dice, folder, settings, count, more):
    """The parts of an exploration of the case's file, as the program answers them."""
    for number in range(1, count + 1):
        own = {**settings, "workers": dice.choice([1, 2]), "room": dice.choice([0, 64])}
        yield run(
            folder,
            exploration(
                own, "--part", f"{number}/{count}", *more, *dice.choice([(), ("--text",), ("--cache", "1")])
            ),
        )


def hurt(dice, parts, others):
    """These parts, of which one is cut off, left out, doubled, or one of another exploration."""
    place = dice.randrange(len(parts))
    part = parts[place]
    instead = dice.choice([[part[: dice.randrange(len(part))]], [], [part, part], [dice.choice(others)]])
    return [*parts[:place], *instead, *parts[place + 1 :]]


def spread(dice, folder, parts):
    """The words and the standard input by which these parts are merged that stand, one or more, in files, of which one may be that."""
    words, given = ["merge"], b""
    standard = dice.randrange(2 * len(parts) + 1)
    while parts:
        count = dice.randint(1, len(parts))
        text, parts = b"".join(parts[:count]), parts[count:]
        if len(words) - 1 == standard:
            words, given = [*words, "-"], text
        else:
            words = [*words, f"parts-{len(words)}"]
            (folder / words[-1]).write_bytes(text)
    return words, given


def faults_of_parts(dice, folder, settings, alone):
    """What is wrong with the parts of an exploration that answers so, merged, and merged where one of them is hurt."""
    count, more = dice.randint(1, 9), dice.choice([(), ("--least",)])
    shared = {**settings, "cut": dice.randint(0, 6)}
    answers = [*parts_of(dice, folder, shared, count, more)]
    for status, part, err in answers:
        if status or err:
            yield f"a part answers {status, part, err}"
            return
    parts = dice.sample([part for _, part, _ in answers], count)
    wanted = least_alone(alone) if more else alone
    answer = run(folder, ["merge", "-"], b"".join(parts))
    if answer != wanted:
        yield f"{count} parts at cut {shared['cut']} are merged to {answer}, and the whole is {wanted}"
    words, given = spread(dice, folder, parts)
    answer = run(folder, words, given)
    if answer != wanted:
        yield f"{count} parts at cut {shared['cut']}, {words}, are merged to {answer}, and the whole is {wanted}"
    others = [
        part for _, part, _ in parts_of(dice, folder, {**shared, "cut": shared["cut"] + 1}, count + 1, more)
    ]
    words, given = spread(dice, folder, hurt(dice, parts, others))
    answer = run(folder, words, given)
    yield from faults_of(answer)
    if answer[0] != 2:
        yield f"parts of which one is hurt, {words}, are merged to {answer}"
    given = bytearray(b"".join(parts))
    given[dice.randrange(len(given))] = dice.randrange(256)
    yield from faults_of(run(folder, ["merge", "-"], bytes(given)))
