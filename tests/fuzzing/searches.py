"""Searches for outcomes that a report tells, and for one that it does not."""

import re

from runs import faults_of, run


def how_checked(dice, settings):
    """The options of a check or a search with these bounds: some workers, and states remembered in some megabytes or in none."""
    bounds = [word for name in ("length", "crashes") for word in (f"--{name}", str(settings[name]))]
    return [
        *bounds,
        "--workers",
        dice.choice(["1", "2", "16"]),
        *dice.choice([[], ["--cache", "0"], ["--cache", "1"]]),
    ]


def line_of_match(patterns, outcome):
    """The line that says which of several patterns an outcome matches, where each of them is the text of an outcome."""
    if len(patterns) == 1 or outcome not in patterns:
        return ""
    return f"It matches pattern {patterns.index(outcome) + 1} of {len(patterns)}: {outcome}\n"


def search(dice, folder, settings, patterns):
    """The schedule that a search for these patterns names, None where it names none, and what is wrong with its answer."""
    answer = run(folder, ["find", "case.reg", *patterns, *how_checked(dice, settings)])
    faults = [*faults_of(answer)]
    named = re.fullmatch(
        rb"case\.reg: a schedule of \d+ letters? leads to ([^\n]*)\n((?:It [^\n]*\n)?)\n.*\nregtry show case\.reg '(.*)'\n",
        answer[1],
        re.DOTALL,
    )
    if (
        answer[0] != (1 if named else 0)
        or not named
        and not answer[1].startswith(b"case.reg: no schedule leads ")
    ):
        faults.append(f"a search for {patterns} answers {answer}")
    if named and named[2].decode() != line_of_match(patterns, named[1].decode()):
        faults.append(f"a search for {patterns} that leads to {named[1]} says of its pattern {named[2]}")
    return named and named[3].decode(), faults


def in_order(schedule):
    """What schedules are compared by: runs come before crashes, and lower processes first."""
    return [(letter[0] == "C", letter[1:]) for letter in schedule.split() if letter != "."]


def faults_of_shortest(dice, folder, settings, outcome, way):
    """What is wrong with the shortest schedule that leads to an outcome, to which this way leads as well."""
    answer = run(folder, ["find", "case.reg", outcome, *how_checked(dice, settings), "--shortest"])
    yield from faults_of(answer)
    told = re.match(rb"case\.reg: a schedule of (\d+) letters? leads to ([^\n]*)\nNo shorter one leads there\.\n", answer[1])
    if not told or told[2].decode() != outcome or int(told[1]) > len(in_order(way)):
        yield f"the shortest schedule to {outcome} is answered {answer}, and {way} leads there"


def faults_of_searches(dice, folder, settings, report):
    """What is wrong with the searches for outcomes that a report tells, and for one that it does not."""
    outcomes = [line[8:].decode() for line in report.splitlines() if line.startswith(b"outcome ")]
    least = re.search(r"^least (.*)\nfails (.*)\n", report.decode(), re.MULTILINE)
    chosen = dice.sample(outcomes, min(3, len(outcomes)))
    ways = {}
    for outcome in dict.fromkeys([*chosen, *([least[2]] if least else [])]):
        ways[outcome], faults = search(dice, folder, settings, [outcome])
        yield from faults
        replayed = run(folder, ["replay", "case.reg", ways[outcome] or "?"])[1]
        if not replayed.startswith(f"outcome {outcome}\n".encode()):
            yield f"the outcome {outcome} is found by {ways[outcome]}, which is replayed to {replayed[:80]!r}"
        yield from faults_of_shortest(dice, folder, settings, outcome, ways[outcome] or "")
    if least and ways[least[2]] != least[1]:
        yield f"the least failing schedule is {least[1]}, and its outcome is found by {ways[least[2]]}"
    together, faults = search(dice, folder, settings, chosen)
    yield from faults
    if not faults and together != min((ways[outcome] or "" for outcome in chosen), key=in_order):
        yield f"of {ways} together {together} is found"
    other = "; ".join(["done 999999999", *outcomes[0].split("; ")[1:]])
    way, faults = search(dice, folder, settings, [other])
    yield from faults
    if way and other not in outcomes:
        yield f"{other} is found by {way}, and no exploration reports it"
