"""Explorations by one worker and by others, and all that is held to them."""

import re

from comments import faults_of_comments
from inputs import exploration
from parts import faults_of_parts, least_alone
from replays import replayed_fault
from runs import faults_of, run
from searches import faults_of_searches
from verdicts import checked_fault

PROGRESS = re.compile(
    rb"(regtry: done are \d+ of \d+ pieces known so far and \d+ of \d+ first letters"
    rb"(; \d+ schedules? counted)?\n)+"
)
DONE = re.compile(rb"regtry: done are (\d+) of")
# 1, 3, 5 and 7 times each power of two.
ROUND = sorted(factor << power for factor in (1, 3, 5, 7) for power in range(32))


def is_progress(told):
    """Whether these are lines of progress, at each round number of taken pieces up to one, in their order."""
    taken = [int(count) for count in DONE.findall(told)]
    return PROGRESS.fullmatch(told) and taken == ROUND[: len(taken)]


def faults_of_exploration(dice, folder, settings):
    """What is wrong with the explorations of the case's file, by one worker with these settings and by others."""
    alone = run(folder, exploration(settings))
    yield from faults_of(alone)
    shared = {
        **settings,
        "workers": dice.choice([2, 4, 16]),
        "cut": dice.choice([0, 1, 3, 16]),
        "room": dice.choice([0, 1, 64]),
    }
    remembering = ("--cache", dice.choice(["1", "64"]))
    ways = (exploration(shared), exploration(settings, "--text"), exploration(shared, "--text"))
    for words in (*ways, exploration(settings, *remembering), exploration(shared, "--text", *remembering)):
        answer = run(folder, words)
        if answer != alone:
            yield f"{' '.join(words)} answers {answer}, and one worker {alone}"
    status, report, err = run(folder, exploration(shared, "--progress"))
    if (status, report) != alone[:2] or (status < 2 and not is_progress(err)):
        yield f"with progress told it answers {status, report, err}, and one worker {alone}"
    for words in (exploration(shared, "--least"), exploration(settings, "--least", *remembering)):
        sought = run(folder, words)
        if sought != least_alone(alone):
            yield f"{' '.join(words)} answers {sought}, and one worker's report {alone}"
    if alone[0] in (0, 1) and (alone[0] == 1) == alone[1].endswith(b"least none\n"):
        yield f"status {alone[0]} of {alone[1][-80:]!r}"
    yield from checked_fault(dice, folder, settings, alone)
    yield from replayed_fault(folder, alone[1])
    yield from faults_of_comments(folder, settings, alone)
    if alone[0] in (0, 1):
        yield from faults_of_searches(dice, folder, settings, alone[1])
        yield from faults_of_parts(dice, folder, settings, alone)
