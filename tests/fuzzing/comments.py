"""What comment lines do not change, and the names that they give."""

import re

from inputs import exploration
from replays import lines_of
from runs import run

NAMED = re.compile(rb" *# +register +(0|[1-9][0-9]*): +([!-~]{1,16}) *")


def without_comments(text):
    """The lines of a text that are not skipped."""
    return b"\n".join(line for line in text.split(b"\n") if not re.match(rb" *(#|\Z)", line))


def names_in(text):
    """The name that comments give to a register, by its number: of two the first. A number is none, and of
    several registers with one name the lowest has it."""
    names = {}
    for line in text.split(b"\n"):
        told = NAMED.fullmatch(line)
        if told and not re.fullmatch(rb"r?[0-9]+", told[2]):
            names.setdefault(int(told[1]), told[2])
    given = {name: it for it, name in sorted(names.items(), reverse=True)}
    return {it: name for name, it in given.items()}


def words_named(drawing, names):
    """The words of a drawing by numbers, with these names in place of the numbers that they name."""

    def name_of(register):
        return names.get(register, b"%d" % register)

    def scan_of(found):
        first, last = int(found[1]), int(found[1]) + int(found[2]) - 1
        is_named = first in names or last in names
        return b"scan %s .. %s" % (name_of(first), name_of(last)) if is_named else found[0]

    head, _, text = b"\n".join(lines_of(drawing)).partition(b"\n")
    head = re.sub(rb"\br([0-9]+)", lambda found: names.get(int(found[1]), found[0]), head)
    text = re.sub(rb"\b(write|read) ([0-9]+)", lambda found: found[1] + b" " + name_of(int(found[2])), text)
    return [*head.split(), *re.sub(rb"\bscan ([0-9]+) ([0-9]+)", scan_of, text).split()]


def least_schedule(folder, settings, count):
    """The least of all schedules of the case's file, which has so many processes."""
    bounds = ["--length", str(settings["length"]), "--crashes", str(settings["crashes"])]
    answer = run(folder, ["find", "case.reg", "; ".join(["*"] * count), *bounds])
    named = re.search(rb"\nregtry show case\.reg '(.*)'\n", answer[1])
    return named[1].decode() if named else "?"


def faults_of_comments(folder, settings, alone):
    """What is answered otherwise without the comments of the case's file, but for names and numbers of lines."""
    text = (folder / "case.reg").read_bytes()
    if alone[0] not in (0, 1) or b"#" not in text:
        return
    (folder / "bare.reg").write_bytes(without_comments(text))
    schedule = least_schedule(folder, settings, int(alone[1].split()[1]))
    explored, part = exploration(settings), exploration(settings, "--part", "1/1")
    for words in (explored, part, ["replay", "case.reg", schedule]):
        answer, bare = (run(folder, [words[0], name, *words[2:]]) for name in ("case.reg", "bare.reg"))
        if answer != bare:
            yield f"{' '.join(words)} answers {answer}, and without the comments {bare}"
    (status, drawn, _), (_, bare, _) = (run(folder, ["show", name, schedule, "--all"]) for name in ("case.reg", "bare.reg"))
    if status or words_named(bare, names_in(text)) != [word for line in lines_of(drawn) for word in line.split()]:
        yield f"the schedule {schedule} is drawn as {drawn!r}, and without the comments as {bare!r}"
