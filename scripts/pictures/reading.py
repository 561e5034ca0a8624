"""What a picture shows: the drawing that `regtry show`, `check` and `find` print, step by step."""

import re
import shlex
import sys
from pathlib import Path
from typing import Callable

from calls import call

HEAD = re.compile(r"(?m)^step  (?:line  )?process 0\b.*$")
# What a step does: its word, its register, and a value, or of a scan the last register or how many they are.
ACT = re.compile(r"(write|read|scan|crash)(?: (\S+)(?: (=|\.\.))? (\S+)(?: =[ \d]*)?)?(?:, [df][ \w]*)?")
CLAIM = re.compile(r": a schedule of \d+ letters? (fails|leads to)(?:, and no shorter one)?(:? .*)")
SINCE = re.compile(r"(?m)^It fails( from step (\d+) on)\.$")
# Behind an empty line, the words by which the program was called and options: the file and the schedule.
SHOW = re.compile(r"(?m)(?<=\n\n)(?!left out: )\S.*? show (?:--(?:all|lines|(?:registers|width) [\d,-]+) )*(?:-- )?(.+)$")
NOTE = re.compile(r"(?m)^(?:At its end process|left out: )[^;\n]*")
# A comment line that gives a process a name, in the form of one that gives a register one.
NAME = re.compile(r"(?m)^ *# +process +(\d+): +([!-~]{1,16}) *$")
# Why there is no drawing, by how a text begins.
NO_DRAWING = {r"$": "standard input is empty", r"processes \d+$|part \d+ of ": "that is a report"}
NO_DRAWING.update({".*: no schedule ": "no schedule is drawn there", "": "no drawing stands there"})


class Refused(Exception):
    """Why there is no picture."""


class Registers:
    """The registers of a drawing, by their numbers and by what they are called."""

    def __init__(self, heads, are_all):
        self.labels, self.numbers = {}, {}
        for place, head in enumerate(heads):
            told, low = re.fullmatch(r"r(\d+)", head), max(self.labels, default=-1) + 1
            self.add(head, place if are_all else max(low, int(told[1])) if told else low)

    def add(self, label, number):
        """A register that is called so has this number."""
        self.labels[number] = label
        self.numbers.setdefault(label, number)

    def number(self, word):
        """The number of the register that a step calls so. One that is left out has none of its own."""
        label = word if word in self.numbers or not word.isdigit() else f"r{word}"
        if label not in self.numbers:
            self.add(label, int(word) if word.isdigit() else 64 + len(self.labels))
        return self.numbers[label]


class Step:
    """What a process did to which registers, which writes it sees, and whether it is at fault."""

    def __init__(self, row, registers, wrote):
        self.number, text = int(row[0]), " ".join(filter(None, row[1:]))
        told = ACT.fullmatch(text)
        if not told or told[3] != ".." and not (told[4] or "0").isdigit():
            raise Refused(f"step {self.number} of the drawing cannot be read")
        self.process, self.verb, self.is_fault = row[1:].index(text), told[1], ", fault" in text
        first, is_read = registers.number(told[2]) if told[2] else 0, told[1] in ("read", "scan")
        value = registers.number(told[4]) + 1 - first if told[3] == ".." else int(told[4] or 0)
        self.registers = [*range(first, first + {"scan": value, "crash": 0}.get(self.verb, 1))]
        self.sees = sorted(wrote[it][0] for it in self.registers if is_read and it in wrote)
        if self.verb == "read" and value != wrote.get(first, (0, 0))[1]:
            raise Refused(f"step {self.number} of the drawing reads what no step before it wrote")
        if self.verb == "write":
            wrote[first] = self.number, value
        ends = sorted({*self.registers[:1], *self.registers[-1:]})
        sign = {"write": f" := {value}", "read": f" = {value}"}.get(self.verb, "")
        self.on = " .. ".join(registers.labels.get(it, f"r{it}") for it in ends) + sign + " !" * self.is_fault
        self.act = f"{self.verb} {self.on}".strip()


class Run:
    """The steps of a schedule, what registers hold between them, and what else is said of it."""

    def __init__(self, drawing, file, told=""):
        lines = drawing[HEAD.search(drawing).start() :].splitlines()
        starts = [it.start() for it in re.finditer(r"process \d+|\S+", lines[0])]
        columns = [slice(*it) for it in zip(starts, [*starts[1:], None])]
        # The column of lines that --lines asks for says nothing of what is drawn here.
        columns[1:2] = [it for it in columns[1:2] if not lines[0].startswith("step  line  ")]
        heads, *rows = [[line[it].strip() for it in columns] for line in lines]
        first, last = len(re.findall(r"process \d", lines[0])) + 1, [it[0] for it in rows + [[""]]].index("")
        self.ends = rows[last][1:first] if rows[last:] else [""]
        if [it[0] for it in rows[:last]] != [*map(str, range(last))] or not all(self.ends):
            raise Refused("the drawing is cut off: hand over all of it")
        try:
            self.source = Path(file).read_text(encoding="ascii") if file != "-" else ""
        except (OSError, ValueError) as error:
            raise Refused(f"{file}: the source cannot be read") from error
        names, wrote = {f"process {it[0]}": it[1] for it in reversed(NAME.findall(self.source))}, {}
        self.processes = [names.get(it, it) for it in heads[1:first]]
        registers = Registers(heads[first:], "\nleft out: " not in drawing)
        self.registers = dict(registers.labels)
        self.values = [dict(zip(self.registers, (it.rstrip("*") for it in row[first:]))) for row in rows[:last]]
        self.steps = [Step(it[:first], registers, wrote) for it in rows[1:last]]
        letters = ["CR"[it.verb != "crash"] + str(it.process) for it in self.steps]
        self.schedule, self.notes = " ".join(letters) or ".", NOTE.findall("\n".join(lines))
        claim, since = CLAIM.search(told), SINCE.search(told) or ("", "", 0)
        self.caption = claim[1].capitalize() + since[1] + claim[2] if claim else ""
        name, self.since = file if file != "-" else "a schedule", int(since[2])
        self.name = "".join(it if it.isprintable() else "?" for it in name)
        self.label = f"{self.name}: {self.schedule}" + f". {self.caption}" * bool(claim)


def ask(status: int, choose: Callable[[], str], *words: str) -> str:
    """What the program that is chosen prints, which is to end with this status. Why it does not it says
    itself."""
    command = [choose(), *words]
    ran = call(command)
    sys.stderr.write(ran.stderr)
    if ran.returncode != status:
        raise Refused(f"{shlex.join(command)}: it ends with status {ran.returncode}")
    return ran.stdout


def run_of_text(text: str, choose: Callable[[], str]) -> Run:
    """The run that `check`, `find` or `show` draws. Registers that are left out are asked for, of the program
    that is chosen, but not of `show`, which does not name its source."""
    first, count, drawing = text.strip().partition("\n")[0], len(HEAD.findall(text)), text
    if not count:
        why = next(it for begin, it in NO_DRAWING.items() if re.match(begin, first))
        raise Refused(f"{why}: {first or 'hand over what check, find or show prints'}")
    if count > 1:
        raise Refused(f"{count} schedules are drawn there: hand over one")
    show = SHOW.search(text)
    try:
        file, schedule = shlex.split(show[1]) if show else ("-", "")
    except ValueError as error:
        raise Refused(f"that is no command that draws: {show[0]}") from error
    if file != "-" and "\nleft out: " in text:
        drawing = ask(0, choose, "show", "--all", "--", file, schedule)
    return Run(drawing, file, text)
