"""Which statements and branches some schedule executes: where none is known to come, a probe stands. It emits
0 and its number, and halts; no `use` line emits a 0, and what the source itself emits is left out."""

import re
from typing import Any, Callable

from calls import FAILS, HOLDS
from statements import ACCESSES, MOST_NUMBER, STATEMENTS, Line

PROBED, BOUNDS = re.compile(r"\bdone 0 (\d+)"), re.compile("up to .*")
WAYS = {"if": "then", "else": "else", "repeat": "turn"}
MOST_PROBES, MOST_EMITTED, VARIABLES = 16, 8, [f"v{number}" for number in range(16)]
Check = Callable[..., tuple[int, str]]  # The status of a check of a text, with these flags, and what it says.


class Coverage:
    """What is known of the lines of a source: behind which some schedule comes (`reached`), and behind which
    none does though one comes to them (`missed`), of those on which it depends what is executed (`asked`)."""

    def __init__(self, lines: list[Line], check: Check):
        self.lines, self.check, self.bounds, self.missed = lines, check, "within the bounds", set[int]()
        self.reached = {at for at, line in enumerate(lines) if line.words[0] == "process"}
        self.statements = [line for line in lines if line.words[0] in STATEMENTS]
        self.ways = {at: WAYS[line.words[0]] for at, line in enumerate(lines) if line.words[0] in WAYS}
        marks = {at - 1 for at, line in enumerate(lines) if line.is_marked}
        self.asked = {line.spot for line in self.statements} | self.ways.keys() | marks
        while probes := self.next_probes():
            status, said = check(self.probed(probes), "--allow-faults")
            if status == HOLDS:
                self.missed.update(probes)
                self.bounds = BOUNDS.search(said)[0]
            elif status == FAILS and (numbers := PROBED.findall(said)):
                self.reached.update(probes[int(number)] for number in numbers)
            else:
                break
        self.is_finished = not probes

    def next_probes(self) -> list[int]:
        """The lines behind which probes stand next: as many as a process has room for. Behind a line that is
        not asked a schedule is taken to come, where one comes to it."""
        probes = []
        for at, line in enumerate(self.lines):
            if line.begin - 1 in self.reached and at not in self.missed:
                if at not in self.asked:
                    self.reached.add(at)
                elif at not in self.reached:
                    probes.append(at)
        return probes[:MOST_PROBES]

    def probed(self, probes: list[int]) -> str:
        """The text with probes, and without check lines. An `emit` is evaluated, since it may be at fault,
        and counted by a sum that is too great with the ninth one."""
        named = {word.strip("[]") for line in self.lines for word in line.words}
        counter = next((it for it in VARIABLES if it not in named), "")  # Without one the text is refused.
        counted = f"fi\nset {counter} {counter} + {MOST_NUMBER // MOST_EMITTED}"
        texts = [re.sub("^emit(.*)", rf"if\1\n{counted}", f"{line}\n") for line in self.lines]
        for number, at in enumerate(probes):
            texts[at] += f"emit 0\nemit {number}\nhalt\n"
        return "".join([*(it for it in texts if not it.startswith("check")), "check atmost 0 0\n"])

    def is_meant(self, at: int) -> bool:
        """Whether no process is meant to come behind a line: a comment says so, or straight lines lead from
        there to an `emit` of a number that a check line forbids to each process."""
        ahead = (it.words for it in self.lines[at + 1 :] if it.words[0] not in ("set", *ACCESSES))
        first, *number = next(ahead)
        is_alarm = first == "emit" and ["check", "atmost", *number, "0"] in [it.words for it in self.lines]
        return is_alarm or self.lines[at + 1].is_marked

    def told(self) -> dict[str, Any]:
        """What is known, to be told."""
        lines, meant = self.lines, set()
        for at, line in enumerate(lines[:-1]):
            if at not in self.reached and (line.begin - 1 in meant or self.is_meant(at)):
                meant.add(at)
        missed = [it.place for it in self.statements if it.spot not in self.reached | meant]
        ways = [(lines[lines[at].begin], way) for at, way in self.ways.items() if at in self.missed - meant]
        return {
            "bounds": self.bounds,
            "never": missed if self.is_finished else [],
            "branches": [{"line": it.place, "statement": str(it), "way": way} for it, way in ways],
            "meant_never": [it.place for it in self.statements if it.spot in meant],
            "belied": [it.place for at, it in enumerate(lines) if it.is_marked and at - 1 in self.reached],
            "left_alone": [it.place for it in lines if it.words[0] == "use"],
            "open": [] if self.is_finished else missed,
        }
