"""The lines of a source that the program accepts."""

import re
from typing import NamedTuple, Union

ORIGIN = re.compile(r' *#line +(0|[1-9]\d{0,8}|10{9})(?: +(?:"(\S*)"|\S+))?(?: .*)?')
NEVER = re.compile(r" *# *never *(:.*)?")
ACCESSES, MOST_NUMBER = ("read", "write", "scan"), 1000000000
STATEMENTS = (*ACCESSES, "set", "if", "repeat", "emit", "halt")
OPENING, CLOSING = ("process", "if", "repeat"), ("fi", "done", "end")


class Line(NamedTuple):
    """The words of a line; its place, a number or `7 of FILE`; whether a comment `# never` stands before it;
    and the line with which its statement begins: itself, but for `else` and what closes a block."""

    words: list[str]
    place: Union[int, str]
    is_marked: bool
    begin: int

    def __str__(self) -> str:
        return " ".join(self.words)

    @property
    def spot(self) -> int:
        """The line behind which a process comes that executes this statement: an access is done then."""
        return self.begin if self.words[0] in ACCESSES else self.begin - 1


def lines_of(text: str, path: str) -> list[Line]:
    """The lines of a source that have words, and an `else` in each `if`."""
    lines, opened = [], []  # These have opened the blocks that are open.
    number, file, is_marked = 1, path, False
    for line in text.split("\n"):
        words, told = line.split(), ORIGIN.fullmatch(line)
        place = number if file == path else f"{number} of {file}"
        number, file = (int(told[1]), told[2] or file) if told else (number + 1, file)
        is_marked = is_marked or NEVER.fullmatch(line) is not None
        if not words or words[0].startswith("#"):
            continue
        if words[0] in OPENING:
            opened.append(len(lines))
        elif words[0] == "fi" and len(parts(lines, opened[-1])) == 1:
            lines.append(Line(["else"], place, is_marked, opened[-1]))
        is_further = words[0] in ("else", *CLOSING)
        lines.append(Line(words, place, is_marked, opened[-1] if is_further else len(lines)))
        if words[0] in CLOSING:
            opened.pop()
        is_marked = False
    return lines


def parts(lines: list[Line], begin: int) -> list[int]:
    """The lines of a statement that are not within its blocks."""
    return [at for at, line in enumerate(lines) if line.begin == begin]
