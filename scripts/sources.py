"""Reads a source of docs/LANGUAGE.md, for tools that make something else of it."""

import re

from use_lines import MOST_TURNS, Refused, lines_of

MOST_NUMBER = 1000000000
CLOSING = {"if": ("fi", "else"), "else": ("fi",), "repeat": ("done",), "process": ("end",)}
LENGTHS = {
    "set": {3, 5},
    "read": {3},
    "write": {3, 5},
    "scan": {4},
    "if": {2, 4},
    "repeat": {2, 4},
    "emit": {2, 4},
    "halt": {1},
}


class Source:
    """What a source says: how many registers there are, the block of each process, the words of checks."""

    def __init__(self, text):
        self.lines = [*lines_of(text)]
        self.processes, self.checks = [], []
        self.at = 0
        number, words = self.next()
        if len(words) != 2 or words[0] != "registers" or not 1 <= int_of(number, words[1]) <= 64:
            raise Refused(number, "the first line has to be: registers NUMBER, from 1 to 64")
        self.registers = int(words[1])
        while self.at < len(self.lines):
            number, words = self.next()
            if words == ["process"]:
                self.processes.append(self.block("process")[0])
            elif words[0] == "check":
                self.checks.append((number, words[1:]))
            else:
                raise Refused(number, f"this line cannot stand outside a process: {' '.join(words)}")
        if not 1 <= len(self.processes) <= 8:
            raise Refused(number, "there have to be 1 to 8 processes")

    def next(self):
        """The next line, which has to be there."""
        if self.at == len(self.lines):
            raise Refused(self.lines[-1][0] if self.lines else 1, "the text ends too early")
        self.at += 1
        return self.lines[self.at - 1]

    def block(self, opened):
        """The statements up to the word that closes a block, and that word. A statement is its line, its
        words and its blocks."""
        statements = []
        while True:
            number, words = self.next()
            if len(words) == 1 and words[0] in CLOSING[opened]:
                return statements, words[0]
            if len(words) not in LENGTHS.get(words[0], ()):
                raise Refused(number, f"this line cannot stand in a process: {' '.join(words)}")
            blocks = []
            if words[0] in CLOSING:
                first, closed_by = self.block(words[0])
                blocks = [first, self.block("else")[0] if closed_by == "else" else []]
            statements.append((number, words, blocks))


def int_of(line, word):
    """The number that a word is."""
    if not re.fullmatch(r"0|[1-9]\d*", word) or int(word) > MOST_NUMBER:
        raise Refused(line, f"no number up to {MOST_NUMBER}: {word}")
    return int(word)


def most(block, first, begin=None):
    """How often a block at most does lines with one of these first words, or with a word that begins so,
    whatever its process reads."""
    total = 0
    for _, words, blocks in block:
        inner = max((most(it, first, begin) for it in blocks), default=0)
        turns = int(words[1]) if len(words) == 2 and words[1].isdecimal() else MOST_TURNS
        total += inner * turns if words[0] == "repeat" else inner
        total += words[0] in first or begin is not None and any(word.startswith(begin) for word in words)
    return total
