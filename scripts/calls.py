"""The program that scripts run, calls of it, and the words of scripts that ask it about files."""

import argparse
import os
import sys
from functools import lru_cache
from pathlib import Path
from subprocess import DEVNULL, PIPE, CompletedProcess, TimeoutExpired, run
from typing import Callable, Optional, Sequence

TOP = Path(__file__).resolve().parent.parent
HOLDS, FAILS, REFUSED, COULD_NOT = range(4)
MOST = 1000000


@lru_cache(maxsize=None)
def chosen_program(must_be_proved: bool) -> str:
    """The path of the program that `./regtry --which` chooses, and makes where need be: one that is proved
    where that is asked for. Where there is none that has said why, and the script ends with its status."""
    words = [str(TOP / "regtry"), "--which", *["--proved"] * must_be_proved]
    asked = run(words, stdin=DEVNULL, stdout=PIPE, text=True)
    if asked.returncode:
        sys.exit(asked.returncode)
    return asked.stdout.rstrip("\n")


def call(words: Sequence[str], text: str = "", limit: Optional[float] = None) -> "CompletedProcess[str]":
    """A call of a program with this standard input, for at most so many seconds."""
    return run(words, input=text, capture_output=True, text=True, errors="replace", timeout=limit)


def check(
    program: str, words: Sequence[str], text: str = "", limit: Optional[float] = None
) -> "tuple[int, str]":
    """The status of `check` with these words, and what it says: of the source, or why that is not known."""
    try:
        ran = call([program, "check", *words], text, limit)
    except TimeoutExpired:
        return COULD_NOT, f"the check is not finished in {limit} seconds"
    if ran.returncode in (HOLDS, FAILS):
        return ran.returncode, ran.stdout
    said = ran.stderr.strip() or f"status {ran.returncode}"
    return REFUSED if ran.returncode == REFUSED else COULD_NOT, said


def above_none(word: str) -> int:
    """The number from 1 on that a word is."""
    if not word.isdecimal() or not 1 <= int(word) <= MOST:
        raise argparse.ArgumentTypeError(f"takes a number from 1 to {MOST}, not {word!r}")
    return int(word)


def parser_of(document: str) -> argparse.ArgumentParser:
    """A parser of the words of a script, by what the script says of itself: it takes --jobs, --proved and
    FILE.."""
    usage, _, description = document.partition("\n\n")[2].partition("FILE..\n\n")
    parser = argparse.ArgumentParser(
        usage=f"{usage.strip()} FILE..",
        allow_abbrev=False,
        description=description,
        formatter_class=argparse.RawDescriptionHelpFormatter,
    )
    parser.add_argument("--jobs", type=above_none, default=os.cpu_count() or 1, metavar="N")
    parser.add_argument("--proved", action="store_true")
    parser.add_argument("files", nargs="+", metavar="FILE")
    return parser


def end_with(main: Callable[[], int]) -> None:
    """Ends with the status of a script; in silence, where who reads what it prints has gone."""
    try:
        status = main()
        sys.stdout.flush()
    except BrokenPipeError:
        os.dup2(os.open(os.devnull, os.O_WRONLY), sys.stdout.fileno())
        status = COULD_NOT
    sys.exit(status)
