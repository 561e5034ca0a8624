"""What the program answers, and what is wrong with an answer by itself."""

import pathlib
import re
import subprocess

TOP = pathlib.Path(__file__).resolve().parent.parent.parent
PROGRAM = TOP / "crates" / "regtry" / "out" / "regtry"
# What is noted of a comment that names a register in vain.
NOTE = re.compile(rb"[^\n]*: register \d+ goes by its number: [^\n]*\n")


def run(folder, words, given=b""):
    """The status of the program, negative by a signal and None where it did not end, and what it printed, but
    for notes of names; it is given these bytes."""
    try:
        ran = subprocess.run(
            ["regtry", *words], executable=PROGRAM, cwd=folder, input=given, capture_output=True, timeout=60
        )
    except subprocess.TimeoutExpired:
        return None, b"", b""
    return ran.returncode, ran.stdout, NOTE.sub(b"", ran.stderr)


def faults_of(answer, several=False):
    """What is wrong with an answer by itself, which may be that of a check of several files."""
    status, out, err = answer
    if status not in (0, 1, 2, 3):
        yield f"status {status}"
    elif status < 2 and err:
        yield f"status {status}, and on standard error {err[:80]!r}"
    elif status >= 2 and (out and not several or not err):
        yield f"status {status}, and on standard output {out[:80]!r}, on standard error {err[:80]!r}"
