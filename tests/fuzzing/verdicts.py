"""Whether checks say what an exploration does."""

import re

from runs import faults_of, run
from searches import how_checked


def err_of_each(err):
    """What is told on standard error of the case's file, of one that is not there and of standard input, where this is told of the first."""
    return err + b"none.reg: there is no such file\n" + err.replace(b"case.reg:", b"-:", 1)


def out_of_input(out):
    """What is told of the case's file, as it is told of standard input: the command names a file that is wanted."""
    wanted = rb"\1FILE\2, where FILE holds what was read\n"
    return re.sub(rb"(\nregtry show )case\.reg( '[^']*')\n", wanted, out).replace(b"case.reg", b"-")


def line_of_all(status):
    """The last line of three files, of which two have this status and the other one is refused."""
    words = {0: b"2 hold, 1 refused", 1: b"2 fail, 1 refused", 2: b"3 refused", 3: b"1 refused, 2 unanswered"}
    return b"3 files: " + words.get(status, b"") + b"\n"


def outcomes_in(text):
    """The lines of a text that tell how many outcomes there are, and each of them."""
    return [line for line in text.splitlines() if line.startswith(b"outcome")]


def letters_in(verdict):
    """How many letters the schedule has that a verdict tells to fail; 65 where it tells none."""
    told = re.match(rb"case\.reg: a schedule of (\d+) letters? fails", verdict)
    return int(told[1]) if told else 65


def checked_fault(dice, folder, settings, alone):
    """Whether a check says what an exploration by the same bounds does."""
    check = ["check", "case.reg", *how_checked(dice, settings)]
    answer = run(folder, [*check, "--allow-faults"])
    yield from faults_of(answer)
    named = re.search(rb"^least (.*)\nfails ", alone[1], re.MULTILINE)
    tried = re.search(rb"^tried (\d+)\n", alone[1], re.MULTILINE)
    begin = b"case.reg: no schedule fails: " + tried[1] + b" schedule" if tried and not named else b""
    end = b"\nregtry show case.reg '" + named[1] + b"'\n" if named else b""
    if answer[0] != alone[0] or not answer[1].startswith(begin) or not answer[1].endswith(end):
        yield f"a check answers {answer}, and an exploration {alone}"
    strict = run(folder, check)
    yield from faults_of(strict)
    given = (folder / "case.reg").read_bytes()
    status, out, err = run(folder, [*check, "none.reg", "-"], given)
    out_of_each = strict[1] + out_of_input(strict[1]) + line_of_all(strict[0])
    alike = (out, err) == (out_of_each, err_of_each(strict[2]))
    if status != max(2, strict[0]) or not alike:
        yield f"a check of three files answers {status, out, err}, and of one {strict}"
    listed = run(folder, [*check, "--outcomes"])
    yield from faults_of(listed)
    if listed[0] != strict[0] or not listed[1].startswith(strict[1]) or alone[0] < 2 and outcomes_in(listed[1]) != outcomes_in(alone[1]):
        yield f"a check that lists outcomes answers {listed}, one that does not {strict}, and an exploration {alone}"
    shortest = run(folder, [*check, "--shortest"])
    yield from faults_of(shortest)
    if strict[0] == 1 and (shortest[0] != 1 or letters_in(shortest[1]) > letters_in(strict[1])):
        yield f"the shortest failing schedule is answered {shortest}, and the least {strict}"
    at_fault = re.search(rb"^outcome (.*; )?fault ", alone[1], re.MULTILINE)
    if strict[0] != (1 if at_fault else alone[0]):
        yield f"a check that does not allow faults answers {strict}, and an exploration {alone}"
