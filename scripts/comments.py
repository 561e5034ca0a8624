"""What a source says in comment lines of how it is to be checked: `# expect:`, `# with:` and `# judge:`."""

import re
import shlex
from typing import List, NamedTuple

COMMENT = re.compile(r"^ *# *(expect|with|judge): *(.*?) *$", re.MULTILINE)


class Told(NamedTuple):
    """What is expected of a source, the options of `check`, and the words of its judge; nothing where the
    source does not say it."""

    expected: str
    options: List[str]
    judge: List[str]


def told_in(text: str) -> Told:
    """What the comments of a source say. Where they cannot be read, a ValueError says why."""
    found = COMMENT.findall(text)
    words, names = dict(found), [name for name, _ in found]
    twice = [name for name in words if names.count(name) > 1]
    if twice:
        raise ValueError(f"'# {twice[0]}:' stands there twice")
    if words.get("judge") == "":
        raise ValueError("'# judge:' names no script")
    return Told(words.get("expect", ""), split("with", words), split("judge", words))


def split(name: str, words: "dict[str, str]") -> List[str]:
    """The words behind the comment with this name, as bash parts them."""
    told = words.get(name, "")
    try:
        return shlex.split(told)
    except ValueError as error:
        raise ValueError(f"'# {name}: {told}' is no list of words: {error}") from error
