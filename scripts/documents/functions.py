"""The public functions of the crates, and what their roots make public."""

import re

from places import WORD

ITEM = re.compile(
    r"^(?:pub )?trait (?P<trait>\w+)|^impl\b(?P<impl>[^{]*)\{|^(?P<indent> *)(?P<pub>pub )?(?:const |final )?fn (?P<fn>\w+)",
    re.MULTILINE,
)
GENERICS = re.compile(r"^\s*<[^>]*>")
EXPORT = re.compile(r"^pub use (?:crate::)?(\w+)::(?:\{(.*?)\}|(\w+));", re.MULTILINE | re.DOTALL)


def exported(text):
    """The items of other modules that a root file makes public."""
    for _, listed, single in EXPORT.findall(text):
        yield from WORD.findall(listed or single)


def public_functions(text):
    """The public functions of a source, each with its type or trait, if it is of one."""
    owner, all_public = None, False
    for item in ITEM.finditer(text):
        if item["trait"]:
            owner, all_public = item["trait"], True
        elif item["impl"]:
            of_trait, _, target = item["impl"].rpartition(" for ")
            owner = re.search(r"\b[A-Z]\w*|$", GENERICS.sub("", target))[0]
            all_public = bool(of_trait)
        else:
            if not item["indent"]:
                owner, all_public = None, False
            if item["pub"] or all_public:
                yield owner, item["fn"]
