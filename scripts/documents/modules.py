"""The modules of each crate: no two of them use one another, at once or by way of others.

A module is a file of src, and it uses those that its `use crate::..` lines name. The root file, which names all modules, and the
tests are left out.
"""

import re

from places import crates, root_of

USED = re.compile(r"^\s*(?:pub(?:\(crate\))? )?use crate::(\w+(?:::\w+)*)", re.MULTILINE)


def modules_of(root):
    """The files of a crate's modules, by the names of the modules."""
    files = {path.relative_to(root.parent).with_suffix("").parts: path for path in sorted(root.parent.rglob("*.rt"))}
    return {"::".join(parts): path for parts, path in files.items() if path != root and parts[0] != "tests"}


def used_by(path, modules):
    """The modules that a file uses: of each path behind `crate::`, the longest beginning that is a module."""
    for used in USED.findall(path.read_text()):
        words = used.split("::")
        beginnings = ["::".join(words[:count]) for count in range(len(words), 0, -1)]
        yield from [beginning for beginning in beginnings if beginning in modules][:1]


def reached(module, graph):
    """The modules that one uses, at once or by way of others."""
    found, waiting = set(), [module]
    while waiting:
        new = graph[waiting.pop()] - found
        found |= new
        waiting += new
    return found


def circles():
    """The modules that use one another, those of each circle together."""
    for crate in crates():
        modules = modules_of(root_of(crate))
        graph = {module: set(used_by(path, modules)) for module, path in modules.items()}
        reach = {module: reached(module, graph) for module in graph}
        rings = {tuple(other for other in graph if other in reach[module] and module in reach[other]) for module in graph}
        for ring in sorted(filter(None, rings)):
            yield f"crates/{crate}/src: modules that use one another: {', '.join(ring)}"
