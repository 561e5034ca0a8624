"""A picture as SVG, as TikZ for LaTeX, and on pages of HTML that ask for no other file."""

import json
import os
import re
from html import escape
from pathlib import Path
from string import Template

from layout import NARROW, SCREEN, WIDE, Picture
from reading import ask, run_of_text

HERE = Path(__file__).resolve().parent
# What means something else in LaTeX, by what stands for it.
TEX = {"\\": r"\textbackslash{}", "^": r"\textasciicircum{}", "~": r"\textasciitilde{}"}
TEX.update({"<": r"\textless{}", ">": r"\textgreater{}", "|": r"\textbar{}"})
TEX.update({it: "\\" + it for it in "#$%&_{} "})
# An exploration of an example that fails, and what examples/README.md says of examples.
FAILING = re.compile(r"(?m)^\$ \./regtry explore (\S+) (--length \d+ --crashes \d+) [^$]*?^fails ")
SAID = re.compile(r"(?m)^\| (`.*) \| (.*) \|$")


def filled(name, /, **parts):
    """A template of this folder with its parts."""
    return Template((HERE / name).read_text()).substitute(parts)


def element(shape):
    """A shape as an element of SVG."""
    words = f'class="{shape.kind}"' + f' data-step="{shape.step}"' * (shape.step > 0)
    (x, y), (right, bottom) = shape.points[0], shape.points[-1]
    if shape.form == "line":
        return f'<path {words} d="M{"L".join(f"{x:g} {y:g}" for x, y in shape.points)}"/>'
    words += f' x="{x:g}" y="{y:g}"'
    if shape.form == "text":
        words += f' transform="rotate(90 {x:g} {y:g})"' * shape.is_turned
        return f'<text {words} dy=".35em">{escape(shape.text)}</text>'
    words += f' data-sees="{" ".join(map(str, shape.sees))}"' * bool(shape.sees)
    words += ' rx="8"' * shape.kind.startswith(("read", "scan"))
    return f'<rect {words} width="{right - x:g}" height="{bottom - y:g}"/>'


def command(shape):
    """A shape as a command of TikZ."""
    kind, places = shape.kind.replace(" ", ","), [f"({x:g},{y:g})" for x, y in shape.points]
    if shape.form == "text":
        turn, text = ",rotate=-90" * shape.is_turned, shape.text.translate(str.maketrans(TEX))
        return rf"\node[{kind}{turn}] at {places[0]} {{{text}}};"
    return rf"\path[{kind}] {(' -- ' if shape.form == 'line' else ' rectangle ').join(places)};"


def drawn(run, form, language="svg"):
    """A picture in a language, svg or tex, by its template there."""
    picture, write = Picture(run, form), element if language == "svg" else command
    parts = {"width": picture.width + 8, "height": picture.height + 8, "label": escape(run.label)}
    parts["kind"] = "narrow" if form.is_upright else "wide"
    return filled(f"picture.{language}", shapes="\n".join(map(write, picture.shapes)), **parts)


def page(run, lead=""):
    """The page of a run, below some HTML; its script fills in all but the pictures."""
    data = json.dumps(run, default=vars).replace("<", r"\u003c")
    parts = {"pictures": drawn(run, SCREEN) + drawn(run, NARROW), "title": escape(run.name)}
    script = (HERE / "page.js").read_text()
    return filled("page.html", lead=lead, run=data, script=script, **parts)


def write_gallery(folder, choose):
    """Writes a page for each example that fails, the list of them, and one of the pictures."""
    gallery, links = folder.resolve() / "gallery", []
    gallery.mkdir(parents=True, exist_ok=True)
    os.chdir(HERE.parent.parent)  # Sources are named from the top, as in documents.
    for names, told in SAID.findall(Path("examples/README.md").read_text()):
        told = re.sub("`(.*?)`", r"<code>\1</code>", escape(told[0].upper() + told[1:] + "."))
        for name in re.findall(r"`(\w+)\.reg`", names):
            if found := FAILING.search(Path(f"examples/{name}.report").read_text()):
                run = run_of_text(ask(1, choose, "check", found[1], *found[2].split()), choose)
                back = f'<p><a href="index.html">Schedules that fail</a></p>\n<p>{told}</p>'
                (gallery / f"{name}.html").write_text(page(run, back))
                links.append(f'<li><a href="{name}.html">{name}</a>: {told}</li>')
                if name == "max_register_switch_first":
                    (gallery.parent / "picture.svg").write_text(drawn(run, WIDE))
    (gallery / "index.html").write_text(filled("index.html", links="\n".join(links)))
