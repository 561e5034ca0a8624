"""Where the parts of a picture stand: lanes against time, which goes to the right, or down."""

from collections import defaultdict, namedtuple
from itertools import groupby
from math import ceil, inf
from textwrap import shorten, wrap

# In pixels of 3/4 point: how wide a character is, and how high a line of text; and across the lanes
# what a line in a gap takes, the lane of a register, the numbers of steps, and what parts two rows.
CHARACTER, LINE, TRACK, VALUE, NUMBER, PARTING = 7.25, 16, 7, 18, 18, 12
CROSS = (-6, -6), (6, 6), (0, 0), (6, -6), (-6, 6)
# A form: how wide it is, whether time goes down, and how high the box of a step is.
Form = namedtuple("Form", "width is_upright box")
WIDE, NARROW, SCREEN = Form(664, False, 34), Form(312, True, 17), Form(888, False, 34)
# A box by two corners, a line by its points, or a text by its place: what it shows, and of which
# step, 0 where it is of none; the text, and whether it goes down; and the writes that a box sees.
Shape = namedtuple("Shape", "form kind step points text is_turned sees")


def wide_of(texts):
    """How wide the widest of some texts is."""
    return CHARACTER * max(map(len, texts), default=0)


class Picture:
    """The shapes of a run in a form, and how wide and high they are in all."""

    def __init__(self, run, form):
        self.run, self.form, self.half, self.shapes = run, form, form.box / 2, []
        self.ends = [shorten(it, 18, placeholder=" ..") for it in run.ends]
        told = zip(run.processes, run.ends, self.ends)
        self.notes = [f"{name}: {end}" for name, end, short in told if end != short] + run.notes
        self.begin = wide_of([*run.processes, *run.registers.values()]) + 8
        end, count = wide_of(self.ends) + 8, max(1, len(run.steps))
        if form.is_upright:
            self.size = wide_of(it for held in run.values for it in held.values()) + 10
            self.pitch, most = form.box + 5, count
        else:
            self.pitch, self.size = wide_of(["crash", *(it.on for it in run.steps)]) + 18, VALUE
            most = max(1, (form.width - self.begin - end) // self.pitch)
        each, bottom = ceil(count / ceil(count / most)), -PARTING
        for at in range(0, count, each):
            self.steps, self.first = run.steps[at : at + each], at + 1
            bottom = self.draw_row(bottom + PARTING)
        self.shapes.sort(key=lambda it: it.kind not in ("now", "fails"))  # Frames lie below.
        right = self.begin + self.pitch * each + end
        self.width, self.height = (bottom, right) if form.is_upright else (right, bottom)
        self.width, self.height = max(self.width, 160), self.height + 8
        for at, text in enumerate([run.caption, *self.notes]):
            for line in wrap(text, int(self.width / CHARACTER)):
                self.height += LINE
                kind, place = "said" if at else "claim", (2, self.height - 6)
                self.shapes.append(Shape("text", kind, 0, [place], line, False, ()))

    def add(self, form, kind, step, *points, text="", sees=()):
        """Draws a shape by its places, each in time and across the lanes."""
        is_turned = self.form.is_upright and kind in ("process", "register", "end")
        points = [it[::-1] for it in points] if self.form.is_upright else points
        self.shapes.append(Shape(form, kind, step, points, text, is_turned, sees))

    def time(self, number, part=0.5):
        """The middle of a step of the row, or its beginning, or its end."""
        return self.begin + self.pitch * (number - self.first + part)

    def draw_row(self, top):
        """Draws a row; gives where it ends."""
        words = across = self.draw_lines(top + NUMBER) + 4
        written = {it.registers[0] for it in self.run.steps if it.verb == "write"}
        shown = sorted({it for step in self.steps for it in step.registers} & written)
        shown = [it for it in shown if it in self.run.registers]
        if self.form.is_upright:
            across += wide_of(it.act for it in self.steps) + 12
            room = max(0, int((self.form.width - across) // self.size))
            left, shown = len(shown) - room, shown[:room]
            self.notes += [f"Registers left out for want of room: {left}."] * (left > 0)
        bottom = across + self.size * len(shown)
        for process in range(len(self.ends)):
            self.draw_lane(process)
        for step in self.steps:
            self.draw_step(step, top, words, bottom)
        for at, register in enumerate(shown):
            self.draw_register(register, across + self.size * at)
        return bottom

    def draw_lines(self, top):
        """Finds the lanes, gives their end, and draws lines to steps from writes, or from beside
        where these are in an earlier row: along the reader's lane, on tracks where no two meet."""
        readers, self.lanes, lines = [defaultdict(set) for _ in [*self.ends, ""]], [], []
        for step in self.steps:
            for write in step.sees:
                begin = self.run.steps[write - 1] if write >= self.first else step
                gap = step.process + (begin.process > step.process)
                readers[gap][begin.number].add(step.number)
        for gap in readers:
            ends = []
            for begin, numbers in sorted(gap.items()):
                track = next((at for at, it in enumerate(ends) if it < begin), len(ends))
                ends[track : track + 1] = [max(numbers)]
                lines += [(begin, it, top + TRACK * (track + 1)) for it in numbers]
            top += 8 + TRACK * len(ends) + self.form.box
            self.lanes.append(top - self.half)
        for line in lines:
            self.draw_line(*line)
        return top - self.form.box

    def draw_line(self, begin, number, across):
        """Draws a line to a step, with its head."""
        source, step = (self.run.steps[it - 1] for it in (begin, number))
        time, lane = self.time(number), self.lanes[step.process]
        side = 1 if across > lane else -1
        tip, foot = (lane + side * it for it in (self.half, self.half + 6))
        points = [(self.time(begin), it) for it in (self.lanes[source.process], across)]
        if source is step:
            points, far = [(time - 15, across)], [str(it) for it in step.sees if it < self.first]
            told = ",".join(far[:2]) + ".." * (len(far) > 2)
            self.add("text", "far", number, (time - 18, across), text=told)
        self.add("line", "sees", number, *points, (time, across), (time, tip))
        self.add("line", "head", number, (time, tip), (time - 3, foot), (time + 3, foot))

    def draw_lane(self, process):
        """Draws the lane of a process, up to where it has ended, and how it stands then."""
        run, lane, right = self.run, self.lanes[process], self.begin + self.pitch * len(self.steps)
        until = max((it.number for it in run.steps if it.process == process), default=0)
        until = inf if run.ends[process].startswith("running") else until
        self.add("text", "process", 0, (self.begin - 8, lane), text=run.processes[process])
        if until >= self.first:
            self.add("line", "lane", 0, (self.begin, lane), (min(right, self.time(until)), lane))
        if self.steps[-1:] == run.steps[-1:]:
            self.add("text", "end", len(run.steps), (right + 6, lane), text=self.ends[process])

    def draw_step(self, step, top, words, bottom):
        """Draws what a step does, on the lane of its process and where words stand, in a frame."""
        number, time, lane = step.number, self.time(step.number), self.lanes[step.process]
        wide, middle, verb, kind, told = self.half, lane, step.verb[0].upper(), "act", step.act
        if not self.form.is_upright:
            middle, verb, kind, told = lane - 7, step.verb, "on", step.on or step.verb
            wide, words = self.pitch / 2 - 4, lane + 7
        corners = (self.time(number, 0), top), (self.time(number, 1), bottom)
        for frame in ("now", "fails") if number == self.run.since else ("now",):
            self.add("box", frame, number, *corners)
        self.add("text", "number", number, (time, top + 8), text=str(number))
        corners = (time - wide, lane - self.half), (time + wide, lane + self.half)
        self.add("box", step.verb + " fault" * step.is_fault, number, *corners, sees=step.sees)
        if step.verb == "crash":
            self.add("line", "cross", number, *((time + x, middle + y) for x, y in CROSS))
        else:
            self.add("text", "verb", number, (time, middle), text=verb)
        self.add("text", kind, number, (time, words), text=told)

    def draw_register(self, register, top):
        """Draws the lane of a register, with what it holds from one change to the next."""
        held, middle = [it[register] for it in self.run.values], top + self.size / 2
        top, bottom = top + 2, top + self.size - 2
        self.add("text", "register", 0, (self.begin - 8, middle), text=self.run.registers[register])
        for value, group in groupby(self.steps, lambda it: held[it.number]):
            numbers = [it.number for it in group]
            left, right = self.time(numbers[0], 0), self.time(numbers[-1], 1)
            step = numbers[0] if value != held[numbers[0] - 1] else 0
            self.add("box", "zero" if value == "0" else "held", step, (left, top), (right, bottom))
            if step:
                self.add("line", "change", step, (left, top), (left, bottom))
            kind = "changed" if step else "value"
            self.add("text", kind, step, (self.time(numbers[0]), middle), text=value)
