"""What is drawn: files, bounds, and words that are no command."""

VALUES = ["0", "1", "2", "3", "7", "v0", "v1", "v15", "[0]", "[31]", "[v0]", "1000000000"]
ODD_WORDS = ["01", "1000000001", "v16", "[32]", "[", "x", "-", "\t", "#", "9" * 40, "process", "check", "use"]
KINDS = [
    "split 0 {id}",
    "grid 0 2 {id}",
    "grid 0 3 {id}",
    "tree 0 2 {id} {id}",
    "name 0 3 {slot}",
    "names 0 3 {slot}",
]
CHECKS = [
    "distinct",
    "atmost 1 1",
    "atmost 3 0",
    "within 1 2",
    "adaptive",
    "triangle",
    "selfseen",
    "ended",
    "nofault",
]
NAMES = ["x", "turn", "flag[0]", "r1", "last*", "sixteen-letters.", "seventeen-letters"]
COMMENTS = [
    "# register {register}: {name}",
    "   #  register   {register}:   {name} ",
    "# register 0{register}: {name}",
    "# register {register}: two words",
    "# process 0: {name}",
    "# expect: holds",
    "# expect: fails check distinct",
    "# with: --length 5",
    "#line {line}",
    '#line {line} "made.m4"',
    '#line {line} "two words.m4"',
    "",
]
SETTINGS = {"length": 64, "crashes": 8, "workers": 16, "cut": 16, "room": 65536}


def expression(dice):
    """One operand, or two."""
    first, second = dice.choice(VALUES), dice.choice(VALUES)
    return first if dice.random() < 0.6 else f"{first} {dice.choice('+-*=<')} {second}"


def statements(dice, depth):
    """Some lines of a process."""
    for _ in range(dice.randint(0 if depth else 1, 5)):
        kind = dice.randint(0, 10 if depth < 3 else 8)
        if kind <= 2:
            yield f"read {dice.choice(VALUES[5:11])} {dice.choice('0012')}"
        elif kind <= 5:
            yield f"write {dice.choice('0012')} {expression(dice)}"
        elif kind == 6:
            yield f"set {dice.choice(VALUES[5:11])} {expression(dice)}"
        elif kind == 7:
            yield dice.choice([f"emit {expression(dice)}", f"emit {expression(dice)}", "halt"])
        elif kind == 8:
            yield f"scan {dice.choice(['0', '1', '5', '30'])} {dice.choice('0012')} {dice.choice('1123')}"
        elif kind == 9:
            yield f"if {expression(dice)}"
            yield from statements(dice, depth + 1)
            if dice.random() < 0.5:
                yield "else"
                yield from statements(dice, depth + 1)
            yield "fi"
        else:
            yield f"repeat {dice.choice('0123')}"
            yield from statements(dice, depth + 1)
            yield "done"


def source(dice):
    """A source that is mostly accepted."""
    kind, are_used = dice.choice(KINDS), dice.random() < 0.4
    lines = [f"registers {12 if are_used else dice.choice([1, 2, 3])}"]
    for number in range(dice.choice([1, 2, 2, 3, 3])):
        use = f"use {kind.format(id=number + 1, slot=number)}"
        lines += ["process", *([use] if are_used and dice.random() < 0.7 else statements(dice, 0)), "end"]
    lines += [f"check {dice.choice(CHECKS)}" for _ in range(dice.randint(0, 2))]
    return "".join(f"{line}\n" for line in lines).encode()


def comment(dice):
    """A comment line as a drawing, an explanation or a script reads one, or nearly so; half name a register."""
    return dice.choices(COMMENTS, [len(COMMENTS), *[1] * (len(COMMENTS) - 1)])[0].format(
        register=dice.choice([0, 0, 1, 1, 2, 11, 64]),
        name=dice.choice(NAMES),
        line=dice.choice([0, 1, 70, 1000000000, 1000000001]),
    )


def commented(dice):
    """A source that is mostly accepted, mostly with some comment lines, wherever they may stand."""
    lines = source(dice).splitlines(keepends=True)
    for _ in range(dice.choice([0, 2, 4, 8])):
        lines.insert(dice.randint(0, len(lines)), f"{comment(dice)}\n".encode())
    return b"".join(lines)


def lines_of_words(dice):
    """Lines of words that the language has, and some that it has not."""
    words = sorted(
        {word for kind in KINDS for word in kind.split()[:1]}
        | {"registers", "process", "end", "repeat", "if", "fi", "scan"}
    )
    every = words + VALUES + ODD_WORDS + CHECKS
    return "".join(
        " ".join(dice.choices(every, k=dice.randint(0, 5))) + "\n" for _ in range(dice.randint(0, 12))
    ).encode()


def changed(dice):
    """A source cut off, or with some bytes changed."""
    text = bytearray(commented(dice))
    if dice.random() < 0.5:
        return bytes(text[: dice.randrange(len(text) + 1)])
    for _ in range(dice.randint(1, 3)):
        text[dice.randrange(len(text))] = dice.randrange(256)
    return bytes(text)


def file(dice):
    """The bytes of a file."""
    make = dice.choices(
        [commented, changed, lines_of_words, lambda dice: dice.randbytes(dice.randint(0, 200))], [6, 2, 1, 1]
    )[0]
    return make(dice)


def bounds(dice):
    """Settings that a small source is explored with in a moment."""
    return {
        "length": dice.choice([0, 1, 2, 5, 8, 10, 12]),
        "crashes": dice.randint(0, 2),
        "workers": 1,
        "cut": 0,
        "room": 0,
    }


def exploration(settings, *more):
    """The words of an exploration of the case's file."""
    return [
        "explore",
        "case.reg",
        *(word for name, value in settings.items() for word in (f"--{name}", str(value))),
        *more,
    ]


def odd_words(dice):
    """Words that are no command, or one with a setting about its limit or a word changed."""
    words = [
        word.encode()
        for word in exploration(
            {name: dice.choice([0, 1, most, most + 1]) for name, most in SETTINGS.items()}
        )
    ]
    if dice.random() < 0.3:
        parts = dice.choices(
            ["R0", "R1", "C0", "C1", "R8", "r0", ".", "done *", "*", "crashed idle"], k=dice.randint(0, 5)
        )
        words = [
            dice.choice([b"replay", b"show", b"check", b"find"]),
            b"case.reg",
            dice.choice([" ", "; "]).join(parts).encode(),
        ]
    for _ in range(dice.randint(1, 2)):
        place = dice.randrange(len(words))
        strange = [
            b"",
            b"\xff\xfe",
            b"--",
            b"-h",
            b"--text",
            b"4294967296",
            b"case.reg",
            b"explore",
            dice.randbytes(3).replace(b"\0", b""),
        ]
        words[place : place + dice.randint(0, 1)] = [dice.choice(strange)]
    return words
