#!/usr/bin/env -S python3 -B
"""Thousands of scripts of machines' steps, each of which begins with an empty
store: both programs must write the same bytes. How often each kind of answer
occurred is printed."""

import functools
import random
import re
import textwrap
from collections import Counter

from common import Failure, agreed_lines, main

SEED = 92

# How many scripts, and how many steps each has, at most.
SHORT = 3_000, 80
LONG = 12, 6_000

# Machines that are on the list, and others.
LISTED = range(4)
OTHERS = ["4", "5", "63", "64", "255", "256", "4294967295", "04"]

# Few pieces, some of them in several forms, so that most are found; and pieces that are too long.
PIECES = ["74", "61", "62", "repeat 61 1", "repeat 62 1", "6162", "random 1 4", "6c82A562"]
LARGE = ["random 2 9000", "repeat 00 65536", "repeat 61 65535", "random 3 65536"]
EMPTY = ["", "repeat 61 0", "random 1 0"]
TOO_LONG = ["repeat 61 65537", "random 1 65537", "repeat 00 1073741824", "random 7 99999999"]

# Lines that are no step.
FAULTS = ["begin", "begin 0 0", "see", "raise", "raise 1 1", "name", "name 1 61", "break", "break 0 1"]
FAULTS += ["go", "go 1", "go 1 1 1", "show 0", "begin x", "begin 4294967296", "see 4294967296 61", "see x y z"]
FAULTS += ["see 0 6", "see 0 6g", "see 0 61 62", "see 1 repeat 61", "see 1 repeat x 1", "see 2 random 1 x"]
FAULTS += ["raise -1", "name 99999999999", "break 1.", "go x 1", "go 1 x", "go 0 4294967296", "shows"]

# What must be among the answers, for the scripts to be worth something.
KINDS = {
    "begun": r"begun",
    "found": r"found [0-9a-f]{64}",
    "written": r"written [0-9a-f]{64}",
    "raised": r"raised [1-9][0-9]*",
    "named": r"named [1-9][0-9]*",
    "broken off": r"broken off",
    "let go": r"let go",
    "a piece of no bytes": r"line N: refused by 1: a piece has at least one byte",
    "a piece that is too long": r"line N: refused by 1: a piece has at most 65536 bytes",
    "no such machine or day": r"line N: refused by 1: there is no such machine, day or path",
    "makes a day already": r"line N: refused by 3: the machine already makes a day",
    "makes none": r"line N: refused by 3: the machine makes no day",
    "raised already": r"line N: refused by 3: the day has its number already, and is to be named or broken off",
    "not raised": r"line N: refused by 3: the day has no number yet, which is to be raised first",
    "no line of the step": r"line N: write the line as '(begin M|see M BYTES|raise M|name M|break M|go M N|show)'",
    "no number": r"line N: '[^']*' is not a number from 0 to 4294967295",
    "no bytes": r"line N: (write bytes as HEX, as 'repeat BYTE COUNT' or as 'random SEED COUNT'"
    r"|'g' is not a hexadecimal digit, at place 2|an odd number of hexadecimal digits, 1"
    r"|'x' is not a byte of two hexadecimal digits|'x' is not a number from 0 to 1073741824)",
    "no step": r"line N: no step is called 'shows'",
    "a digest": r"[0-9a-f]{64}",
    "a number of pieces": r"pieces [01]",
    "a piece of a file": r"[1-9] [0-9a-f]{64}",
    "a piece in its place": r"place [0-9a-f]{64} [0-9]+",
    "a name in a list": r"listed [0-3] [0-9a-f]{64}",
    "a day without pieces": r"day [0-3] [1-9][0-9]*",
    "a day with pieces": r"day [0-3] [1-9][0-9]*( [0-9a-f]{64})+",
    "a machine at rest": r"machine [0-3] [0-9]+ none",
    "a machine that makes a day without pieces": r"machine [0-3] [0-9]+ makes",
    "a machine that makes a day with pieces": r"machine [0-3] [0-9]+ makes( [0-9a-f]{64})+",
    "a machine that names a day without pieces": r"machine [0-3] ([1-9][0-9]*) names \1",
    "a machine that names a day with pieces": r"machine [0-3] ([1-9][0-9]*) names \1( [0-9a-f]{64})+",
    "the sweeper": r"sweeper rests",
}
KINDS = {kind: re.compile(pattern) for kind, pattern in KINDS.items()}


@functools.cache
def kind_of(answer):
    """The kind of an answer; it must be of just one."""
    kinds = [kind for kind, pattern in KINDS.items() if pattern.fullmatch(answer)]
    if len(kinds) != 1:
        raise Failure(f"the answer {answer[:160]!r} is of {len(kinds)} kinds")
    return kinds[0]


class Script:
    """Lines, and as much of what they do as is needed to go on with steps that are
    done, and with others."""

    def __init__(self, source):
        self.source = source
        self.lines = []
        # What each machine does: "rests", "makes" or "names".
        self.state = dict.fromkeys(LISTED, "rests")
        self.highest = dict.fromkeys(LISTED, 0)
        self.days = set()
        # Some machines have more to do than others.
        self.weights = [source.choice((1, 1, 4, 20)) for _ in LISTED]

    def add(self, name, *words):
        spaces, end = " ", ""
        if self.source.random() < 0.2:
            spaces = self.source.choice((" ", "  ", "\t", " \t "))
            end = self.source.choice(("", " ", "\r", "\t\r"))
        self.lines.append(spaces.join(word for word in (name, *words) if word) + end)

    def machine(self):
        return self.source.choices(LISTED, self.weights)[0]

    def spelled(self, number):
        return self.source.choice(("", "", "", "", "", "0", "000")) + str(number)

    def piece(self):
        return self.source.choice(self.source.choices((PIECES, LARGE, TOO_LONG, EMPTY), (20, 1, 1, 1))[0])

    def done(self, machine):
        """A step that the machine is not refused, unless its piece has no bytes or too many."""
        match self.state[machine]:
            case "rests":
                step = "begin"
            case "makes":
                step = self.source.choices(("see", "raise", "break"), (8, 3, 1))[0]
            case "names":
                step = self.source.choices(("name", "break"), (4, 1))[0]
        self.add(step, self.spelled(machine), self.piece() if step == "see" else "")
        match step:
            case "begin":
                self.state[machine] = "makes"
            case "raise":
                self.state[machine] = "names"
                self.highest[machine] += 1
            case "name":
                self.state[machine] = "rests"
                self.days.add((machine, self.highest[machine]))
            case "break":
                self.state[machine] = "rests"

    def refused(self, machine):
        """A step that the machine is refused now."""
        match self.state[machine]:
            case "rests":
                step = self.source.choice(("see", "raise", "name", "break"))
            case "makes":
                step = self.source.choice(("begin", "name"))
            case "names":
                step = self.source.choice(("begin", "see", "raise"))
        self.add(step, self.spelled(machine), self.piece() if step == "see" else "")

    def let_go(self):
        if self.days and self.source.random() < 0.6:
            machine, number = self.source.choice(sorted(self.days))
            self.days.discard((machine, number))
        else:
            machine = self.machine()
            number = self.source.choice((0, 1, 2, self.highest[machine], self.highest[machine] + 1, 4_294_967_295))
            self.days.discard((machine, number))
        self.add("go", self.spelled(machine), self.spelled(number))

    def not_listed(self):
        step = self.source.choice(("begin", "see", "raise", "name", "break", "go"))
        rest = {"see": self.piece(), "go": str(self.source.randrange(3))}.get(step, "")
        self.add(step, self.source.choice(OTHERS), rest)

    def other(self):
        match self.source.randrange(4):
            case 0:
                self.add(self.source.choice(("digest", "cut")), self.source.choice(PIECES))
            case 1:
                self.lines.append(self.source.choice(("", " ", "# show", "\r")))
            case _:
                self.lines.append(self.source.choice(FAULTS))

    def step(self, shows):
        match self.source.choices(range(6), (60, 12, 6, 3, 4, shows))[0]:
            case 0:
                self.done(self.machine())
            case 1:
                self.refused(self.machine())
            case 2:
                self.let_go()
            case 3:
                self.not_listed()
            case 4:
                self.other()
            case 5:
                self.add("show")


def script(source, steps, shows):
    made = Script(source)
    for _ in range(steps):
        made.step(shows)
    made.add("show")
    # The last line may lack its newline.
    return "\n".join(made.lines).encode() + source.choice((b"\n", b""))


def test():
    source = random.Random(SEED)
    scripts, most = SHORT
    made = [script(source, source.randrange(1, most + 1), 6) for _ in range(scripts)]
    scripts, most = LONG
    made += [script(source, source.randrange(most // 2, most + 1), 0.2) for _ in range(scripts)]

    counts = Counter()
    lines = 0
    for number, steps in enumerate(made):
        lines += steps.count(b"\n")
        for answer in agreed_lines(steps, f"script {number} of seed {SEED}"):
            counts[kind_of(re.sub(r"^line [0-9]+:", "line N:", answer.decode()))] += 1

    kinds = "; ".join(f"{kind} {counts[kind]}" for kind in KINDS)
    print(textwrap.fill(f"{len(made)} scripts of {lines} lines; {kinds}", 100))
    for kind in KINDS:
        if counts[kind] < 50:
            raise Failure(f"only {counts[kind]} answers are of the kind: {kind}")


main(test)
