#!/usr/bin/env -S python3 -B
"""Scripts from a seed, in which machines make days of files, which are had back, while
the sweeper sweeps; in half of them things are damaged. Both programs must write the
same bytes. Where nothing is damaged, a model in Python says what each file that is had
back must be, and what lies under the name of each day, and the second program must find
that the promise is kept after every line. How often each kind of answer occurred is
printed.

More scripts, or another seed:  93-file-scripts.py [SCRIPTS [SEED]]"""

import hashlib
import random
import re
import sys
import textwrap
from collections import Counter

import sweeps
from common import Failure, agreed_lines, check_promise, day_file, generated, had_back, main, pieces, short

SCRIPTS = 400
SEED = 93

# How many steps a script has, at most.
MOST = 160


class Content:
    """The bytes of a file, the words for them, and its pieces."""

    def __init__(self, words, file):
        self.words, self.file = words, file
        cut = pieces(file)
        self.pieces = {name(piece): piece for piece in cut}
        self.names = [name(piece) for piece in cut]


def name(piece):
    return hashlib.sha256(piece).digest()


def contents():
    """Files that share pieces: some are the same but for a change, and some are pieces of others."""
    base = generated(27, 7_000)
    yield Content("", b"")
    for digits in "61", "62", "6162":
        yield Content(digits, bytes.fromhex(digits))
    for byte, count in [(0, 904), (0, 2_048), (0, 5_000), (0, 4_096), (0x61, 1)]:
        yield Content(f"repeat {byte:02x} {count}", bytes([byte]) * count)
    yield Content("random 27 7000", base)
    for file in base[:3_000] + b"new" + base[3_000:], base[2_345:], base[:-1]:
        yield Content(file.hex(), file)
    yield Content("random 2 300", generated(2, 300))


# Long files, of which few scripts have any.
LONG_CONTENTS = [Content(f"repeat 61 {count}", b"a" * count) for count in (65_536, 70_000)]
CONTENTS = list(contents())

# The contents that have a piece, by its name.
HAVING = {}
for content in CONTENTS + LONG_CONTENTS:
    for piece in content.pieces:
        HAVING.setdefault(piece, []).append(content)

WORDS = ["a", "b", "a/b", "etc/passwd", "m", "z", "\xff", "0", "0001", "0009~", "!", "\x00", "readme.md", "'\\"]
WORDS += ["x" * 255]


class Script(sweeps.Script):
    """Lines, what they do, and what some of their answers must be. A piece is known by its name here."""

    def __init__(self, source, damages):
        super().__init__(source)
        self.damages = damages
        chosen = source.sample(CONTENTS[1:], source.randrange(2, 9)) + LONG_CONTENTS * self.chance(0.06)
        self.pieces = [name for content in chosen for name in content.pieces]
        # The files of each day, and of the days that machines make: each its path and its content.
        self.files, self.adding = {}, {}
        # What must be answered to a line, by its number.
        self.expected = {}

    def expect(self, line, answer):
        self.lines.append(line)
        self.expected[len(self.lines)] = answer

    # Steps that are done.

    def begin(self, machine):
        super().begin(machine)
        self.adding[machine] = []

    def see(self, machine, piece):
        """Adds a file that has this piece, or one that has no bytes."""
        content = self.source.choice(HAVING[piece]) if self.chance(0.95) else CONTENTS[0]
        files = self.adding[machine]
        last = files[-1][0] if files else ""
        place = f"{len(files) + 1:04}"
        new = set(content.names) - self.place
        if len(content.names) == 1 and place > last and self.chance(0.6):
            path = place
            self.expect(f"see {machine} {content.words}", f"{'written' if new else 'found'} {content.names[0].hex()}")
        else:
            path = self.path_above(last)
            line = f"file {machine} {path} {content.words}".rstrip(" ")
            self.expect(line, f"added {len(content.names)}, written {len(new)}")
        files.append((path, content))
        self.making[machine] += content.names
        self.place.update(content.names)

    def path_above(self, last):
        above = [word for word in WORDS if word > last]
        if above and self.chance(0.6):
            return min(self.source.sample(above, min(2, len(above))))
        if len(last) < 255:
            return last + self.source.choice(("0", "\x00", "/x", "~"))[: 255 - len(last)]
        return last[:-1] + chr(ord(last[-1]) + 1)

    def name(self, machine):
        super().name(machine)
        self.files[machine, self.highest[machine]] = self.adding.pop(machine)

    def break_off(self, machine):
        super().break_off(machine)
        del self.adding[machine]

    def go(self, machine, number):
        super().go(machine, number)
        del self.files[machine, number]

    def part(self, machine):
        super().part(machine)
        self.adding.pop(machine, None)

    # Days and files that are looked at.

    def have_back(self, day, path, content):
        self.expect(f"back {day[0]} {day[1]} {path}", had_back(content.file))

    def bytes_of(self, day):
        listed = [(path.encode("latin-1"), len(content.file), content.names) for path, content in self.files[day]]
        self.expect(f"bytes {day[0]} {day[1]}", had_back(day_file(*day, listed)))

    def some_day(self):
        return self.source.choice(list(self.files))

    def read(self):
        if not self.files or self.chance(0.05):
            machine, number = self.source.randrange(5), self.source.choice((0, 1, 2, 9, 4_294_967_295))
            if (machine, number) not in self.files:
                self.lines.append(self.source.choice((f"bytes {machine} {number}", f"back {machine} {number} a")))
            return
        day = self.some_day()
        if self.chance(0.15):
            self.bytes_of(day)
        elif self.files[day] and self.chance(0.9):
            self.have_back(day, *self.source.choice(self.files[day]))
        else:
            self.lines.append(f"back {day[0]} {day[1]} {self.source.choice(WORDS)}?")

    def read_all(self):
        for day, files in self.files.items():
            self.bytes_of(day)
            for path, content in files:
                self.have_back(day, path, content)

    # Steps that are refused.

    def refused(self):
        if self.chance(0.6):
            super().refused()
            return
        machine = self.source.randrange(5)
        files = self.adding.get(machine, [])
        last = files[-1][0] if files else "a"
        words = self.source.choice(CONTENTS).words
        lines = [f"file {machine} {'p' * 256} {words}", f"file {machine} a repeat 61 16777217", f"see {machine}"]
        lines += [f"see {machine} repeat 61 65537"]
        if machine not in self.adding or machine in self.raised or files:
            lines += [f"file {machine} {last} {words}"] * 3
            lines += [f"file {machine} {last[:-1] or last} {words}"]
        self.lines.append(self.source.choice(lines))

    # Damage.

    def damage(self):
        """Something is damaged, and often as it was some steps later, but for what is cut off."""
        match self.source.randrange(6):
            case 0 if self.files:
                machine, number = self.some_day()
                length = self.source.choice((0, 1, 8, 40, 79, 80, 81, 112, 300))
                self.lines.append(f"cut-day {machine} {number} {length}")
                if self.chance(0.8):
                    self.some_steps()
                    if (machine, number) in self.files:
                        self.go(machine, number)
                return
            case 1 | 2 if self.files:
                machine, number = self.some_day()
                line = f"flip-day {machine} {number} {self.source.choice((0, 1, 3, 5, 7, 8, 9, 10, 40, 60, 79, 100))}"
            case kind:
                content = self.source.choice(CONTENTS[1:])
                piece = content.pieces[self.source.choice(content.names)]
                at = self.source.choice((0, len(piece) // 2, len(piece) - 1, len(piece) - 1, len(piece)))
                words = next((of.words for of in CONTENTS if of.file == piece), piece.hex())
                line = f"flip-{'aside' if kind == 3 else 'place'} {at} {words}"
        self.lines.append(line)
        if self.chance(0.8):
            self.some_steps()
            self.lines.append(line)

    def some_steps(self):
        for _ in range(self.source.randrange(6)):
            self.step(False)

    def step(self, parts, dares=0.01):
        at = self.source.random()
        if self.damages and at < 0.06:
            self.damage()
        elif at < (0.18 if self.files else 0.07):
            self.read()
        else:
            super().step(parts, dares)


def script(source, damages):
    made = Script(source, damages)
    steps = source.randrange(MOST // 4, MOST + 1)
    for number in range(steps):
        made.step(parts=number * 3 >= steps * 2)
    made.read_all()
    made.lines.append("show")
    return made


def check(made, answers, what):
    """The answers to the lines must be those that the model expects."""
    answers = iter(answers)
    for number, line in enumerate(made.lines, 1):
        answer = next(answers)
        if line == "show":
            while not answer.startswith(b"sweeper "):
                answer = next(answers)
        wanted = made.expected.get(number)
        if wanted is not None and answer != wanted.encode():
            raise Failure(f"{what}: line {number}, {short(line)}, is answered by {short(answer)}, not {short(wanted)}")
    if next(answers, None) is not None:
        raise Failure(f"{what}: more answers than lines")


# What must be among the answers, for the scripts to be worth something.
KINDS = {
    "a file that is added": rb"added [1-9][0-9]*, written [0-9]+",
    "a file whose pieces are found": rb"added [1-9][0-9]*, written 0",
    "a file some of whose pieces are found": rb"added (?!([0-9]+), written \1)[0-9]+, written [1-9][0-9]*",
    "a file of no bytes": rb"added 0, written 0",
    "found": rb"found [0-9a-f]{64}",
    "written": rb"written [0-9a-f]{64}",
    "named": rb"named [0-9]+",
    "let go": rb"let go",
    "parted": rb"parted",
    "bytes of a file or a day": rb"[1-9][0-9]* [0-9a-f]+",
    "no bytes": rb"0",
    "flipped": rb"flipped",
    "cut": rb"cut",
    "put aside": rb"put aside [0-9a-f]{64}",
    "put back": rb"put back [0-9a-f]{64}",
    "thrown away": rb"thrown away [0-9a-f]{64}",
    "a day that is damaged, shown": rb"day [0-9] [0-9]+ damaged",
    "damaged": rb"line [0-9]+: refused by 2: a day is damaged or incomplete",
    "no such machine, day or path": rb"line [0-9]+: refused by 1: there is no such machine, day or path",
    "a path that is too long": rb"line [0-9]+: refused by 1: a path has from 1 to 255 bytes",
    "a path that is not above": rb"line [0-9]+: refused by 1: a path must be above the one before it",
    "a file that is too long": rb"line [0-9]+: refused by 1: a file has at most 16777216 bytes",
    "makes none": rb"line [0-9]+: refused by 3: the machine makes no day",
    "raised already": rb"line [0-9]+: refused by 3: the day has its number already, .*",
}
KINDS = {kind: re.compile(pattern) for kind, pattern in KINDS.items()}


def test():
    count, seed = [int(word) for word in sys.argv[1:]] + [SCRIPTS, SEED][len(sys.argv) - 1 :]
    source = random.Random(seed)
    counts = Counter()
    lines = backs = sweeps_done = 0
    for number in range(count):
        damages = number % 2 == 1
        made = script(source, damages)
        text = "\n".join(made.lines).encode("latin-1")
        what = f"script {number} of seed {seed}"
        answers = agreed_lines(text, what)
        if not damages:
            check(made, answers, what)
            check_promise(text)
            backs += sum(line.startswith("back ") for at, line in enumerate(made.lines, 1) if at in made.expected)
            sweeps_done += made.whole_sweeps
        lines += len(made.lines)
        for answer in answers:
            for kind, pattern in KINDS.items():
                counts[kind] += bool(pattern.fullmatch(answer))

    kinds = "; ".join(f"{kind} {counts[kind]}" for kind in KINDS)
    text = f"{count} scripts of {lines} lines; {backs} files had back as the model says; "
    text += f"{sweeps_done} whole sweeps without damage; {kinds}"
    print(textwrap.fill(text, 100))
    if count >= SCRIPTS:
        for kind in KINDS:
            if counts[kind] < 20:
                raise Failure(f"only {counts[kind]} answers are of the kind: {kind}")


main(test)
