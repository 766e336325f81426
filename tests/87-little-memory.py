#!/usr/bin/env -S python3 -B
"""Where `rehearse` has little memory, each line gets its answer or is told so,
and the script goes on. The plain Rust program gives up there, and is left out."""

import resource
import subprocess
import tempfile

from common import MAX_FILE, TIME_LIMIT, Failure, agreed_lines, check, cut_answer, had_back, main, pieces, programs
from common import sha256

MEGABYTE = 1 << 20
NO_MEMORY = "there is not enough memory"

# Lines, and their answers. The first two need much memory, the last one none but its own.
LINES = [
    (b"cut repeat 61 %d" % MAX_FILE, cut_answer([b"a" * 65_536] * 256)),
    (b"digest " + b"61" * 5_000_000, [sha256(b"a" * 5_000_000)]),
    (b"cut repeat 00 3000000", cut_answer([bytes(2_048)] * 1_464 + [bytes(1_728)])),
    (b"cut 616263", cut_answer(pieces(b"abc"))),
    (b"digest repeat 61 3", [sha256(b"aaa")]),
]


def answers(path, script, limit, file=None):
    """What the program writes where it may have so many bytes of addresses, for a script or for one in a file."""

    def set_limit():
        resource.setrlimit(resource.RLIMIT_AS, (limit, limit))

    given = {"stdin": file} if file else {"input": script}
    done = subprocess.run([path], **given, capture_output=True, timeout=TIME_LIMIT, preexec_fn=set_limit)
    if done.returncode != 0 or done.stderr:
        raise Failure(f"with {limit} bytes: exit status {done.returncode}, standard error {done.stderr[:200]}")
    return done.stdout.decode().splitlines()


def played(got, limit):
    """Which lines were played. Each must have its answer, or be told that there is not enough memory."""
    which = []
    for number, (_, wanted) in enumerate(LINES, 1):
        if got[: len(wanted)] == wanted:
            which.append(True)
            got = got[len(wanted) :]
        elif got[:1] == [f"line {number}: {NO_MEMORY}"]:
            which.append(False)
            got = got[1:]
        else:
            raise Failure(f"with {limit} bytes: line {number} is answered by {got[:1]}")
    if got:
        raise Failure(f"with {limit} bytes: {len(got)} lines too many")
    return which


# A machine that sees to many pieces of 65,536 bytes. Breaking off and letting go need no memory, but for their lines.
STORE = [b"begin 0", *(b"see 0 random %d 65536" % seed for seed in range(600)), b"raise 0", b"break 0", b"go 0 1", b"digest repeat 61 3"]


def fill_store(path):
    """A step that there is no memory for does nothing, and the script goes on."""
    script = b"".join(line + b"\n" for line in STORE)
    wanted = [line.decode() for line in agreed_lines(script, "many pieces")]
    for limit in 20 * MEGABYTE, 30 * MEGABYTE, 90 * MEGABYTE:
        got = answers(path, script, limit)
        if len(got) != len(wanted):
            raise Failure(f"with {limit} bytes: {len(got)} answers to {len(wanted)} lines")
        wanting = 0
        for number, (line, answer) in enumerate(zip(got, wanted), 1):
            if line == f"line {number}: {NO_MEMORY}":
                wanting += 1
            elif line != answer:
                raise Failure(f"with {limit} bytes: line {number} is answered by {line!r}, not {answer!r}")
        print(f"with {limit // MEGABYTE} MiB there was no memory for {wanting} of {len(STORE)} steps of machines")
        if (wanting == 0) != (limit == 90 * MEGABYTE):
            raise Failure(f"with {limit} bytes there was no memory for {wanting} lines")
        if got[-3:] != wanted[-3:]:
            raise Failure(f"with {limit} bytes: {got[-3:]}")


# As many pieces are written, and a sweep gets rid of them, with every machine gone.
PIECES = 600
SWEEP = [b"begin 0", *(b"see 0 random %d 65536" % seed for seed in range(PIECES)), b"break 0", b"look"]
SWEEP += [b"aside"] * PIECES + [b"note", b"part 0", b"part 1", b"part 2", b"part 3", b"decide"]
SWEEP += [b"next"] * PIECES + [b"look", b"aside", b"digest repeat 61 3"]


class Sweep:
    """What such a script has done, by its answers: a step that there was no memory for has done nothing."""

    def __init__(self, names):
        # The names of the pieces, line by line.
        self.names = iter(names)
        self.place, self.left, self.aside = [], [], []
        self.machines = {b"0", b"1", b"2", b"3"}
        self.point = "rests"

    def answer(self, line):
        """The answer to the next line, and what the step then does."""
        step, *words = line.split()
        match step.decode(), self.point:
            case "begin", _:
                return "begun", None
            case "see", _:
                name = next(self.names)
                return f"written {name}", lambda: self.place.append(name)
            case "break", _:
                return "broken off", None
            case "part", _:
                return "parted", lambda: self.machines.remove(words[0])
            case "digest", _:
                return sha256(b"aaa"), None
            case "look", "rests":
                return f"to put aside {len(self.place)}", self.look
            case "aside", "puts aside" if self.left:
                return f"put aside {self.left[0]}", self.put_aside
            case "note", "puts aside" if not self.left:
                return "noted", lambda: self.go_to("waits")
            case "decide", "waits" if self.machines:
                return "refused by 4: a machine has finished no day since", None
            case "decide", "waits":
                return f"to put back 0, to throw away {len(self.aside)}", lambda: self.go_to("ends")
            case "next", "ends":
                return f"thrown away {self.aside[0]}", self.throw_away
            case _:
                return "refused by 4: the sweeper is not at that point", None

    def look(self):
        self.left = sorted(self.place)
        self.point = "puts aside"

    def put_aside(self):
        self.place.remove(self.left[0])
        self.aside.append(self.left.pop(0))

    def throw_away(self):
        self.aside.pop(0)
        self.go_to("ends")

    def go_to(self, point):
        self.point = "rests" if point == "ends" and not self.aside else point


def sweep_store(path):
    """The same for a sweep."""
    script = b"".join(line + b"\n" for line in SWEEP)
    lines = agreed_lines(script, "a sweep")
    names = [line.decode().removeprefix("written ") for line in lines[1 : PIECES + 1]]
    for limit in 20 * MEGABYTE, 30 * MEGABYTE, 90 * MEGABYTE:
        got = answers(path, script, limit)
        if len(got) != len(SWEEP):
            raise Failure(f"with {limit} bytes: {len(got)} answers to {len(SWEEP)} lines of a sweep")
        sweep = Sweep(names)
        wanting = 0
        for number, (line, answer) in enumerate(zip(SWEEP, got), 1):
            wanted, done = sweep.answer(line)
            if answer == f"line {number}: {NO_MEMORY}":
                wanting += 1
            elif answer.removeprefix(f"line {number}: ") != wanted:
                raise Failure(f"with {limit} bytes: line {number} of a sweep has {answer!r}, not {wanted!r}")
            elif done:
                done()
        print(f"with {limit // MEGABYTE} MiB there was no memory for {wanting} of {len(SWEEP)} steps of a sweep")
        if (wanting == 0) != (limit == 90 * MEGABYTE):
            raise Failure(f"with {limit} bytes there was no memory for {wanting} lines of a sweep")
        if got[-1] != sha256(b"aaa"):
            raise Failure(f"with {limit} bytes: {got[-1]!r}")


# A machine makes a day of files, which are had back. One of them is long, and has two pieces that are not the same.
# The other lines need little memory.
LONG_FILE = 16_000_000
FILES = [
    (b"begin 0", "begun"),
    (b"file 0 a 616263", "added 1, written 1"),
    (b"file 0 b repeat 61 %d" % LONG_FILE, "added 245, written 2"),
    (b"file 0 c 6162", "added 1, written 1"),
    (b"raise 0", "raised 1"),
    (b"name 0", "named 1"),
    (b"back 0 1 a", "3 616263"),
    (b"back 0 1 b", had_back(b"a" * LONG_FILE)),
    (b"back 0 1 c", "2 6162"),
    (b"digest repeat 61 3", sha256(b"aaa")),
]
assert FILES[2][0].startswith(b"file 0 b") and FILES[7][0] == b"back 0 1 b"


def back_files(path):
    """A file that there is no memory for is not added, or not had back, and the others are."""
    script = b"".join(line + b"\n" for line, _ in FILES)
    agreed_lines(script, "files that are had back")
    limits = [*range(12 * MEGABYTE, 80 * MEGABYTE, 4 * MEGABYTE), 200 * MEGABYTE]
    counts = []
    for limit in limits:
        got = answers(path, script, limit)
        if len(got) != len(FILES):
            raise Failure(f"with {limit} bytes: {len(got)} answers to {len(FILES)} lines of files")
        added = had = True
        for number, ((line, wanted), answer) in enumerate(zip(FILES, got), 1):
            if number == 3 and answer == f"line {number}: {NO_MEMORY}":
                added = had = False
            elif number == 8 and not added:
                if answer != f"line {number}: refused by 1: there is no such machine, day or path":
                    raise Failure(f"with {limit} bytes: line {number}, {line}, is answered by {answer[:160]!r}")
            elif number == 8 and answer == f"line {number}: {NO_MEMORY}":
                had = False
            elif answer != wanted:
                raise Failure(f"with {limit} bytes: line {number}, {line}, is answered by {answer[:160]!r}")
        counts.append("had back" if had else "added" if added else "neither")
    print(f"a file of {LONG_FILE} bytes, with 12 MiB, 16 MiB and so on, and 200 MiB: {', '.join(counts)}")
    if counts[-1] != "had back":
        raise Failure("with the largest limit there was not enough memory for a file")
    if "neither" not in counts:
        raise Failure("with each limit there was memory for a file that is added")


MOST_IN_LINE = 67_108_864


def long_lines(path):
    """A line that is too long is not kept, and leaves its memory to the next: where a line as long as may be had room before it, one has it after it."""
    limit = 90 * MEGABYTE
    passes = b"#" * MOST_IN_LINE
    with tempfile.TemporaryFile() as script:
        # a file, so that the program reads as much at a time as it asks for
        script.write(b"\n".join([passes, passes + b"#", b"digest", passes[:-1] + b"\r", b"digest repeat 61 3"]))
        script.seek(0)
        got = answers(path, None, limit, script)
    wanted = [f"line 2: longer than {MOST_IN_LINE} bytes", sha256(b""), sha256(b"aaa")]
    if got != wanted:
        raise Failure(f"with {limit} bytes: lines as long as may be are answered by {got}, not {wanted}")


def test():
    script = b"".join(line + b"\n" for line, _ in LINES)
    check(script, [line for _, answer in LINES for line in answer])

    (_, path), _ = programs()
    fill_store(path)
    sweep_store(path)
    back_files(path)
    long_lines(path)
    limits = range(12 * MEGABYTE, 80 * MEGABYTE, 2 * MEGABYTE)
    found = [played(answers(path, script, limit), limit) for limit in limits]
    counts = ", ".join(str(sum(which)) for which in found)
    print(f"lines that were played, of {len(LINES)}, with 12 MiB, 14 MiB and so on: {counts}")
    for line in 0, 1:
        if not any(which[2] and not which[line] for which in found):
            raise Failure(f"with no limit was there memory for line 3 and not for line {line + 1}")
    if not all(found[-1]):
        raise Failure("with the largest limit there was not enough memory")
    if not all(which[-1] for which in found):
        raise Failure("a line that needs no memory but its own was not played")


main(test)
