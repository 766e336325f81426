#!/usr/bin/env -S python3 -B
"""Strings that are read as day files, by both programs and by a reader in Python: each
must be refused by all three, or be read the same by all. Day files from a seed, each
single byte of them changed, each of their beginnings, the same with the right digest at
the end, files that lack something or have too much of it, and random strings. How many
of each kind there were, and how many of them are day files, is printed.

More day files, or another seed:  95-read-days.py [DAYS [SEED]]"""

import hashlib
import random
import subprocess
import sys
from collections import Counter

from common import MAX_FILE, MAX_FILES, MAX_PATH, TIME_LIMIT, Failure, day_file, main, readers, short

DAYS = 300
SEED = 95

# How many random strings there are for each day.
RANDOM_STRINGS = 40

# The most pieces that two bytes can say.
MAX_PIECES = 65_535

# How many bytes of strings are read in one run of a program.
BATCH = 1 << 23


def read(machine, number, string):
    """The files of the day whose day file this is; None where it is none."""
    listed, digest = string[:-32], string[-32:]
    if len(listed) < 8 or hashlib.sha256(listed).digest() != digest:
        return None
    if listed[0] != 68 or listed[1] != machine or int.from_bytes(listed[2:6], "big") != number:
        return None
    count = int.from_bytes(listed[6:8], "big")
    if count > MAX_FILES:
        return None
    files, at, before = [], 8, b""
    for _ in range(count):
        if at == len(listed):
            return None
        end = at + 1 + listed[at]
        path = listed[at + 1 : end]
        # Python compares bytes as the rule does. Nothing is above itself, and all but b"" is above that.
        if end + 6 > len(listed) or not path > before:
            return None
        length, pieces = int.from_bytes(listed[end : end + 4], "big"), int.from_bytes(listed[end + 4 : end + 6], "big")
        at = end + 6 + 32 * pieces
        if length > MAX_FILE or length == 0 and pieces > 0 or at > len(listed):
            return None
        names = listed[end + 6 : at]
        files.append((path, length, [names[start : start + 32] for start in range(0, len(names), 32)]))
        before = path
    return files if at == len(listed) else None


def line(files):
    """What the programs write for them."""
    if files is None:
        return b"refused"
    words = ["day"]
    for path, length, names in files:
        words += [path.hex(), str(length), str(len(names)), *(name.hex() for name in names)]
    return " ".join(words).encode()


def with_digest(listed):
    return listed + hashlib.sha256(listed).digest()


class Strings:
    """Strings that are to be read, each with the machine and the number under whose name it lies. They are read and
    compared many at a time."""

    def __init__(self):
        self.readers = readers()
        self.frames, self.strings, self.size = [], [], 0
        self.counts, self.days = Counter(), Counter()

    def add(self, kind, machine, number, string):
        self.frames.append((5 + len(string)).to_bytes(4, "big") + bytes([machine]) + number.to_bytes(4, "big"))
        self.frames.append(string)
        self.strings.append((kind, machine, number, string))
        self.size += len(string) + 32
        if self.size > BATCH:
            self.compare()

    def compare(self):
        """Reads what was added, and begins anew."""
        script = b"".join(self.frames)
        one, other = [self.lines(name, command, script) for name, command in self.readers]
        for (kind, machine, number, string), line_of_one, line_of_other in zip(self.strings, one, other):
            files = read(machine, number, string)
            wanted = line(files)
            self.counts[kind] += 1
            self.days[kind] += files is not None
            if not line_of_one == line_of_other == wanted:
                said = f"{short(line_of_one)} of {self.readers[0][0]}, {short(line_of_other)} of {self.readers[1][0]}"
                what = f"{kind}, machine {machine}, number {number}, the string {string.hex()[:4_000]}"
                raise Failure(f"{said}, {short(wanted)} of the reader here: {what}, {len(string)} bytes")
            if files is not None and day_file(machine, number, files) != string:
                raise Failure(f"{kind}: two strings for the day {machine} {number}, one is {string.hex()[:4_000]}")
        self.frames, self.strings, self.size = [], [], 0

    def lines(self, name, command, script):
        try:
            done = subprocess.run(command, input=script, capture_output=True, timeout=TIME_LIMIT)
        except subprocess.TimeoutExpired:
            raise Failure(f"{name}: not done after {TIME_LIMIT} s, {len(self.strings)} strings") from None
        if done.returncode != 0 or done.stderr:
            raise Failure(f"{name}: exit status {done.returncode}, {short(done.stderr)}, {len(self.strings)} strings")
        lines = done.stdout.split(b"\n")
        if len(lines) != len(self.strings) + 1 or lines[-1]:
            raise Failure(f"{name}: {len(lines) - 1} lines for {len(self.strings)} strings")
        return lines


# Days from a seed.


def some_path(source, before):
    """A path, often near the one before it."""
    match source.randrange(6):
        case 0 if before:
            return before + source.randbytes(source.choice((1, 1, 2)))
        case 1 if before:
            return before[:-1] + bytes([min(255, before[-1] + 1)])
        case 2:
            return source.randbytes(source.choice((1, 1, 2, 3)))
        case 3:
            return b"%04d" % source.randrange(5_000)
        case 4:
            return bytes(source.choices(b"ab/\x00\xff", k=source.randrange(1, 12)))
        case _:
            return source.choice((b"\xff", b"\x00", b"a")) * source.choice((1, 2, 254, 255))


def some_files(source, count, most_names):
    paths = set()
    before = b""
    while len(paths) < count:
        before = some_path(source, before)[:MAX_PATH]
        paths.add(before)
    files = []
    for path in sorted(paths):
        length = source.choice((0, 1, 2_048, 65_536, 65_537, source.randrange(1 << 24), MAX_FILE, 1 << 16, 1 << 8))
        names = source.choice((0, 1, 1, 2, source.randrange(most_names + 1))) if length else 0
        files.append((path, length, [source.randbytes(32) for _ in range(names)]))
    return files


def some_day(source):
    """The machine, the number and the files of a day. Most have few files."""
    count = source.choice((0, 1, 1, 1, 2, 2, 3, 4, 5, source.randrange(12), source.randrange(41)))
    most_names = 3 if count > 4 else source.choice((1, 3, 20, 60 if count < 3 else 3))
    number = source.choice((1, 2, 255, 256, 257, 65_536, 1 << 24, source.randrange(1 << 32), (1 << 32) - 1))
    return source.randrange(64), number, some_files(source, count, most_names)


# Strings that are near to a day file.


def each_change(strings, source, machine, number, day):
    """Each single byte changed, as the string is then and with the right digest for it."""
    values = 6 if len(day) < 120 else 2 if len(day) < 400 else 1
    listed = day[:-32]
    for at in range(len(day)):
        changes = {source.randrange(1, 256) for _ in range(values)}
        if values > 1:
            changes |= {1, 128, 255}
        for change in changes:
            byte = bytes([day[at] ^ change])
            strings.add("a byte changed", machine, number, day[:at] + byte + day[at + 1 :])
        if at < len(listed):
            others = [(listed[at] + 1) % 256, (listed[at] - 1) % 256, listed[at] ^ source.randrange(1, 256)]
            for other in set(others) if values > 1 else [source.choice(others)]:
                changed = listed[:at] + bytes([other]) + listed[at + 1 :]
                strings.add("a byte changed, with the right digest", machine, number, with_digest(changed))


def each_cut(strings, machine, number, day):
    for length in range(len(day)):
        strings.add("a beginning", machine, number, day[:length])
        if length < len(day) - 32:
            strings.add("a beginning, with the right digest", machine, number, with_digest(day[:length]))
    strings.add("an end", machine, number, day[1:])
    strings.add("an end, with the right digest", machine, number, with_digest(day[1:-32]))


def raw(machine, number, files, first=68, count=None, end=b""):
    """A string of this form, with the right digest, whatever a file has. In a file the number of bytes of the path and
    the number of pieces may be said otherwise."""
    parts = [bytes([first, machine]), number.to_bytes(4, "big")]
    parts.append((len(files) if count is None else count).to_bytes(2, "big"))
    for path, length, names, *others in files:
        said_path, said_names = others or (len(path), len(names))
        parts += [bytes([said_path]), path, length.to_bytes(4, "big"), said_names.to_bytes(2, "big"), *names]
    return with_digest(b"".join(parts) + end)


def parts_changed(source, machine, number, files):
    """Strings of which a part is other than it should be, or than it was. Each has the right digest."""
    for first in 0, 67, 69, 68 ^ 128, 255:
        yield "another first byte", raw(machine, number, files, first=first)
    for other in (machine + 1) % 256, (machine - 1) % 256, machine ^ 64, machine ^ 128:
        yield "another machine", raw(other, number, files)
    swapped = int.from_bytes(number.to_bytes(4, "big"), "little")
    for other in number ^ 1, number ^ 1 << 8, number ^ 1 << 16, number ^ 1 << 31, swapped, (number + 1) % 2**32:
        yield "another number", raw(machine, other, files)
    for count in 0, len(files) - 1, len(files) + 1, len(files) + 256, MAX_FILES, MAX_FILES + 1, 65_535:
        if 0 <= count:
            yield "another number of files", raw(machine, number, files, count=count)
    for end in b"\x00", b"D", source.randbytes(7), source.randbytes(32), bytes(7), b"\x01\xff" + bytes(6):
        yield "more at the end", raw(machine, number, files, end=end)
    yield "more at the end", raw(machine, number, files, count=len(files) + 1, end=b"\xff" * 256 + b"\x00" * 5)
    places = range(len(files)) if len(files) < 6 else source.sample(range(len(files)), 5)
    for at in places:
        path, length, names = files[at]

        def with_file(*file):
            return raw(machine, number, [*files[:at], file, *files[at + 1 :]])

        def between(*more):
            return raw(machine, number, [*files[: at + 1], *more, *files[at + 1 :]])

        for said in len(path) - 1, len(path) + 1, 0, MAX_PATH:
            if said <= MAX_PATH:
                yield "a path of another length than is said", with_file(path, length, names, said, len(names))
        yield "a path of no bytes", with_file(b"", length, names)
        yield "a path of no bytes", raw(machine, number, [(b"", length, names), *files])
        yield "a path twice", between((path, length, names))
        yield "a path that falls", between((path[:-1], length, names))
        if path[-1]:
            lower = path[:-1] + bytes([path[-1] - 1]) + b"\xff"
            yield "a path that falls", between((lower[:MAX_PATH], length, names))
        if at:
            others = [*files[: at - 1], files[at], files[at - 1], *files[at + 1 :]]
            yield "two files that change places", raw(machine, number, others)
            yield "a path twice", with_file(files[at - 1][0], length, names)
            yield "a path that rises", with_file((files[at - 1][0] + b"\x00")[:MAX_PATH], length, names)
        yield "a path that rises", between(((path + source.choice((b"\x00", b"\xff")))[:MAX_PATH], length, names))
        for other in 0, 1, MAX_FILE, MAX_FILE + 1, MAX_FILE + 256, 1 << 25, 1 << 31, (1 << 32) - 1:
            yield "a file of another length", with_file(path, other, names)
        yield "a file of no bytes with a piece", with_file(path, 0, names + [bytes(32)])
        yield "a file of no bytes with a piece", with_file(path, 0, [source.randbytes(32)])
        yield "a file of bytes without pieces", with_file(path, length or 1, [])
        for said in len(names) - 1, len(names) + 1, len(names) + 256, MAX_PIECES:
            if 0 <= said:
                yield "another number of pieces than is said", with_file(path, length, names, len(path), said)
        yield "a piece more", with_file(path, length or 7, names + [source.randbytes(32)])
        yield "a piece less", with_file(path, length, names[1:])
        yield "half a piece more", with_file(path, length or 7, names + [source.randbytes(16)])
        yield "half a piece more", with_file(path, length or 7, names + [source.randbytes(16)], len(path), len(names))


def random_strings(strings, source):
    """Random ones; some begin as a day file does, and some have the right digest."""
    for _ in range(RANDOM_STRINGS):
        machine, number = source.randrange(64), source.choice((1, source.randrange(1 << 32)))
        head = bytes([68, machine]) + number.to_bytes(4, "big")
        length = source.choice((source.randrange(60), source.randrange(400)))
        string = source.choice((b"", head, head + b"\x00", head + b"\x00\x01", head + b"\x00\x01\x01a\x00"))
        if source.random() < 0.5:
            string += source.randbytes(length)
        else:
            string += bytes(source.choices(b"\x00\x00\x00\x01\x01\x02a\xff", k=length))
        strings.add("random", machine, number, string)
        strings.add("random, with the right digest", machine, number, with_digest(string))


# Days at the limits, of which not every byte is changed.


def limits(source):
    """The files of days at the limits, and some beyond."""
    name = source.randbytes(32)
    paths = [b"%04d" % at for at in range(MAX_FILES + 1)]
    yield [(path, 0, []) for path in paths[:MAX_FILES]]
    yield [(path, 0, []) for path in paths]
    yield [(path, 1, [name]) for path in paths[:MAX_FILES]]
    yield [(path, 1, [name]) for path in paths]
    yield [(path.rjust(MAX_PATH, b"p"), MAX_FILE, []) for path in paths[:MAX_FILES]]
    yield [(path, 1, []) for path in paths[:2_000] + [paths[1_999]] + paths[2_000:4_000]]
    yield [(b"\xff" * length, MAX_FILE, [name]) for length in range(1, MAX_PATH + 1)]
    yield [(b"\x00" * length, MAX_FILE, [name]) for length in range(1, MAX_PATH + 1)]
    yield [(b"\x00" * length, MAX_FILE, [name]) for length in range(MAX_PATH, 0, -1)]
    yield [(bytes([byte]), 1, [name]) for byte in range(256)]
    yield [(b"\x80" + bytes([byte]), 1, [name]) for byte in range(255, -1, -1)]
    for count in 255, 256, 257, 8_192, MAX_PIECES:
        yield [(b"a", MAX_FILE, [name] * count), (b"b", 0, [])]
        yield [(b"a", 0, [name] * count), (b"b", 0, [])]
        yield [(b"a", MAX_FILE + 1, [name] * count), (b"b", 0, [])]
    yield [(b"a", 1, [name] * MAX_PIECES), (b"b", 2, [name] * MAX_PIECES)]


def at_limits(strings, source):
    for files in limits(source):
        machine, number = source.randrange(64), source.randrange(1 << 32)
        day = raw(machine, number, files)
        strings.add("at the limits", machine, number, day)
        changes, cuts = (12, 4) if len(day) < 100_000 else (4, 1)
        for _ in range(changes):
            at = source.randrange(len(day))
            byte = bytes([day[at] ^ source.randrange(1, 256)])
            changed = day[:at] + byte + day[at + 1 :]
            strings.add("at the limits, a byte changed", machine, number, changed)
            changed = with_digest(changed[:-32])
            strings.add("at the limits, a byte changed, with the right digest", machine, number, changed)
        for length in source.sample(range(len(day)), cuts) + [len(day) - 1, len(day) - 32, len(day) - 33]:
            strings.add("at the limits, a beginning", machine, number, day[:length])
            strings.add("at the limits, a beginning, with the right digest", machine, number, with_digest(day[:length]))
    for machine in 0, 63, 64, 127, 128, 255:
        for number in 0, 1, 127, 128, (1 << 31) - 1, 1 << 31, (1 << 32) - 1:
            strings.add("each machine and number", machine, number, day_file(machine, number, [(b"a", 3, [bytes(32)])]))


# Kinds of strings of which all are day files, and of which some are.
ALL_DAYS = ["a day file", "each machine and number", "a file of bytes without pieces", "a piece more", "a piece less"]
SOME_DAYS = ["a byte changed, with the right digest", "a path that rises", "a file of another length", "at the limits"]


def test():
    count, seed = [int(word) for word in sys.argv[1:]] + [DAYS, SEED][len(sys.argv) - 1 :]
    source = random.Random(seed)
    strings = Strings()
    for number_of_day in range(count):
        machine, number, files = some_day(source)
        day = day_file(machine, number, files)
        strings.add("a day file", machine, number, day)
        if read(machine, number, day) != files:
            raise Failure(f"the reader here does not read day {number_of_day} of seed {seed}")
        strings.add("a day file under another name", (machine + 1) % 64, number, day)
        strings.add("a day file under another name", machine, number ^ 1 << source.randrange(32), day)
        strings.add("two day files", machine, number, day + day)
        strings.add("a day file and a byte more", machine, number, day + b"\x00")
        each_change(strings, source, machine, number, day)
        each_cut(strings, machine, number, day)
        for kind, string in parts_changed(source, machine, number, files):
            strings.add(kind, machine, number, string)
        random_strings(strings, source)
    at_limits(strings, source)
    strings.compare()

    print(f"{sum(strings.counts.values())} strings, of which {sum(strings.days.values())} are day files:")
    for kind, found in strings.counts.items():
        print(f"{kind}: {found}, {strings.days[kind]} of them day files")
    for kind, found in strings.counts.items():
        days = strings.days[kind]
        if kind in ALL_DAYS and days < found:
            raise Failure(f"{found - days} strings are refused of the kind: {kind}")
        if kind in SOME_DAYS and days == 0:
            raise Failure(f"no string is a day file of the kind: {kind}")
        if kind not in ALL_DAYS and days == found:
            raise Failure(f"no string is refused of the kind: {kind}")


main(test)
