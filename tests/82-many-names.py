#!/usr/bin/env -S python3 -B
"""As many names in the lists as there may be, and what is refused then. How long
the programs take is printed: one in which a step takes time for each name that
there is does not end within `TIME_LIMIT`."""

import time

from common import compare, main, programs, run, sha256

MAX_LISTED = 262_144
MACHINES = 4

# How many pieces a machine sees to before it breaks off its day. None has room for more than 4,096.
FILES = 4_000

# The first pieces of files of several. No name is left for the other ones.
ZEROS = bytes(2_048)
ONES = b"\1" * 65_536

# How many short pieces there are; of the names in the lists two more are those of ZEROS and ONES, and one is in the
# sweeper's list, too: that of the piece FIRST, whose name comes first of all.
PIECES = MAX_LISTED - 3
FIRST = min(range(PIECES), key=lambda number: sha256(number.to_bytes(3, "big")))
assert sha256(FIRST.to_bytes(3, "big")) < min(sha256(ZEROS), sha256(ONES))

FULL = "refused by 5: the lists have at most 262144 names"
NOT_THERE = "refused by 4: the sweeper is not at that point"
NO_NUMBER = "refused by 3: the day has its number already, and is to be named or broken off"


def test():
    lines, expected = [], []
    # What `show` has to write.
    place, aside, listed, listed_by_sweeper = {}, {}, set(), []
    seen = [[] for _ in range(MACHINES)]

    def step(line, *answer):
        lines.append(line)
        expected.extend(answer)

    def see(machine, piece, found=False):
        if len(seen[machine]) == FILES:
            step(f"break {machine}", "broken off")
            step(f"begin {machine}", "begun")
            seen[machine].clear()
        name = sha256(piece)
        step(f"see {machine} {piece.hex()}", ("found " if found else "written ") + name)
        seen[machine].append(name)
        if not found:
            place[name] = len(piece)
            listed.add((machine, name))

    def add(machine, path, piece):
        """Adds a file that is one piece, which is found."""
        step(f"file {machine} {path} {piece.hex()}", "added 1, written 0")
        seen[machine].append(sha256(piece))

    def put_aside():
        """Puts the first piece aside."""
        name = sha256(FIRST.to_bytes(3, "big"))
        step("aside", f"put aside {name}")
        aside[name] = place.pop(name)

    def refused(line, why):
        step(line, f"line {len(lines) + 1}: {why}")

    def show(days, sweeper):
        step("show", *[f"place {name} {length}" for name, length in sorted(place.items())])
        expected.extend(f"aside {name} {length}" for name, length in sorted(aside.items()))
        expected.extend(f"listed {machine} {name}" for machine, name in sorted(listed))
        expected.extend(f"listed sweeper {name}" for name in listed_by_sweeper)
        expected.extend(days)
        expected.append(sweeper)

    for machine in range(MACHINES):
        step(f"begin {machine}", "begun")
    # One piece is put aside. It will be written once more.
    see(FIRST % MACHINES, FIRST.to_bytes(3, "big"))
    step("look", "to put aside 1")
    put_aside()
    listed_by_sweeper += aside
    step("stop", "stopped")
    # Each machine writes a quarter of them, in turns.
    see(1, ZEROS)
    for number in range(PIECES):
        see(number % MACHINES, number.to_bytes(3, "big"))

    # One name is left, and a file has two new ones: the first is listed, and the other refused. Nothing of the file is
    # written, so the machine writes the piece of the first name when it sees to it.
    refused("file 0 a repeat 01 70000", FULL)
    refused("file 0 a repeat 01 70000", FULL)
    refused("see 1 repeat 01 65536", FULL)
    see(0, ONES)

    # A new piece is refused; one that is there is found, whoever wrote it.
    for machine in range(MACHINES):
        refused(f"see {machine} 61", FULL)
        refused(f"see {machine} repeat 61 65536", FULL)
        refused(f"file {machine} a 61", FULL)
        refused(f"file {machine} a repeat 61 70000", FULL)
        # Of bytes 0 the first piece is found, and the last one would be new.
        refused(f"file {machine} a repeat 00 5000", FULL)
        refused(f"see {machine}", "refused by 1: a piece has at least one byte")
        for number in (0, 1, 2, 3, 100_000, FIRST, PIECES - 1):
            see(machine, number.to_bytes(3, "big"), found=True)
    # The first piece is not found, and its name is in the list of machine 1 alone. That machine is refused a file for
    # its last piece, and writes nothing of it. The file is not in the day, and the next one may have its path.
    for machine in (0, 2, 3):
        step("flip-place 77 repeat 00 2048", "flipped")
        refused("file 1 a repeat 00 5000", FULL)
        refused(f"file {machine} a repeat 00 2048", FULL)
        see(1, ZEROS)
        add(machine, "a", ZEROS)
    add(1, "a", ZEROS)
    step("file 2 b", "added 0, written 0")
    # What is refused by a lower number has that one.
    refused("file 0 a 61", "refused by 1: a path must be above the one before it")
    refused("file 4 a 61", "refused by 1: there is no such machine, day or path")
    refused("see 4 61", "refused by 1: there is no such machine, day or path")
    refused("see 0 repeat 61 65537", "refused by 1: a piece has at most 65536 bytes")

    # A day can still be made. Letting it go makes no room.
    step("raise 0", "raised 1")
    refused("see 0 61", "refused by 1: a path must be above the one before it")
    refused("file 0 b 61", NO_NUMBER)
    step("name 0", "named 1")
    step("back 0 1 a", f"2048 {ZEROS.hex()}")
    step("raise 1", "raised 1")
    step("break 2", "broken off")
    day = " ".join(["day 0 1", *seen[0]])
    machines = [
        "machine 0 1 none",
        " ".join(["machine 1 1 names 1", *seen[1]]),
        "machine 2 0 none",
        " ".join(["machine 3 0 makes", *seen[3]]),
    ]
    show([day, *machines], "sweeper rests")
    step("go 0 1", "let go")
    step("begin 0", "begun")
    refused("see 0 61", FULL)

    # The sweeper can put aside the piece whose name is in its list, and no other, and notes nothing then.
    step("look", f"to put aside {PIECES + 2}")
    put_aside()
    refused("aside", FULL)
    refused("aside", FULL)
    refused("note", NOT_THERE)
    show(["machine 0 1 makes", *machines[1:]], " ".join(["sweeper puts aside", *sorted(place)]))
    step("stop", "stopped")
    # What lies aside is not found. Its name is in the list of machine 1, and in that of the sweeper.
    assert FIRST % MACHINES == 1
    refused(f"see 0 {FIRST.to_bytes(3, 'big').hex()}", FULL)
    # A day that has it can be named, and is not damaged.
    step("name 1", "named 1")
    step("look", f"to put aside {len(set(place).difference(seen[1]))}")
    refused("aside", FULL)

    script = "".join(line + "\n" for line in lines).encode()
    for name, path in programs():
        start = time.monotonic()
        output = run(name, path, script)
        took = time.monotonic() - start
        compare(name, output, expected, script)
        print(f"{name}: {took:.1f} s for {len(lines)} steps")


main(test)
