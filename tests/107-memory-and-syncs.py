#!/usr/bin/env -S python3 -B
"""How much memory each program has at most, and how often a day syncs, on a small museum with a file of 16 MiB.

The environment may name the folder of the programs, PROGRAMS. bench/museum measures the same on a larger one, and how
long it takes."""

import os
import shutil
import sys
import tempfile
from pathlib import Path
from random import Random

from common import MAX_FILE, TOP, Failure, main

sys.path.insert(0, str(TOP / "bench"))

from measured import Failed, calls, can_trace, most_memory, most_syncs, output, took, word_of  # noqa: E402
from tree import Tree, write_random  # noqa: E402

MEGABYTES = 6
LARGEST = "largest.img"

# So that the store has some thousands of pieces.
LEAST_PIECES = 2_000


class Museum:
    """A tree, and a store with machines 0 and 1, on which programs are measured."""

    def __init__(self, work, name, tree, measure):
        self.work, self.tree, self.measure = work, tree, measure
        self.list, self.none = work / "list", work / "no-list"
        self.more = {"env": {**os.environ, "ZELTUVA_STORE": str(work / name)}}
        self.taken = []
        self.run("init", "0", "1")

    def run(self, name, *words):
        """Runs a program in the tree, and keeps what it took."""
        taken = self.measure([program(name), *words], cwd=self.tree, **self.more)
        self.taken.append((" ".join([name, *map(str, words[:2])]), taken))
        return taken

    def days(self, number):
        for _ in range(number):
            self.run("day", "0", self.list)

    def rest(self):
        """What comes after the third day: files had back, and a whole sweep."""
        self.run("list")
        self.run("list", "0", "3")
        self.run("back", "0", "3", LARGEST, self.work / "back")
        output(["cmp", self.tree / LARGEST, self.work / "back"])
        for number in "1", "2":
            self.run("go", "0", number)
        self.run("sweep")
        self.days(1)
        self.run("day", "1", self.none)
        swept = self.run("sweep")
        if word_of(swept.out, "thrown away") == 0:
            raise Failure("the sweep has thrown nothing away")


def program(name):
    path = Path(os.environ.get("PROGRAMS") or TOP / "target/bin").absolute() / name
    if not os.access(path, os.X_OK):
        raise Failure(f"no program at {path}: run tools/build first")
    return path


def check_memory(museum, largest):
    most = most_memory(largest)
    for name, taken in museum.taken:
        if taken.peak > most:
            raise Failure(f"{name}: {taken.peak} KiB of memory, more than {most}")
    name, taken = max(museum.taken, key=lambda one: one[1].peak)
    print(f"most memory: {taken.peak / 1024:.1f} MiB, by {name}; at most {most / 1024:.1f}")


def check_syncs(museum, files):
    """Each day's syncs; `files` says how many files with new pieces each has."""
    days = [taken for name, taken in museum.taken if name.startswith("day 0")]
    for number, (day, some) in enumerate(zip(days, files), 1):
        new = word_of(day.out, "new")
        most = most_syncs(new, some)
        print(f"day {number}: {new} new pieces in {some} files, {day.syncs()} syncs; at most {most}")
        if day.syncs() > most:
            raise Failure(f"day {number}: {day.syncs()} syncs, more than {most}")
        if day.syncs() < new:
            raise Failure(f"day {number}: {day.syncs()} syncs of {new} pieces")


def measure(work):
    tree = work / "tree"
    output([TOP / "bench/tree.py", "make", tree, str(MEGABYTES)])
    write_random(tree / LARGEST, MAX_FILE, Random(7))
    first = Tree(tree, work / "list")
    plain, counted = Museum(work, "plain", tree, took), Museum(work, "counted", tree, calls)
    plain.days(2)
    counted.days(2)
    pieces = word_of(plain.taken[-1][1].out, "pieces")
    if pieces < LEAST_PIECES:
        raise Failure(f"the day has only {pieces} pieces")

    output([TOP / "bench/tree.py", "change", tree])
    second = Tree(tree, work / "list")
    counted.days(1)
    plain.days(1)
    plain.rest()
    check_memory(plain, first.largest)
    check_syncs(counted, [len(first.contents), 0, len(second.contents - first.contents)])


def test():
    if not can_trace():
        raise Failure("strace is not there, or may not trace")
    memory = "/dev/shm"
    work = Path(tempfile.mkdtemp(dir=memory if os.access(memory, os.W_OK) else None))
    try:
        (work / "no-list").write_text("")
        measure(work)
    except Failed as failed:
        raise Failure(str(failed)) from None
    finally:
        shutil.rmtree(work)


main(test)
