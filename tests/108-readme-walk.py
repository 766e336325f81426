#!/usr/bin/env -S python3 -B
"""The week in README.md: its commands, run one after the other in a fresh folder, write what stands there.

The environment may name the folder of the programs, PROGRAMS."""

import os
import re
import shutil
import subprocess
import tempfile
from pathlib import Path

from common import TOP, Failure, main

HEADING = "## A week"

# A busy machine may kill the day that is to be killed only when it is done. Then the walk is begun anew.
TRIES = 5

# Seconds that the walk may take.
LIMIT = 120


def blocks():
    """The blocks of the section, each as its kind, `sh` or nothing, and its lines."""
    readme = (TOP / "README.md").read_text()
    section = re.search(rf"^{HEADING}\n(.*?)(?=^## )", readme, re.MULTILINE | re.DOTALL)
    if not section:
        raise Failure(f"README.md has no section {HEADING!r}")
    found = re.findall(r"^```(\w*)\n(.*?)^```$", section[1], re.MULTILINE | re.DOTALL)
    return [(kind, text.splitlines()) for kind, text in found]


def expected():
    """Commands, some at a time, and what they write together; but the first ones, which build the programs."""
    steps = []
    for kind, lines in blocks():
        if kind == "sh":
            steps.append((lines, []))
        elif not steps or steps[-1][1]:
            raise Failure(f"README.md: no commands stand before the output {lines[:1]}")
        else:
            steps[-1][1].extend(lines)
    return steps[1:]


def walk(programs, folder):
    """What `week` writes in a folder, and whether the day was killed in its midst."""
    environment = {**os.environ, "PROGRAMS": str(programs), "LC_ALL": "C"}
    more = {"env": environment, "stdin": subprocess.DEVNULL, "capture_output": True, "text": True}
    try:
        done = subprocess.run([TOP / "week", folder / "week"], timeout=LIMIT, **more)
    except subprocess.TimeoutExpired:
        raise Failure(f"the walk is not done after {LIMIT} s") from None
    if done.returncode != 0:
        raise Failure(f"week: status {done.returncode}: {done.stderr.strip()[-300:]}")
    return done.stdout.splitlines(), "Killed" in done.stderr


def compare(lines, steps):
    lines = iter([*lines, None])
    line = next(lines)
    for commands, wanted in steps:
        got = []
        for command in commands:
            if line != f"$ {command}":
                raise Failure(f"week: {line!r} stands where {command!r} is to be run")
            while (line := next(lines)) is not None and not line.startswith("$ "):
                got.append(line)
        if got != wanted:
            raise Failure(f"{commands[-1]}: writes {got}, and not {wanted} as README.md has it")
    if line is not None:
        raise Failure(f"week: {line!r} stands behind the end")


def programs():
    folder = Path(os.environ.get("PROGRAMS") or TOP / "target/bin").absolute()
    if not os.access(folder / "day", os.X_OK):
        raise Failure(f"no programs in {folder}: run tools/build first")
    return folder


def test():
    steps = expected()
    if len(steps) < 10:
        raise Failure(f"README.md has {len(steps)} steps of a week")
    for number in range(1, TRIES + 1):
        folder = Path(tempfile.mkdtemp())
        try:
            lines, killed = walk(programs(), folder)
        finally:
            shutil.rmtree(folder)
        if killed:
            break
        print(f"try {number}: the day was done when it was to be killed")
    else:
        raise Failure("the day was never killed in its midst")
    compare(lines, steps)
    print(f"{sum(len(commands) for commands, _ in steps)} commands write what README.md has")


main(test)
