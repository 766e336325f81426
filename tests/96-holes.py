#!/usr/bin/env -S python3 -B
"""The wrong rules of docs/WHY-IT-WENT-WRONG.md: by each of them the second program loses
a piece, and says so; by the right rules it loses none. So does a search through scripts
from a seed. The page must show the scripts as they are, and what the program says."""

import random
import subprocess

from common import TIME_LIMIT, TOP, Failure, agreed_lines, check_promise, main, programs, short
from sweeps import daring_script

SEED = 96
VARIANTS = ["throw-at-once", "note-early", "raised-counts", "new-days-only", "aside-found"]

# How many scripts are searched, at most.
TRIES = 3_000

BROKEN = 2


def says(script, variant):
    """What the second program says where the promise is broken by this rule; None where it is kept."""
    _, (name, path) = programs()
    command = [path, "--variant", variant, "--check"]
    done = subprocess.run(command, input=script, capture_output=True, timeout=TIME_LIMIT)
    match done.returncode, done.stderr.decode():
        case 0, "":
            return None
        case status, said if status == BROKEN and said.startswith("reference: the promise is broken after line "):
            return said
        case status, said:
            raise Failure(f"{name}, {variant}: exit status {status}, {said!r}, script {short(script)}")


def kept(script, what):
    """By the right rules both programs answer alike, and the promise is kept."""
    agreed_lines(script, what)
    check_promise(script)


def hole(variant, page):
    """The script of the page."""
    path = f"samples/holes/{variant}.script"
    lines = (TOP / path).read_text().splitlines(keepends=True)
    script = "".join(lines).encode()
    said = says(script, variant)
    if not said:
        raise Failure(f"{variant}: {path} loses nothing")
    if f"after line {len(lines)}: what is needed is " not in said:
        raise Failure(f"{variant}: {path} does not lose a piece by its last line: {said!r}")
    kept(script, path)
    # No line can be left out.
    for at, line in enumerate(lines):
        if not line.startswith("#") and says("".join(lines[:at] + lines[at + 1 :]).encode(), variant):
            raise Failure(f"{variant}: {path} loses a piece also without its line {at + 1}")
    # The page has the script, how it is played, and what is said.
    for shown in "".join(lines), said, f"target/cargo/release/reference --variant {variant} --check < {path}\n":
        if "".join("    " + line for line in shown.splitlines(keepends=True)) not in page:
            raise Failure(f"{variant}: docs/WHY-IT-WENT-WRONG.md does not show {short(shown)}")


def search(variant):
    """Scripts from a seed, until one of them loses something."""
    source = random.Random(SEED)
    for number in range(1, TRIES + 1):
        script = daring_script(source)
        if said := says(script, variant):
            kept(script, f"{variant}, script {number} of seed {SEED}")
            print(f"{variant}, script {number}: {said.removeprefix('reference: ').rstrip()}")
            return
    raise Failure(f"{variant}: {TRIES} scripts of seed {SEED} lose nothing")


def usage():
    """Other options than there are."""
    _, (name, path) = programs()
    for options in ["--variant"], ["--variant", "none"], ["--checks"], ["--check", "x"]:
        done = subprocess.run([path, *options], input=b"show\n", capture_output=True, timeout=TIME_LIMIT)
        if done.returncode != 1 or done.stdout or not done.stderr:
            raise Failure(f"{name}: exit status {done.returncode} with {options}")


def test():
    scripts = sorted(path.stem for path in (TOP / "samples/holes").iterdir())
    if scripts != sorted(VARIANTS):
        raise Failure(f"samples/holes has the scripts {scripts}")
    page = (TOP / "docs/WHY-IT-WENT-WRONG.md").read_text()
    for variant in VARIANTS:
        hole(variant, page)
        search(variant)
    usage()


main(test)
