#!/usr/bin/env -S python3 -B
"""Thousands of scripts from a seed, in which machines make days while the sweeper
sweeps, many of them in one run. Both programs must write the same bytes, and the
second one must find that the promise is kept after every line. How often each kind
of answer occurred is printed."""

import random
import textwrap
from collections import Counter

from common import Failure, agreed_lines, main, programs, run
from sweeps import scripts

SEED = 94

# How many runs, and how many scripts in each.
RUNS, SCRIPTS = 1_300, 16

# What must be among the answers, for the scripts to be worth something: how each kind begins.
KINDS = {
    "begun": "begun",
    "found": "found ",
    "written": "written ",
    "raised": "raised ",
    "named": "named ",
    "broken off": "broken off",
    "let go": "let go",
    "parted": "parted",
    "a look": "to put aside ",
    "put aside": "put aside ",
    "noted": "noted",
    "a decision": "to put back ",
    "a decision when nothing is aside": "to put back 0, to throw away 0\n",
    "put back": "put back ",
    "thrown away": "thrown away ",
    "stopped": "stopped",
    "a piece in its place": "place ",
    "a piece aside": "aside ",
    "a name in the list of the sweeper": "listed sweeper ",
    "the sweeper rests": "sweeper rests\n",
    "it puts aside": "sweeper puts aside ",
    "it has put all aside": "sweeper puts aside\n",
    "it waits": "sweeper waits ",
    "it ends": "sweeper ends, back",
    "it is to decide anew": "sweeper is to decide anew\n",
}

# How answers end where a step is refused.
REFUSALS = {
    "no such machine or day": "refused by 1: there is no such machine, day or path\n",
    "makes a day already": "refused by 3: the machine already makes a day\n",
    "makes none": "refused by 3: the machine makes no day\n",
    "raised already": "refused by 3: the day has its number already, and is to be named or broken off\n",
    "not raised": "refused by 3: the day has no number yet, which is to be raised first\n",
    "not at that point": "refused by 4: the sweeper is not at that point\n",
    "no day since": "refused by 4: a machine has finished no day since\n",
}


def test():
    (first, first_path), (second, second_path) = programs()
    source = random.Random(SEED)
    counts = Counter()
    lines = sweeps = 0
    for number in range(RUNS):
        script, whole = scripts(source, SCRIPTS)
        output = run(second, second_path, script, "--check")
        if run(first, first_path, script) != output:
            agreed_lines(script, f"run {number} of seed {SEED}")
            raise Failure(f"{second} answers run {number} of seed {SEED} otherwise where it checks the promise")
        lines += script.count(b"\n") + 1
        sweeps += whole
        for kind, begin in KINDS.items():
            counts[kind] += output.count(b"\n" + begin.encode())
        for kind, end in REFUSALS.items():
            counts[kind] += output.count(b": " + end.encode())

    kinds = "; ".join(f"{kind} {count}" for kind, count in counts.items())
    print(textwrap.fill(f"{RUNS * SCRIPTS} scripts of {lines} lines, {sweeps} whole sweeps; {kinds}", 100))
    for kind, count in counts.items():
        if count < 50:
            raise Failure(f"only {count} answers are of the kind: {kind}")
    if sweeps < RUNS * SCRIPTS // 2:
        raise Failure(f"only {sweeps} sweeps come to their end without a stop")


main(test)
