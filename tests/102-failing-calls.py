#!/usr/bin/env -S python3 -B
"""Each system call of each program that touches the store fails once, in one scene after the
other: for want of room (ENOSPC) where it writes, and since the medium fails (EIO). The program
must say so, by one line on standard error and status 1, and without the number of a rule, since
none is broken. What must hold afterwards is the same as where it was killed there
(101-power-cuts.py): every kept day is whole, the program does its work when it is called again,
and whole sweeps leave nothing that no day has.

Where a program may pass over a failure stands in PASSED_OVER, with the reason. If it then says
that all is done, all must be done. How many failures were tried is printed."""

import multiprocessing
import os
import re
import shutil
import tempfile
from pathlib import Path

import scenes
import stores
from common import Failure, main
from stops import LINKS, MKDIRS, OPENS, READS, RENAMES, STATS, SYNCS, UNLINKS, WRITES, fail_at, touching

# Of how many stats, of one path in one run one, one fails.
STRIDE = 1 if os.environ.get("FULL") else 8

SCENES = []
CALLS = []
TOP = None


def is_lock(call, at):
    return call.path().endswith(".lock")


def is_left(call, at):
    """Removing t/M or t/s, which is not there or is a second name of the day that is named."""
    return call.name in UNLINKS and os.path.dirname(call.path()) == f"{at}/t"


def is_outside(call, at):
    """Asking whether what `back` is to write, or its folder, is there already."""
    return call.name in STATS and not call.path().startswith(f"{at}/")


# The failures that a program may pass over, and why.
PASSED_OVER = [
    (is_lock, "locks are a help, and there are none in some file systems"),
    (is_left, "what is left in t harms nobody: whoever makes it anew removes it first, or fails then"),
    (is_outside, "whoever cannot look whether a folder is there makes it, or fails then"),
]


def work():
    """A folder for one failure."""
    return Path(tempfile.mkdtemp(dir=TOP)) / "work"


def calls_of(scene):
    """The calls of a whole run, in the folder that they are made in."""
    at = work()
    store, _, calls = scene.whole_run(at)
    shutil.rmtree(at.parent)
    return store.at, touching(calls, at)


def errors(call):
    """What a call fails with."""
    if call.name in WRITES + SYNCS + RENAMES + LINKS + MKDIRS or call.creates() or call.name == "ftruncate":
        return ["ENOSPC", "EIO"]
    if call.name in UNLINKS + OPENS + READS + STATS:
        return ["EIO"]
    return []


def cases():
    for number, (_, calls) in enumerate(CALLS):
        stats = 0
        for place, call in enumerate(calls):
            stats += call.name in STATS
            if call.name in STATS and stats % STRIDE:
                continue
            for error in errors(call):
                yield number, place, error


def fail(case):
    """What a program answers of which a call fails, and what is there then."""
    number, place, error = case
    scene, (at, calls) = SCENES[number], CALLS[number]
    folder = work()
    try:
        answer = failed(folder, case)
        passed = answered(scene.program, answer, calls[place], at)
        return case, scenes.state(folder), passed, None
    except Failure as failure:
        return case, None, False, said(case, failure)
    finally:
        shutil.rmtree(folder.parent, ignore_errors=True)


def failed(folder, case):
    number, place, error = case
    scene = SCENES[number]
    store = scene.copy(folder)
    words, more = scene.call(store.at)
    return fail_at(CALLS[number][1][place], error, scene.program, words, **more)


def answered(program, answer, call, at):
    """Whether the failure was passed over; if not, it must have been said."""
    if answer.status == 0:
        if not any(may(call, at) for may, _ in PASSED_OVER):
            raise Failure(f"it says that all went well: {answer}")
        return True
    line = answer.err.decode(errors="replace")
    if answer.status != 1 or not re.fullmatch(rf"{program}: [^\n]+: [^\n]+; [^\n]+\n", line):
        raise Failure(f"it does not say so in one line, with status 1: {answer}")
    if "refused by" in line:
        raise Failure(f"it says that a rule was broken: {answer}")
    if answer.out and program != "list":
        raise Failure(f"it writes that it has done something: {answer}")
    return False


def said(case, failure):
    number, place, error = case
    scene, call = SCENES[number], CALLS[number][1][place]
    where = call.path().replace(str(CALLS[number][0]), "")
    return f"{scene.program}, {scene.name}, {call.name} {call.count} {where}, {error}: {failure}"


def follow(case):
    """What must hold after a failure."""
    folder = work()
    try:
        scene = SCENES[case[0]]
        store = scene.copy(folder)
        words, more = scene.call(store.at)
        answer = fail_at(CALLS[case[0]][1][case[1]], case[2], scene.program, words, **more)
        scenes.afterwards(scene, store, answer)
        return None
    except Failure as failure:
        return said(case, failure)
    finally:
        shutil.rmtree(folder.parent, ignore_errors=True)


def each_state(results):
    """One failure for each medium that failures of a scene have left, with either answer."""
    found = {}
    for case, state, passed, _ in results:
        found.setdefault((case[0], state, passed), case)
    return sorted(found.values())


def no_failure(failures):
    failures = [failure for failure in failures if failure]
    if failures:
        print("\n".join(failures[:25]))
        raise Failure(f"{len(failures)} have gone wrong, the first: {failures[0]}")


def check_kinds(tried):
    """Every kind of call was among those that failed."""
    names = {CALLS[number][1][place].name for number, place, _ in tried}
    for kinds in (OPENS, READS, WRITES, RENAMES, LINKS, UNLINKS, MKDIRS, SYNCS):
        if not names & set(kinds):
            raise Failure(f"no call failed of {', '.join(kinds)}")


def test():
    global TOP
    with stores.folder() as TOP:
        functions = scenes.DAYS + scenes.SWEEPS + scenes.OTHER + scenes.LISTS
        (TOP / "scenes").mkdir()
        SCENES.extend(scenes.prepare(functions, TOP / "scenes"))
        CALLS.extend(map(calls_of, SCENES))
        tried = list(cases())
        check_kinds(tried)
        with multiprocessing.get_context("fork").Pool(len(os.sched_getaffinity(0))) as pool:
            results = pool.map(fail, tried, chunksize=8)
            no_failure(failure for *_, failure in results)
            states = each_state(results)
            no_failure(pool.imap_unordered(follow, states, chunksize=2))
    passed = sum(passed for _, _, passed, _ in results)
    print(f"{len(tried)} failures in {len(SCENES)} scenes, {passed} passed over, {len(states)} different media")


main(test)
