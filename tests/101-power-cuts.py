#!/usr/bin/env -S python3 -B
"""Each program that changes something is killed before each of its system calls, from the first
that touches the store to the last, in one scene after the other. Whatever that leaves: every
kept day is whole on the medium, the day under way is there whole or not at all, `list` lists
just the days that are there, the program does its work when it is called again, and after whole
sweeps nothing stays that no day has.

Where two kills leave the same medium, what follows is looked at once. Then programs are killed
twice: somewhere, and in what is called next. Of the calls that only read, each fourth is taken;
where the environment variable FULL is set, each, and more pairs of kills are tried. How many
kills were tried is printed."""

import multiprocessing
import os
import random
import shutil
import tempfile
from pathlib import Path

import scenes
import stores
from common import Failure, main
from stops import kill_at, touching, trace

# Of how many calls that only read one is taken, and how many pairs of kills are tried.
STRIDE, PAIRS = (1, 2_000) if os.environ.get("FULL") else (4, 120)

# What the processes work on: the scenes, and for each the calls before which it is killed.
SCENES = []
CALLS = []
TOP = None


def work():
    """A folder for one kill."""
    return Path(tempfile.mkdtemp(dir=TOP)) / "work"


def calls_of(scene):
    """The calls of a whole run, and what must hold after it; the program must say that all is done."""
    at = work()
    store, answer, calls = scene.whole_run(at)
    last = scenes.state(at)
    scenes.afterwards(scene, store, answer)
    shutil.rmtree(at.parent)
    return touching(calls, at), last


def taken(calls):
    """The calls before which a program is killed."""
    last = len(calls) - 1
    return [place for place, call in enumerate(calls) if call.changes() or place % STRIDE == 0 or place == last]


def killed(at, number, place):
    """A copy of a scene whose program was killed at a call."""
    scene = SCENES[number]
    store = scene.copy(at)
    words, more = scene.call(store.at)
    kill_at(CALLS[number][place], scene.program, words, **more)
    return store


def said(number, place, failure):
    scene, call = SCENES[number], CALLS[number][place]
    return f"{scene.program}, {scene.name}, killed before {call.name} {call.count} {call.path()}: {failure}"


def kill(case):
    """What is there after a kill."""
    at = work()
    try:
        killed(at, *case)
        return case, scenes.state(at), None
    except Failure as failure:
        return case, None, said(*case, failure)
    finally:
        shutil.rmtree(at.parent, ignore_errors=True)


def follow(case):
    """What must hold after a kill."""
    at = work()
    try:
        store = killed(at, *case)
        scenes.afterwards(SCENES[case[0]], store)
        return None
    except Failure as failure:
        return said(*case, failure)
    finally:
        shutil.rmtree(at.parent, ignore_errors=True)


def pair(seed):
    """A kill anywhere, and one in the next day of a machine or the next sweep; then all must hold."""
    chance = random.Random(seed)
    number = chance.choice([number for number, scene in enumerate(SCENES) if scene.program != "init"])
    changes = [place for place, call in enumerate(CALLS[number]) if call.changes()]
    place, at = chance.choice(changes), work()
    try:
        store = killed(at, number, place)
        second_kill(SCENES[number], store, chance)
        return None
    except Failure as failure:
        return f"seed {seed}: " + said(number, place, failure)
    finally:
        shutil.rmtree(at.parent, ignore_errors=True)


def second_kill(scene, store, chance):
    scenes.settle(scene, store, False)
    if chance.randrange(2) or scene.lacking:
        next_one = scenes.day("the next day", store, chance.randrange(2), scenes.SHARED | scenes.NEW, scene.lacking)
    else:
        next_one = scenes.sweep("the next sweep", store)
    tried = next_one.copy(store.at.parent / "tried")
    words, more = next_one.call(tried.at)
    _, calls = trace(next_one.program, words, **more)
    call = chance.choice([call for call in touching(calls, tried.at) if call.changes()])
    last = next_one.copy(store.at.parent / "last")
    words, more = next_one.call(last.at)
    kill_at(call, next_one.program, words, **more)
    scenes.afterwards(next_one, last)


def no_failure(failures):
    failures = [failure for failure in failures if failure]
    if failures:
        print("\n".join(failures[:20]))
        raise Failure(f"{len(failures)} kills have gone wrong, the first: {failures[0]}")


def each_state(results):
    """One kill for each medium that kills of a scene have left."""
    found = {}
    for case, state, _ in sorted(results):
        found.setdefault((case[0], state), case)
    return sorted(found.values())


def check_kills(results, lasts):
    """Kills leave what lies between the beginning and the end: the first leaves all as it was,
    and there are some for each change, so no kill came too late or too early."""
    for number, scene in enumerate(SCENES):
        states = [state for (of, _), state, _ in sorted(results) if of == number]
        at = work()
        scene.copy(at)
        if states[0] != scenes.state(at):
            raise Failure(f"{scene.program}, {scene.name}: something is changed before the first kill")
        shutil.rmtree(at.parent)
        if states[-1] != lasts[number]:
            raise Failure(f"{scene.program}, {scene.name}: something is changed after the answer is written")
        renamed = [call for call in CALLS[number] if "rename" in call.name or "link" in call.name]
        renamed = [call for call in renamed if call.well()]
        if len(set(states)) <= len(renamed):
            raise Failure(f"{scene.program}, {scene.name}: {len(set(states))} states, {len(renamed)} names changed")


def test():
    global TOP
    with stores.folder() as TOP:
        functions = scenes.DAYS + scenes.SWEEPS + scenes.OTHER
        (TOP / "scenes").mkdir()
        SCENES.extend(scenes.prepare(functions, TOP / "scenes"))
        lasts = []
        for scene in SCENES:
            calls, last = calls_of(scene)
            CALLS.append(calls)
            lasts.append(last)
        cases = [(number, place) for number, calls in enumerate(CALLS) for place in taken(calls)]
        with multiprocessing.get_context("fork").Pool(len(os.sched_getaffinity(0))) as pool:
            results = pool.map(kill, cases, chunksize=8)
            no_failure(failure for _, _, failure in results)
            check_kills(results, lasts)
            states = each_state(results)
            no_failure(pool.imap_unordered(follow, states, chunksize=2))
            no_failure(pool.imap_unordered(pair, range(PAIRS), chunksize=2))
    print(f"{len(cases)} kills in {len(SCENES)} scenes, {len(states)} different media, {PAIRS} pairs of kills")


main(test)
