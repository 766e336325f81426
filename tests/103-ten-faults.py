#!/usr/bin/env -S python3 -B
"""The ten rows of the table 'Why' in docs/FOLDER.md: for each a test that fails where what it
names is not prevented. Where it is about what is durable when, the order of the system calls
decides, since no test can cut the power; where it is about two who work at the same moment,
one is stopped at each of its calls in turn, and the other works meanwhile. How many cases
there were is printed for each row."""

import multiprocessing
import os
import shutil
import tempfile
from pathlib import Path

import scenes
import stores
from common import Failure, main
from scenes import MORE, NEW, OLD, OTHERS, SHARED, first_piece
from stops import LINKS, MKDIRS, OPENS, RENAMES, STATS, SYNCS, UNLINKS, WRITES, Stopped, touching, trace
from stores import MACHINES, digits, names_listed, new_store, pieces_of

TOP = None

# Of how many calls that only ask whether something is there one is where a program is stopped
# while another works; of the others each is.
STRIDE = 1 if os.environ.get("FULL") else 10


def folder():
    """A folder for one case."""
    return Path(tempfile.mkdtemp(dir=TOP))


def demand(holds, what):
    if not holds:
        raise Failure(what)


def refused(store, number, *words, **more):
    """A program must be refused by a number, in one line."""
    answer = store.run(*words, **more)
    line = answer.err.decode(errors="replace")
    begin = f"{words[0]}: refused by {number}: "
    if answer.status != 1 or not line.startswith(begin) or line.count("\n") != 1:
        raise Failure(f"{' '.join(map(str, words))}: not refused by {number}: {answer}")
    return answer.out


def traced(scene):
    """The calls of a scene's program, from the first that touches the store on, their paths
    shown from the store's folder; and the store."""
    at = folder() / "work"
    store = scene.copy(at)
    words, more = scene.call(store.at)
    answer, calls = trace(scene.program, words, **more)
    demand(answer.status == 0, f"{scene.program}, {scene.name}: {answer}")
    calls = [call._replace(paths=[shown(path, store.at) for path in call.paths]) for call in touching(calls, at)]
    return calls, store


def shown(path, at):
    return os.path.relpath(path, at) if f"{path}/".startswith(f"{at.parent}/") else path


def where(calls, kinds, path, begin=0, end=None, well=True):
    """The places of the calls of some kinds that concern a path, or one that begins with it, where it ends with '/'."""
    return [
        place
        for place, call in enumerate(calls[:end])
        if place >= begin
        and (kinds is None or call.name in kinds)
        and (call.path() == path or path.endswith("/") and call.path().startswith(path))
        and (call.well() or not well)
    ]


# Row 1.


def torn_lists():
    """The end of a list is torn, in each length that is no whole name: the names that are there are
    read, and those that are added, by a day or a sweep, are read right, and their pieces found."""
    with multiprocessing.get_context("fork").Pool(len(os.sched_getaffinity(0))) as pool:
        cases = [(torn, who) for torn in range(32) for who in ("0", "a", "both, and a sweep reads first")]
        for failure in pool.imap_unordered(torn_list, cases):
            if failure:
                raise Failure(failure)
    return len(cases)


def torn_list(case):
    torn, who = case
    at = folder()
    try:
        store = new_store(at / "store", 0, 1)
        store.day(0, OLD)
        store.day(0, MORE)
        store.go(0, 2)
        store.sweep()
        store.day(1, OTHERS)
        store.go(1, 1)
        tear(store, 1, torn)
        if who == "0":
            tear(store, 0, torn)
        elif who == "a":
            tear(store, "a", torn)
        else:
            tear(store, 0, torn)
            tear(store, "a", torn)
            store.sweep()
        before = names_listed(store.at, 0)
        store.day(0, NEW)
        demand(sorted(names_listed(store.at, 0)) == sorted(before + list(pieces_of(NEW))), "the names are not added")
        demand((store.at / "i/0").stat().st_size % 32 == 0, "a torn end is left where names are added")
        store.whole_sweeps()
        store.go(0, max(number for machine, number in store.kept if machine == 0 and store.kept[machine, number]))
        store.whole_sweeps()
        demand(set(pieces_of(NEW)) <= set(names_listed(store.at, "a")), "the sweeper's names are not added")
        store.check_back()
    except Failure as failure:
        return f"i/{who} torn by {torn} bytes: {failure}"
    finally:
        shutil.rmtree(at)


def tear(store, who, torn):
    """The first bytes of a name, as a stop leaves them."""
    with open(store.at / "i" / str(who), "ab") as names:
        names.write(bytes.fromhex(first_piece(NEW))[:torn])


# Row 2.


def pieces_before_days():
    """By the order of the calls of `day`: names are synced in the list before their pieces are there;
    pieces before they have their names; p, the number and m before the day has its name."""
    seen = 0
    for function in scenes.DAYS:
        scene = function(folder())
        calls, store = traced(scene)
        try:
            seen += order_of_a_day(calls, scene)
        except Failure as failure:
            raise Failure(f"{scene.name}: {failure}") from None
    demand(seen > 20, f"only {seen} pieces were written")
    return len(scenes.DAYS)


def order_of_a_day(calls, scene):
    machine, _ = scene.making
    made = where(calls, LINKS + RENAMES, f"d/{machine}/")
    demand(len(made) == 1, "the day has not its name by one call")
    raised = where(calls, RENAMES, f"m/{machine}")
    demand(len(raised) == 1 and raised[0] < made[0], "the number is not raised before")
    for named in where(calls, RENAMES, "p/") + raised + made:
        synced_before_named(calls, named)
    pieces = where(calls, RENAMES, "p/")
    demand(where(calls, SYNCS, "p", max(pieces, default=0), made[0]), "p is not synced before the day")
    demand(where(calls, SYNCS, "m", raised[0], made[0]), "m is not synced between the number and the day")
    for piece in pieces:
        name = bytes.fromhex(calls[piece].path()[2:])
        for place in where(calls, WRITES, f"i/{machine}"):
            if name in calls[place].strings[0]:
                demand(place < piece, "a name is listed after its piece")
                demand(where(calls, SYNCS, f"i/{machine}", place, piece), "a list is not synced before the piece")
                made_new = [at for at in range(place) if calls[at].creates() and calls[at].path() == f"i/{machine}"]
                new = not (scene.store.at / f"i/{machine}").exists()
                demand(made_new, "the list is not opened")
                demand(not new or where(calls, SYNCS, "i", made_new[0], piece), "i is not synced where the list is new")
                break
        else:
            demand(name.hex() in names_listed(scene.store.at, machine), "a piece is written that is not listed")
    return len(pieces)


def synced_before_named(calls, named):
    """The file that is given a name was synced after its last byte was written."""
    one = calls[named].paths[0]
    written = where(calls, WRITES, one, 0, named)
    demand(written, f"{one} is not written before it is named {calls[named].path()}")
    demand(where(calls, SYNCS, one, written[-1], named), f"{calls[named].path()} is not synced before it has its name")


# Row 3.


def gone_days_before_thrown_pieces():
    """By the order of the calls of `sweep`: all folders of days are synced after the days were read,
    and before the sweeper keeps that it ends, and before the first piece is thrown away."""
    functions = [function for function in scenes.SWEEPS if "begins" not in function.__name__]
    thrown = 0
    for function in functions:
        scene = function(folder())
        calls, _ = traced(scene)
        aways = where(calls, UNLINKS, "a/")
        if not aways:
            continue
        thrown += 1
        ends = where(calls, RENAMES, "s", 0, aways[0])
        demand(ends, f"{scene.name}: that it ends is not kept before a piece is thrown away")
        read = where(calls, None, "d/", 0, ends[-1])
        read = max(place for place in read if calls[place].path().count("/") == 2)
        for machine in range(MACHINES):
            synced = where(calls, SYNCS, f"d/{machine}", read, ends[-1])
            demand(synced, f"{scene.name}: d/{machine} is not synced after the days are read and before a piece goes")
        for moved in ("p", "a"):
            synced = where(calls, SYNCS, moved, 0, ends[-1])
            demand(synced, f"{scene.name}: {moved} is not synced before it ends")
    demand(thrown >= 3, f"only {thrown} sweeps threw anything away")
    return thrown


# Row 4.


def durable_before_reported():
    """By the calls of each program: whatever it changed, bytes or names, is synced after it was changed,
    and before the program writes that it is done. What is in t may be lost."""
    functions = scenes.DAYS + scenes.SWEEPS + scenes.OTHER
    changes = {}
    for function in functions:
        scene = function(folder())
        calls, _ = traced(scene)
        there = names_before(scene)
        found = unsynced(calls, there, f"{scene.program}, {scene.name}")
        changes[scene.program] = changes.get(scene.program, 0) + found
    demand(all(changes.get(program) for program in ("init", "day", "sweep", "go", "back")), f"{changes}")
    return len(functions)


def names_before(scene):
    """The names that were there before, from the store's folder."""
    if scene.store is None:
        return set()
    at = scene.store.at
    return {os.path.relpath(os.path.join(above, name), at) for above, _, names in os.walk(at) for name in names}


def unsynced(calls, there, scene):
    """How many changes there are in the calls; none may be left that is not synced."""
    left, changes, reported = {}, 0, False
    for call in calls:
        path = call.path()
        if call.name in WRITES and "1\"\"" in call.words.split(",")[0] and not path.startswith("../"):
            reported = reported or "pipe" in path
            if left and "pipe" in path:
                raise Failure(f"{scene}: is reported before it is durable: {', '.join(left)}")
        if not call.well():
            continue
        changes += change(call, path, left, there)
        demand(not (reported and left), f"{scene}: {left} is changed after it was reported")
    demand(reported, f"{scene}: nothing is reported")
    return changes


def change(call, path, left, there):
    """Takes down what a call changed, and what one synced. Whether it changed anything."""
    above = os.path.dirname(path) or "."
    if call.name in SYNCS:
        left.pop(f"names in {path}", None)
        left.pop(f"bytes of {path}", None)
        return 0
    if path.endswith(".lock") or "pipe:" in path or path.startswith("/"):
        return 0
    if call.name in WRITES + ["ftruncate", "truncate"]:
        left[f"bytes of {path}"] = True
    elif call.name in RENAMES + LINKS:
        if left.pop(f"bytes of {call.paths[0]}", None):
            left[f"bytes of {path}"] = True
        left[f"names in {above}"] = True
    elif call.name in UNLINKS + MKDIRS or call.creates() and path not in there:
        if above != "t" and not path.endswith(".zeltuva-back"):
            left[f"names in {above}"] = True
    else:
        return 0
    if call.name in UNLINKS:
        left.pop(f"bytes of {path}", None)
        there.discard(path)
    else:
        there.add(path)
    return 1


# Row 5.


def no_day_in_the_place_of_another():
    """The number in m/M is lower than that of a day that is there, as after a restore of half a store:
    the day that is there stays, and the new one is refused by 2."""
    cases = 0
    for highest in range(3):
        store = new_store(folder() / "store", 0, 1)
        for files in (OLD, SHARED, MORE):
            store.day(0, files)
        before = {number: (store.at / f"d/0/{number}").stat().st_ino for number in (1, 2, 3)}
        if highest:
            (store.at / "m/0").write_bytes(stores.number_bytes(highest))
        else:
            (store.at / "m/0").unlink()
        for number in range(highest + 1, 4):
            words, more = store.day_call(0, NEW)
            refused(store, 2, *words, **more)
            after = {number: (store.at / f"d/0/{number}").stat().st_ino for number in (1, 2, 3)}
            demand(after == before, f"the day file {number} is another")
            for (machine, number), files in store.kept.items():
                content = (store.at / f"d/{machine}/{number}").read_bytes()
                demand(content == stores.day_bytes(machine, number, files), f"the day {number} has changed")
            cases += 1
        demand(store.day(0, NEW) == 4, "the next day has not the next number")
        store.check_days()
        store.whole_sweeps()
        store.check_back()
    return cases


# Row 6.


def late_day(top):
    """A sweeper that waits for machine 1 alone, which has found a piece, that is aside now, for the day
    that it makes; and what it takes to name that day."""
    store = new_store(top / "store", 0, 1)
    store.day(0, SHARED | MORE)
    store.day(1, OLD)
    store.go(0, 1)
    store.sweep()
    store.day(0, OTHERS)
    return store


def name_late_day(store):
    (store.at / "t/1").write_bytes(stores.number_bytes(2))
    os.rename(store.at / "t/1", store.at / "m/1")
    (store.at / "t/1").write_bytes(stores.day_bytes(1, 2, SHARED))
    os.link(store.at / "t/1", store.at / "d/1/2")
    os.unlink(store.at / "t/1")
    store.kept[1, 2] = SHARED


def days_that_count_are_read():
    """A day is finished while the sweeper decides. First by the order of the calls: for each machine it
    looks for a day above the noted number before it reads the first of all days. Then `sweep` is stopped
    at one call after the other, the day is named, and `sweep` goes on: no piece of it may be lost. The
    same where a machine makes a whole day meanwhile of what is let go; and `day` is stopped, while one
    sweep ends and the next begins."""
    scene = scenes.a_sweep_that_decides(folder())
    calls, _ = traced(scene)
    looked_first(calls, stores.sweeper(scene.store.at)[1], [0, 1])
    cases = together(late_day, scenes.sweep, name_late_day, lambda call: True)
    for make in (scenes.two_days_gone, scenes.waiting, scenes.ending):
        cases += together(make, scenes.sweep, a_day_meanwhile, lambda call: call.changes() or call.name in OPENS)
        cases += together(make, day_of_machine_0, a_sweep_meanwhile, lambda call: call.changes(), check_day)
    return cases


def a_day_meanwhile(store):
    store.day(0, SHARED | MORE)


def a_sweep_meanwhile(store):
    store.sweep()


def day_of_machine_0(name, store):
    return scenes.day(name, store, 0, SHARED | MORE | NEW)


def check_day(scene, store, answer):
    demand(answer.status == 0, f"{answer}")
    machine, files = scene.making
    store.kept[machine, stores.highest(store.at, machine)] = files
    check_together(scene, store, answer)


def looked_first(calls, noted, machines):
    touched = []
    for call in calls:
        parts = call.path().split("/")
        if len(parts) == 3 and parts[0] == "d" and call.well():
            touched.append((int(parts[1]), int(parts[2])))
    old = [place for place, (machine, number) in enumerate(touched) if number <= noted[machine]]
    demand(old, "no day is read")
    for machine in machines:
        new = [place for place, (of, number) in enumerate(touched) if of == machine and number > noted[machine]]
        demand(new and new[0] < old[0], f"it reads days before it has looked for a day of machine {machine}")


def together(make, scene_of, meanwhile, taken, check=None):
    """Stops a program after one call after the other, does something meanwhile, and lets it go on."""
    scene = scene_of("while another works", make(folder()))
    at = folder() / "work"
    store = scene.copy(at)
    words, more = scene.call(store.at)
    _, calls = trace(scene.program, words, **more)
    calls = [call for call in touching(calls, at) if call.path().startswith(f"{store.at}/") and taken(call)]
    places = [place for place, call in enumerate(calls) if call.name not in STATS or place % STRIDE == 0]
    demand(len(places) >= 10, f"there are only {len(places)} calls to stop at")
    jobs = [(scene, calls[place], meanwhile, check or check_together) for place in places]
    each(jobs)
    return len(jobs)


def each(jobs):
    """All jobs, in several processes; they are given to them by fork."""
    global JOBS
    JOBS = jobs
    with multiprocessing.get_context("fork").Pool(len(os.sched_getaffinity(0))) as pool:
        for failure in pool.imap_unordered(job, range(len(jobs)), chunksize=2):
            if failure:
                raise Failure(failure)


def job(number):
    scene, call, meanwhile, check = JOBS[number]
    at = folder() / "work"
    store = scene.copy(at)
    words, more = scene.call(store.at)
    try:
        stopped = Stopped(call, scene.program, words, **more)
        try:
            meanwhile(store)
            answer = stopped.go_on()
        finally:
            stopped.end()
        check(scene, store, answer)
        return None
    except Failure as failure:
        return f"{scene.program} stopped at {call.name} {call.count} {call.path()}: {failure}"
    finally:
        shutil.rmtree(at.parent, ignore_errors=True)


def check_together(scene, store, answer):
    demand(answer.status == 0, f"{answer}")
    store.check_days()
    store.check_listed()
    store.whole_sweeps()
    store.check_back()


# Row 7.


def a_piece_is_put_back(store):
    """Or all of them are, one after the other, as an ending sweep does it."""
    for name in sorted(os.listdir(store.at / "a")):
        if name in scenes.kept_pieces(store):
            os.rename(store.at / "a" / name, store.at / "p" / name)


def look_again():
    """`back` is stopped at one call after the other, and all pieces are put back meanwhile: the file
    comes back. Each piece was looked for in its place, and not aside yet, at one of these moments."""
    scene = scenes.a_file_back_from_aside(folder())
    at = folder() / "work"
    store = scene.copy(at)
    words, more = scene.call(store.at)
    answer, calls = trace("back", words, **more)
    demand(answer.status == 0, f"{answer}")
    calls = [call for call in touching(calls, at) if call.path().startswith(f"{store.at}/")]
    calls = [call for call in calls if call.path().split("/")[-2] in ("p", "a") or call.path().endswith("/p")]
    missed = [call for call in calls if not call.well() and "/p/" in call.path()]
    demand(missed, "no piece was missed in its place")
    jobs = [(scene, call, a_piece_is_put_back, check_back_together) for call in calls]
    each(jobs)
    return len(jobs)


def check_back_together(scene, store, answer):
    demand(answer.status == 0, f"{answer}")
    demand((store.at.parent / "out/back.bin").read_bytes() == scene.gives, "another file came back")


# Row 8.


def names_in_t():
    """A second name of a day in t is removed and not written into. And two programs as one machine, or
    two sweeps: the second is refused where the first holds the lock, and else goes first; all is right."""
    scene = scenes.a_day_over_its_own_left_link(folder())
    at = folder() / "work"
    store = scene.copy(at)
    store.day(*scene.making)
    store.check_days()
    demand((store.at / "d/0/1").stat().st_nlink == 1, "the day file has a second name still")
    cases = together(shared_pieces, day_of_machine_0, second_day, lambda call: call.changes(), check_two_days)
    return 1 + cases + together(scenes.two_days_gone, scenes.sweep, second_sweep, lambda call: call.changes())


def shared_pieces(top):
    return scenes.a_day_of_shared_pieces(top).store


def second(store, number, *words, **more):
    """The answer of the second program: it goes well, or is refused by a number."""
    answer = store.run(*words, **more)
    if answer.status == 0:
        return True
    demand(answer.status == 1 and b"refused by %d" % number in answer.err, f"the second one answers {answer}")
    return False


def second_day(store):
    words, more = store.day_call(0, OLD)
    if second(store, 3, *words, **more):
        demand((store.at / "d/0/1").exists(), "the second day is not there")
        store.kept[0, 1] = OLD


def check_two_days(scene, store, answer):
    demand(answer.status == 0, f"{answer}")
    store.kept[0, 2 if (0, 1) in store.kept else 1] = scene.making[1]
    locked = (store.at / "t/0.lock").exists()
    demand(locked, "there is no lock")
    check_together(scene, store, answer)


def second_sweep(store):
    second(store, 4, "sweep")


# Row 9.


WRONG = [
    lambda content: b"",
    lambda content: content[:-1],
    lambda content: content + b"0",
    lambda content: b"x" * len(content),
]


# What lies in the place of a piece, and aside.
PLACES = [("wrong", None), ("wrong", "wrong"), ("wrong", "right"), ("right", "wrong"), (None, "wrong")]


def wrong_bytes():
    """Under the name of a piece of a day lie other bytes: in its place, aside, or both."""
    cases = 0
    for wrong in WRONG:
        for place, aside in PLACES:
            wrong_piece(wrong, place, aside)
            cases += 1
    return cases


def wrong_piece(wrong, place, aside):
    store = new_store(folder() / "store", 0, 1)
    # All are in the sweeper's list, so that it finds what lies aside.
    store.day(0, SHARED)
    store.go(0, 1)
    store.sweep()
    store.day(0, SHARED)
    store.day(1, SHARED)
    store.sweep()
    store.day(0, {})
    store.day(1, {})
    store.check_days()
    name = first_piece(SHARED)
    right = pieces_of(SHARED)[name]
    for at, how in (("p", place), ("a", aside)):
        path = store.at / at / name
        path.unlink(missing_ok=True)
        if how:
            path.write_bytes(right if how == "right" else wrong(right))
    lost = "right" not in (place, aside)
    path = next(path for path, content in SHARED.items() if right in stores.file_pieces(content))
    try:
        if lost:
            refused(store, 2, "back", "0", "2", path, store.at.parent / "back")
            demand(not (store.at.parent / "back").exists(), "back: a file is there")
            nothing_moves(store)
        else:
            store.check_back()
        mend(store, name, right, place)
    except Failure as failure:
        raise Failure(f"wrong bytes, in place {place}, aside {aside}: {failure}") from None


def mend(store, name, right, place):
    """A day of the same files writes the piece anew, unless the right bytes are in place."""
    words, more = store.day_call(0, SHARED)
    out = store.did(*words, **more)
    number = stores.highest(store.at, 0)
    store.kept[0, number] = SHARED
    new = 0 if place == "right" else 1
    demand(b"new %d\n" % new in out, f"day: {new} pieces were to be written: {out}")
    demand((store.at / "p" / name).read_bytes() == right, "day: the piece has other bytes still")
    store.check_days()
    store.whole_sweeps()
    store.check_back()


def nothing_moves(store):
    """`sweep` is refused by 2, and all is as it was."""
    (store.at / "t/s.lock").touch()
    before = scenes.state(store.at)
    refused(store, 2, "sweep")
    demand(scenes.state(store.at) == before, "sweep: refused, and something has changed")


# Row 10.


def other_days(store):
    """Strings that are not the file of day 2 of machine 0."""
    right = (store.at / "d/0/2").read_bytes()
    for at in (0, 1, 5, 7, 8, 20, len(right) - 1):
        content = bytearray(right)
        content[at] ^= 1
        yield bytes(content)
    for length in (0, 1, 8, 39, len(right) - 32, len(right) - 1):
        yield right[:length]
    yield right + b"\0"
    yield stores.day_bytes(1, 2, store.kept[0, 2])
    yield stores.day_bytes(0, 1, store.kept[0, 2])
    yield digits(right).encode()
    # Of the form but for one thing, and with the right digest.
    for plain in (right[:6] + b"\x10\x01" + right[8:-32], right[:-32] + b"\0", b"E" + right[1:-32]):
        yield plain + bytes.fromhex(digits(plain))


def damaged_days():
    """A day file is damaged, or is that of another day: whoever is asked for it is refused by 2, and the
    sweeper neither looks nor decides. When it is let go, or is as before, all goes on."""
    cases = 0
    for make in (scenes.two_days_gone, scenes.waiting):
        top = folder()
        base = make(top)
        for number, other in enumerate(other_days(base)):
            store = base.copy(top / f"copy{number}")
            right = (store.at / "d/0/2").read_bytes()
            demand(right != other, "the day file is not damaged")
            (store.at / "d/0/2").write_bytes(other)
            refused(store, 2, "back", "0", "2", "old.bin", top / "back")
            refused(store, 2, "list", "0", "2")
            out = refused(store, 2, "list")
            demand(out.count(b"\n") == len(store.kept) - 1, f"list: the others are not listed: {out}")
            nothing_moves(store)
            if number % 2:
                (store.at / "d/0/2").write_bytes(right)
            else:
                store.go(0, 2)
            store.sweep()
            store.check_days()
            store.whole_sweeps()
            store.check_back()
            cases += 1
    return cases


ROWS = [
    torn_lists,
    pieces_before_days,
    gone_days_before_thrown_pieces,
    durable_before_reported,
    no_day_in_the_place_of_another,
    days_that_count_are_read,
    look_again,
    names_in_t,
    wrong_bytes,
    damaged_days,
]


def test():
    global TOP
    asked = os.environ.get("ROWS")
    wanted = list(map(int, asked.split())) if asked else range(1, len(ROWS) + 1)
    with stores.folder() as TOP:
        for row in wanted:
            try:
                cases = ROWS[row - 1]()
            except Failure as failure:
                raise Failure(f"row {row}, {ROWS[row - 1].__name__}: {failure}") from None
            demand(cases, f"row {row}: nothing was tried")
            print(f"row {row}, {ROWS[row - 1].__name__.replace('_', ' ')}: {cases} cases")


main(test)
