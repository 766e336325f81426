"""Stores at a moment, and a program that is about to run on each, for the tests that stop it
or let its calls fail; and what must hold afterwards, wherever it was stopped.

Each scene is one function, which makes its store by the programs; what they leave behind
only where they are stopped is made by hand here, as docs/FOLDER.md spells it."""

import hashlib
import os
import random
from pathlib import Path
from typing import NamedTuple

import stores
from common import Failure, short
from stops import trace
from stores import Store, day_names, digits, file_pieces, highest, names_listed, new_store, pieces_of, run


def some(seed, length):
    """Bytes that look like chance, always the same."""
    return random.Random(seed).randbytes(length)


OLD = {"old.bin": some(1, 9_000)}
SHARED = {"photos/1.jpg": some(2, 20_000), "photos/2.jpg": some(3, 2_500)}
NEW = {"new.bin": some(4, 14_000), "empty": b"", "notes/a b.txt": b"Hello"}
MORE = {"more.bin": some(5, 21_000), "more.txt": b"One more."}
OTHERS = {"others.bin": some(6, 7_000)}


class Scene(NamedTuple):
    """A store; the program and its words; its files; the day that it makes, or lets go, if it
    does so; pieces that are damaged before, of which no right copy is there."""

    name: str
    store: Store
    program: str
    words: tuple = ()
    at: Path = None
    given: bytes = b""
    making: tuple = None
    going: tuple = None
    lacking: frozenset = frozenset()
    gives: bytes = None

    def call(self, at):
        """How the program is called for a store in this folder."""
        words = [str(at.parent / "out" / "back.bin") if word == "OUT" else word for word in self.words]
        if self.program == "init":
            words = [str(at) if word == "STORE" else word for word in words]
        else:
            words = ["--store", str(at), *words]
        return words, {"at": self.at, "given": self.given}

    def whole_run(self, at):
        """A copy of it, with the answer of its program, which must say that all is done, and the program's calls."""
        store = self.copy(at)
        words, more = self.call(store.at)
        answer, calls = trace(self.program, words, **more)
        if answer.status != 0:
            raise Failure(f"{self.program}, {self.name}: {answer}")
        return store, answer, calls

    def copy(self, work):
        """A copy of the store in a folder of its own, where the program is to run."""
        os.mkdir(work)
        if self.program == "init":
            return Store(work / "store")
        store = self.store.copy(work / "store")
        if self.program == "back" and "replaced" in self.name:
            (work / "out").mkdir()
            (work / "out/back.bin").write_bytes(b"as it was before")
        return store


def day(name, store, machine, files, lacking=()):
    """A scene in which a machine makes a day."""
    words, more = store.day_call(machine, files)
    return Scene(name, store, "day", tuple(words[1:]), making=(machine, files), lacking=frozenset(lacking), **more)


def flip(path):
    """Damage: the first byte is another."""
    content = bytearray(path.read_bytes())
    content[0] ^= 255
    path.write_bytes(content)


def first_piece(files):
    return min(pieces_of(files))


def a_day_of_new_pieces(top):
    store = new_store(top / "store", 0, 1)
    store.day(1, OLD)
    return day("a first day, new pieces", store, 0, NEW)


def a_day_after_a_torn_list(top):
    store = new_store(top / "store", 0, 1)
    store.day(0, OLD)
    with open(store.at / "i/0", "ab") as names:
        names.write(b"torn")
    return day("a further day, a list with a torn end", store, 0, NEW | OLD)


def a_day_of_shared_pieces(top):
    store = new_store(top / "store", 0, 1)
    store.day(1, SHARED)
    return day("shared pieces", store, 0, SHARED | MORE)


def a_day_of_pieces_aside(top):
    store = new_store(top / "store", 0, 1)
    number = store.day(0, SHARED | MORE)
    store.day(1, OLD)
    store.go(0, number)
    if store.sweep().aside != len(pieces_of(SHARED | MORE)):
        raise Failure("the pieces are not aside")
    return day("pieces aside", store, 0, SHARED | MORE)


def a_day_over_a_damaged_piece(top):
    store = new_store(top / "store", 0, 1)
    store.day(1, SHARED)
    name = first_piece(SHARED)
    flip(store.at / "p" / name)
    return day("wrong bytes in place", store, 0, SHARED, [name])


def a_day_over_a_damaged_piece_right_aside(top):
    store = new_store(top / "store", 0, 1)
    store.day(0, SHARED)
    store.go(0, 1)
    store.sweep()
    # Made before the sweep decides, the day of machine 1 writes the pieces in their places, too.
    store.day(1, SHARED)
    flip(store.at / "p" / first_piece(SHARED))
    return day("wrong bytes in place, right ones aside", store, 0, SHARED)


def a_day_over_its_own_left_link(top):
    store = new_store(top / "store", 0, 1)
    store.day(0, OLD)
    os.link(store.at / "d/0/1", store.at / "t/0")
    return day("a second name of a day was left", store, 0, MORE)


def a_day_without_files(top):
    store = new_store(top / "store", 0, 1)
    store.day(0, OLD)
    (store.at / "t/0").write_bytes(b"left")
    return day("a day without files, something was left", store, 0, {})


def a_day_whose_number_was_raised(top):
    store = new_store(top / "store", 0, 1)
    store.day(0, OLD)
    (store.at / "m/0").write_bytes(stores.number_bytes(7))
    return day("a number was raised and has no day", store, 0, MORE)


def sweep(name, store):
    return Scene(name, store, "sweep")


def two_days_gone(top):
    """A store in which two days are let go, of one of which a piece is in a kept day."""
    store = new_store(top / "store", 0, 1)
    store.day(0, SHARED)
    store.day(0, OLD | {"photos/2.jpg": SHARED["photos/2.jpg"]})
    store.day(1, MORE | SHARED)
    store.go(0, 1)
    store.go(1, 1)
    return store


def waiting(top):
    """A store whose sweeper waits, for nobody any more: there is something to put back, something to
    throw away, something of a day in its place and aside, and something for the next sweep to put aside."""
    store = two_days_gone(top)
    swept = store.sweep()
    if swept.aside < 3 or swept.waits != [0, 1]:
        raise Failure(f"the sweep moved {swept}")
    # A day that found its pieces before they were put aside: it is named by hand, as it may come then.
    late = {"photos/1.jpg": SHARED["photos/1.jpg"]}
    (store.at / "m/1").write_bytes(stores.number_bytes(2))
    (store.at / "d/1/2").write_bytes(stores.day_bytes(1, 2, late))
    store.kept[1, 2] = late
    store.day(0, OTHERS)
    store.day(0, {"piece": file_pieces(SHARED["photos/1.jpg"])[0]})
    store.day(1, {"odd": some(7, 3_000)})
    store.go(1, 3)
    return store


def ending(top):
    store = waiting(top)
    (store.at / "s").write_bytes(stores.sweeper_bytes(("ends",)))
    return store


def a_sweep_that_begins(top):
    return sweep("rests, puts aside", two_days_gone(top))


def a_sweep_that_was_stopped_before_it_noted(top):
    store = two_days_gone(top)
    names = sorted(set(names_listed(store.at, 0) + names_listed(store.at, 1)) - set(kept_pieces(store)))
    with open(store.at / "i/a", "wb") as listed:
        listed.write(b"".join(map(bytes.fromhex, names[:2])))
    os.rename(store.at / "p" / names[0], store.at / "a" / names[0])
    return sweep("rests, was stopped before it noted", store)


def kept_pieces(store):
    return {name for files in store.kept.values() for name in pieces_of(files)}


def a_sweep_that_waits(top):
    store = two_days_gone(top)
    store.sweep()
    store.day(1, OTHERS)
    return sweep("waits for a day", store)


def a_sweep_that_decides(top):
    return sweep("waits for nobody", waiting(top))


def a_sweep_that_ends(top):
    return sweep("ends, puts back and throws away", ending(top))


def a_sweep_that_had_put_back(top):
    store = ending(top)
    aside = set(os.listdir(store.at / "a"))
    name = min(aside & kept_pieces(store))
    os.rename(store.at / "a" / name, store.at / "p" / name)
    return sweep("ends, one was put back", store)


def a_sweep_that_had_thrown_away(top):
    store = ending(top)
    aside = set(os.listdir(store.at / "a"))
    for name in aside & kept_pieces(store):
        os.rename(store.at / "a" / name, store.at / "p" / name)
    others = sorted(aside - kept_pieces(store))
    if len(others) < 2:
        raise Failure("there is too little to throw away")
    os.remove(store.at / "a" / others[0])
    (store.at / "t/s").write_bytes(b"left")
    return sweep("ends, one was thrown away", store)


def a_day_while_a_sweep_ends(top):
    store = ending(top)
    return day("a sweep was stopped while it ended", store, 0, SHARED | MORE)


def a_day_that_goes(top):
    store = new_store(top / "store", 0, 1)
    store.day(0, SHARED)
    store.day(0, OLD | SHARED)
    store.day(1, OLD)
    return Scene("a day goes", store, "go", ("0", "2"), going=(0, 2))


def a_file_back(top):
    store = new_store(top / "store", 0, 1)
    store.day(0, SHARED)
    content = SHARED["photos/1.jpg"]
    return Scene("a file, folders are made", store, "back", ("0", "1", "photos/1.jpg", "OUT"), gives=content)


def a_file_back_from_aside(top):
    store = waiting(top)
    content = store.kept[1, 2]["photos/1.jpg"]
    name = "a file whose pieces are aside, another is replaced"
    return Scene(name, store, "back", ("1", "2", "photos/1.jpg", "OUT"), gives=content)


def a_new_store(top):
    return Scene("a new store", None, "init", ("--store", "STORE", "0", "1"))


def all_days_listed(top):
    return Scene("all days", waiting(top), "list")


def files_listed(top):
    return Scene("the files of a day", waiting(top), "list", ("1", "2"))


DAYS = [
    a_day_of_new_pieces,
    a_day_after_a_torn_list,
    a_day_of_shared_pieces,
    a_day_of_pieces_aside,
    a_day_over_a_damaged_piece,
    a_day_over_a_damaged_piece_right_aside,
    a_day_over_its_own_left_link,
    a_day_without_files,
    a_day_whose_number_was_raised,
    a_day_while_a_sweep_ends,
]
SWEEPS = [
    a_sweep_that_begins,
    a_sweep_that_was_stopped_before_it_noted,
    a_sweep_that_waits,
    a_sweep_that_decides,
    a_sweep_that_ends,
    a_sweep_that_had_put_back,
    a_sweep_that_had_thrown_away,
]
OTHER = [a_day_that_goes, a_file_back, a_file_back_from_aside, a_new_store]
LISTS = [all_days_listed, files_listed]


def prepare(functions, top):
    """The scenes, each with its store in a folder of its own."""
    scenes = []
    for function in functions:
        at = Path(top, function.__name__)
        at.mkdir()
        scene = function(at)
        if scene.store:
            scene.store.check_days(scene.lacking)
            scene.store.check_listed()
        scenes.append(scene)
    return scenes


def state(at):
    """All that lies in a folder, as one digest: names, bytes, and which names are of one file."""
    whole, first = hashlib.sha256(), {}
    for folder, inner, names in sorted(os.walk(at)):
        whole.update(f"{os.path.relpath(folder, at)}: {sorted(inner)}\n".encode())
        for name in sorted(names):
            path = os.path.join(folder, name)
            one = first.setdefault(os.lstat(path).st_ino, os.path.relpath(path, at))
            with open(path, "rb") as file:
                whole.update(f"{name} {one} {digits(file.read())}\n".encode())
    return whole.hexdigest()


def afterwards(scene, store, answer=None):
    """What must hold after a program was stopped somewhere, or has done with this answer."""
    if scene.program == "init":
        return after_init(scene, store, answer)
    done = answer is not None and answer.status == 0
    settle(scene, store, done)
    lacking = () if done and scene.making else scene.lacking
    store.check_days(lacking)
    store.check_listed()
    check_list(store)
    if not lacking:
        store.check_back()
    again = {"day": again_day, "sweep": again_sweep, "go": again_go, "back": again_back}
    if scene.program in again:
        again[scene.program](scene, store, done)
    store.check_days()
    store.whole_sweeps()
    store.check_back()
    # And all can be got rid of.
    for machine, number in list(store.kept):
        store.go(machine, number)
    store.whole_sweeps()
    if any(os.listdir(store.at / where) for where in "pa"):
        raise Failure("something stays when all days are gone")


def settle(scene, store, done):
    """Finds out whether the day in question is there; all others must be as before."""
    names = set(day_names(store.at))
    if scene.making:
        machine, files = scene.making
        name = (machine, highest(scene.store.at, machine) + 1)
        if name in names:
            store.kept[name] = files
        elif done:
            raise Failure(f"day {machine}: was reported and is not there")
    if scene.going and scene.going not in names:
        del store.kept[scene.going]
    elif scene.going and done:
        raise Failure("go: was reported, and the day is there")


def check_list(store):
    """`list` lists just the kept days."""
    wanted = b"".join(
        b"machine %d day %d files %d bytes %d\n" % (*name, len(files), sum(map(len, files.values())))
        for name, files in sorted(store.kept.items())
    )
    out = store.did("list")
    if out != wanted:
        raise Failure(f"list: wrote {short(out)}, not {short(wanted)}")


def again_day(scene, store, done):
    machine, files = scene.making
    before = highest(store.at, machine)
    if store.day(machine, files) != before + 1:
        raise Failure(f"day {machine}: the number is not the one after {before}")


def again_sweep(scene, store, done):
    store.sweep()
    if stores.sweeper(store.at)[0] != "waits":
        raise Failure("sweep: it does not wait")


def again_go(scene, store, done):
    if scene.going in store.kept:
        store.go(*scene.going)
    answer = store.run("go", *map(str, scene.going))
    if answer.status != 1 or b"refused by 1" not in answer.err:
        raise Failure(f"go: of a day that is gone it says {answer}")


def again_back(scene, store, done):
    out = store.at.parent / "out"
    before = b"as it was before" if "replaced" in scene.name else None
    there = (out / "back.bin").read_bytes() if (out / "back.bin").exists() else None
    if there != scene.gives and (done or there != before):
        raise Failure("back: the file is neither as before nor whole")
    words, more = scene.call(store.at)
    answer = run("back", *words, **more)
    if answer.status != 0 or os.listdir(out) != ["back.bin"] or (out / "back.bin").read_bytes() != scene.gives:
        raise Failure(f"back: once more: {answer}, and {sorted(os.listdir(out))} are there")


def after_init(scene, store, answer):
    """Where it was stopped, `init` is called again; either way there is a store then that works."""
    words, more = scene.call(store.at)
    again = run("init", *words, **more)
    if again.status != 0 and not ((store.at / "machines").exists() and again.status == 1):
        raise Failure(f"init: once more: {again}")
    if answer is not None and answer.status == 0 and again.status == 0:
        raise Failure("init: was reported, and was not done")
    stores.form(store.at)
    if stores.machines(store.at) != [0, 1]:
        raise Failure(f"init: the machines are {stores.machines(store.at)}")
    store.day(0, NEW)
    store.check_days()
    store.whole_sweeps()
    store.check_back()
