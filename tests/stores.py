"""Stores in folders, for the tests of the programs: making them, running programs on them,
reading the medium, and checks of what lies there. The medium is read here by docs/FOLDER.md
and docs/DAYS.md, without the programs, so that these may be tested by it.

The environment variable PROGRAMS names the folder that the programs lie in (target/bin,
where it is not set). Stores are made in memory, in /dev/shm, where that is there.

    with folder() as top:
        store = new_store(top / "store", 0, 1)
        store.day(0, {"a.txt": b"Hello"})       makes a day of these files; its number
        store.go(0, 1)                          lets it go
        store.sweep()                           a Swept: what it moved, and for whom it waits
        store.run("list")                       an Answer: status, out, err
        store.check_days()                      every kept day is whole on the medium
        store.check_back()                      and `back` gives each of its files
        store.whole_sweeps()                    nothing stays that no day has

`store.kept` has the days that are to be there: {(machine, number): {path: bytes}}."""

import contextlib
import functools
import hashlib
import os
import shutil
import subprocess
import tempfile
from pathlib import Path
from typing import NamedTuple

from common import TOP, Failure, day_file, listed, short
from common import pieces as cut

NAMES = ["init", "day", "list", "back", "go", "sweep"]
FOLDERS = ["p", "a", "i", "m", "d", "t"]
MACHINES = 64

# Seconds that a program may take.
LIMIT = 60


class Answer(NamedTuple):
    status: int
    out: bytes
    err: bytes


class Swept(NamedTuple):
    aside: int
    back: int
    away: int
    waits: list


@functools.cache
def program(name):
    """The path of a program."""
    path = Path(os.environ.get("PROGRAMS") or TOP / "target/bin").absolute() / name
    if not os.access(path, os.X_OK):
        raise Failure(f"no program at {path}: run tools/build first")
    return path


@contextlib.contextmanager
def folder():
    """A new folder, in memory where that can be had, which is removed at the end."""
    memory = "/dev/shm"
    made = tempfile.mkdtemp(prefix="zeltuva-", dir=memory if os.access(memory, os.W_OK) else None)
    try:
        yield Path(made)
    finally:
        shutil.rmtree(made, ignore_errors=True)


def run(name, *words, at=None, given=b"", under=(), limit=LIMIT):
    """What a program answers: `at` is the folder it runs in, `given` its standard input,
    `under` a command that it runs under."""
    running = start(name, *words, at=at, under=under)
    try:
        out, err = running.communicate(given, timeout=limit)
    except subprocess.TimeoutExpired:
        running.kill()
        running.communicate()
        raise Failure(f"{name}: not done after {limit} s") from None
    return Answer(running.returncode, out, err)


def start(name, *words, at=None, under=()):
    """A program that is started, with pipes."""
    environment = {key: word for key, word in os.environ.items() if key != "ZELTUVA_STORE"}
    pipes = {stream: subprocess.PIPE for stream in ("stdin", "stdout", "stderr")}
    return subprocess.Popen([*under, program(name), *words], cwd=at, env=environment, **pipes)


def write_tree(at, files):
    """Writes files, given as {path: bytes}, into a folder that is new or has none of other names."""
    for path, content in files.items():
        place = Path(at, path)
        place.parent.mkdir(parents=True, exist_ok=True)
        place.write_bytes(content)
    Path(at).mkdir(parents=True, exist_ok=True)


def list_of(files):
    """The list of these files, for `day`: their paths, byte by byte in order."""
    return b"".join(path + b"\n" for path in sorted(os.fsencode(path) for path in files))


def digits(content):
    """The name of a piece, in digits."""
    return hashlib.sha256(content).hexdigest()


@functools.cache
def file_pieces(content):
    """The pieces of a file."""
    return tuple(cut(content))


@functools.cache
def file_listed(path, content):
    return listed(path, content)


def pieces_of(files):
    """The pieces of the files of a day, as {digits: bytes}."""
    return {digits(piece): piece for content in files.values() for piece in file_pieces(content)}


def day_bytes(machine, number, files):
    """The day file of a day of these files."""
    named = sorted((os.fsencode(path), content) for path, content in files.items())
    return day_file(machine, number, [file_listed(path, content) for path, content in named])


# Reading the medium.


def highest(store, machine):
    """The number in m/M, or 0."""
    try:
        content = Path(store, "m", str(machine)).read_bytes()
    except FileNotFoundError:
        return 0
    if len(content) != 36 or hashlib.sha256(content[:4]).digest() != content[4:]:
        raise Failure(f"m/{machine} has not the form")
    return int.from_bytes(content[:4], "big")


def number_bytes(number):
    """What m/M is to have for a number."""
    plain = number.to_bytes(4, "big")
    return plain + hashlib.sha256(plain).digest()


def sweeper(store):
    """What s says: ("rests",), ("waits", [64 numbers]) or ("ends",)."""
    try:
        content = Path(store, "s").read_bytes()
    except FileNotFoundError:
        return ("rests",)
    plain, digest = content[:-32], content[-32:]
    if hashlib.sha256(plain).digest() != digest or len(plain) != {0: 1, 1: 257, 2: 1}.get(plain[0]):
        raise Failure("s has not the form")
    if plain[0] == 1:
        return ("waits", [int.from_bytes(plain[at : at + 4], "big") for at in range(1, 257, 4)])
    return ("rests",) if plain[0] == 0 else ("ends",)


def sweeper_bytes(what):
    """What s is to have for what the sweeper does, as `sweeper` gives it."""
    plain = bytes([["rests", "waits", "ends"].index(what[0])])
    if what[0] == "waits":
        plain += b"".join(number.to_bytes(4, "big") for number in what[1])
    return plain + hashlib.sha256(plain).digest()


def names_listed(store, who):
    """The names in i/M, or in i/a, in digits; a torn end counts for nothing."""
    try:
        content = Path(store, "i", str(who)).read_bytes()
    except FileNotFoundError:
        return []
    return [content[at : at + 32].hex() for at in range(0, len(content) - 31, 32)]


def all_lists(store):
    """All lists that there are, as {who: [digits]}."""
    return {who: names_listed(store, who) for who in os.listdir(Path(store, "i"))}


def machines(store):
    """The numbers in the list of machines."""
    lines = [line.strip() for line in Path(store, "machines").read_text().split("\n")]
    lines = [line for line in lines if line and not line.startswith("#")]
    if not lines or lines[-1] != "end":
        raise Failure("the list of machines has no end")
    return [int(line.split(" ")[0]) for line in lines[:-1]]


def read_day(content, machine, number):
    """A day file as its files: [(path, length, [digits])]."""
    place = 0

    def take(count):
        nonlocal place
        if place + count > len(content):
            raise Failure(f"d/{machine}/{number} ends too early")
        place += count
        return content[place - count : place]

    if take(6) != bytes([68, machine]) + number.to_bytes(4, "big"):
        raise Failure(f"d/{machine}/{number} begins with other bytes")
    files = []
    for _ in range(int.from_bytes(take(2), "big")):
        path = take(take(1)[0])
        length = int.from_bytes(take(4), "big")
        files.append((path, length, [take(32).hex() for _ in range(int.from_bytes(take(2), "big"))]))
    if take(32) != hashlib.sha256(content[: place - 32]).digest() or place != len(content):
        raise Failure(f"d/{machine}/{number} has another digest, or more bytes")
    return files


def day_names(store):
    """The names of all days that there are, as (machine, number)."""
    found = []
    for machine in range(MACHINES):
        for name in os.listdir(Path(store, "d", str(machine))):
            if not (name.isascii() and name.isdigit() and name[0] != "0" and int(name) < 2**32):
                raise Failure(f"there is a d/{machine}/{name}")
            found.append((machine, int(name)))
    return sorted(found)


def days(store):
    """All days that there are, as {(machine, number): [(path, length, [digits])]}."""
    return {
        (machine, number): read_day(Path(store, "d", str(machine), str(number)).read_bytes(), machine, number)
        for machine, number in day_names(store)
    }


def piece(store, name):
    """The bytes of a piece, from its place or from aside, or None where neither are of its name."""
    for where in ("p", "a"):
        try:
            content = Path(store, where, name).read_bytes()
        except FileNotFoundError:
            continue
        if digits(content) == name:
            return content
    return None


def file_on_medium(store, machine, number, path):
    """The bytes of a file of a day, joined of its pieces, or None where there is no such file."""
    content = Path(store, "d", str(machine), str(number)).read_bytes()
    for found, length, names in read_day(content, machine, number):
        if found == os.fsencode(path):
            parts = [piece(store, name) for name in names]
            if None in parts:
                raise Failure(f"day {number} of machine {machine}: a piece of {path} is not there")
            whole = b"".join(parts)
            if len(whole) != length:
                raise Failure(f"day {number} of machine {machine}: {path} has {len(whole)} bytes, not {length}")
            return whole
    return None


def form(store):
    """All that lies in the store is where docs/FOLDER.md says, and m/M and s have the form."""
    there = set(os.listdir(store)) - {"s"}
    if there != {*FOLDERS, "machines"}:
        raise Failure(f"in the store's folder are {sorted(there)}")
    numbers = {str(number) for number in range(MACHINES)}
    if set(os.listdir(Path(store, "d"))) != numbers:
        raise Failure("in d are other folders than those of the machines")
    for where in ("p", "a"):
        for name in os.listdir(Path(store, where)):
            if len(name) != 64 or set(name) - set("0123456789abcdef"):
                raise Failure(f"there is a {where}/{name}")
    locks = {f"{who}.lock" for who in numbers | {"s"}}
    for where, allowed in (("i", numbers | {"a"}), ("m", numbers), ("t", numbers | {"s"} | locks)):
        if set(os.listdir(Path(store, where))) - allowed:
            raise Failure(f"in {where} are {sorted(os.listdir(Path(store, where)))}")
    for machine in os.listdir(Path(store, "m")):
        highest(store, machine)
    sweeper(store)


class Store:
    """A store in a folder, and its kept days."""

    def __init__(self, at, kept=None):
        self.at = Path(at)
        self.kept = dict(kept or {})
        self.trees = self.at.parent / (self.at.name + ".trees")

    def copy(self, at):
        """A copy of the store in a new folder, with the same kept days."""
        copy_folder(self.at, at)
        return Store(at, self.kept)

    def run(self, name, *words, **more):
        return run(name, "--store", self.at, *words, **more)

    def did(self, name, *words, **more):
        """What a program writes that does what it was asked."""
        answer = self.run(name, *words, **more)
        call = " ".join([name, *[os.fsdecode(word) for word in words]])
        if answer.status != 0:
            raise Failure(f"{call}: status {answer.status}: {short(answer.err)}")
        if answer.err:
            raise Failure(f"{call}: all went well, and it wrote {short(answer.err)} to standard error")
        return answer.out

    def day(self, machine, files, **more):
        """Makes a day of files; what is written must be as docs/PROGRAMS.md says. Its number."""
        words, more = self.day_call(machine, files, **more)
        out = self.did(*words, **more).decode().split("\n")
        said = [line.split(" ") for line in out[:-1]]
        if [line[0] for line in said] != ["day", "files", "bytes", "pieces", "new", "written"] or out[-1]:
            raise Failure(f"day {machine}: wrote {out}")
        number, count, length, pieces, new, written = [int(line[1]) for line in said]
        wanted = (len(files), sum(map(len, files.values())), sum(len(file_pieces(one)) for one in files.values()))
        if (count, length, pieces) != wanted:
            raise Failure(f"day {machine}: files, bytes and pieces are {(count, length, pieces)}, not {wanted}")
        if new > pieces or written > length or (new == 0) != (written == 0):
            raise Failure(f"day {machine}: {new} new pieces of {pieces}, {written} bytes of {length}")
        if (machine, number) in self.kept:
            raise Failure(f"day {machine}: the number {number} is that of a kept day")
        self.kept[machine, number] = dict(files)
        return number

    def day_call(self, machine, files, **more):
        """The words and the folder and input of a call of `day`, whose files are written."""
        shutil.rmtree(self.trees, ignore_errors=True)
        write_tree(self.trees, files)
        return ["day", str(machine), "-"], {"at": self.trees, "given": list_of(files), **more}

    def go(self, machine, number, **more):
        """Lets a day go."""
        out = self.did("go", str(machine), str(number), **more)
        if out != b"day %d of machine %d is let go\n" % (number, machine):
            raise Failure(f"go {machine} {number}: wrote {short(out)}")
        self.kept.pop((machine, number), None)

    def sweep(self, **more):
        """One call of `sweep`."""
        out = self.did("sweep", **more).decode().split("\n")
        begins = ["put aside ", "put back ", "thrown away "]
        if len(out) != 5 or out[4] or not all(line.startswith(begin) for line, begin in zip(out, begins)):
            raise Failure(f"sweep: wrote {out}")
        counts = [int(line[len(begin) :]) for line, begin in zip(out, begins)]
        if out[3] == "rests":
            return Swept(*counts, [])
        if not out[3].startswith("waits for "):
            raise Failure(f"sweep: wrote {out}")
        return Swept(*counts, [int(word) for word in out[3].split(" ")[2:]])

    def back(self, machine, number, path):
        """A file that `back` writes."""
        at = self.at.parent / (self.at.name + ".back")
        self.did("back", str(machine), str(number), path, at)
        content = at.read_bytes()
        at.unlink()
        return content

    def files(self):
        """All files of all kept days: (machine, number, path, bytes)."""
        for (machine, number), files in self.kept.items():
            for path, content in files.items():
                yield machine, number, path, content

    def check_days(self, lacking=()):
        """Just the kept days are there, each day file is byte for byte what it is to be, and
        each piece is in its place or aside, but those of `lacking`, in digits."""
        form(self.at)
        names = day_names(self.at)
        if names != sorted(self.kept):
            raise Failure(f"there are the days {names}, not {sorted(self.kept)}")
        for (machine, number), files in self.kept.items():
            if Path(self.at, "d", str(machine), str(number)).read_bytes() != day_bytes(machine, number, files):
                raise Failure(f"d/{machine}/{number} has other bytes")
            if highest(self.at, machine) < number:
                raise Failure(f"machine {machine} has a day {number}, and m/{machine} is lower")
            for name in pieces_of(files):
                if name not in lacking and piece(self.at, name) is None:
                    raise Failure(f"day {number} of machine {machine} lacks the piece {name}")
        if not lacking:
            for machine, number, path, content in self.files():
                if file_on_medium(self.at, machine, number, path) != content:
                    raise Failure(f"day {number} of machine {machine}: {path} is another file")

    def check_listed(self):
        """Whatever lies in a place is in some list, and whatever lies aside in the sweeper's."""
        lists = all_lists(self.at)
        names = {name for found in lists.values() for name in found}
        for where, allowed in (("p", names), ("a", set(lists.get("a", [])))):
            missing = set(os.listdir(self.at / where)) - allowed
            if missing:
                raise Failure(f"{where}/{missing.pop()} is in no list that is looked at for it")

    def check_back(self):
        """Each file of each kept day comes back by `back`, to the last byte."""
        for machine, number, path, content in self.files():
            if self.back(machine, number, path) != content:
                raise Failure(f"day {number} of machine {machine}: back gives another file for {path}")

    def check_clean(self):
        """Nothing is there that no day has: in p and a only pieces of days, in t only locks."""
        pieces = {name for files in self.kept.values() for name in pieces_of(files)}
        for where in ("p", "a"):
            others = set(os.listdir(self.at / where)) - pieces
            if others:
                raise Failure(f"{where}/{others.pop()} stays, and no day has it")
        others = [name for name in os.listdir(self.at / "t") if not name.endswith(".lock")]
        if others:
            raise Failure(f"t/{others[0]} stays")

    def whole_sweeps(self):
        """A day of every machine on the list and a sweep, twice, from whatever the sweeper does:
        the first ends what is under way and begins a sweep, and the second ends that. Then
        nothing stays that no day has, and every kept day is whole."""
        for _ in range(2):
            for machine in machines(self.at):
                self.day(machine, {})
            self.sweep()
        self.check_days()
        self.check_listed()
        self.check_clean()


def new_store(at, *numbers):
    """A store that `init` makes, with these machines on its list."""
    out = run("init", "--store", at, *map(str, numbers))
    if out != (0, b"store %s\nmachines %d\n" % (os.fsencode(at), len(numbers)), b""):
        raise Failure(f"init: answered {out}")
    form(at)
    if machines(at) != sorted(numbers):
        raise Failure(f"init: the machines are {machines(at)}")
    return Store(at)


def copy_folder(one, other):
    """A copy of a folder, in which two names of one file are two names of one file again."""
    seen = {}
    os.mkdir(other)
    for entry in os.scandir(one):
        copy_entry(entry, os.path.join(other, entry.name), seen)


def copy_entry(entry, to, seen):
    if entry.is_dir(follow_symlinks=False):
        os.mkdir(to)
        for inner in os.scandir(entry.path):
            copy_entry(inner, os.path.join(to, inner.name), seen)
        return
    inode = entry.inode()
    if inode in seen:
        os.link(seen[inode], to)
        return
    seen[inode] = to
    with open(entry.path, "rb") as source, open(to, "wb") as target:
        target.write(source.read())
