#!/usr/bin/env -S python3 -B
"""Bad input to the programs, each kind with its answer: one line on standard error that says
what it concerns and what to do, with the number of the rule where one is broken, status 1,
nothing on standard output, and nothing in the store has changed but that there may be locks.
Beside what is refused stands what just works. Then damage: files of the store that are cut at
every length, have random bytes, or a bit turned round. Each program gives its answer or its
refusal; none hangs, crashes or takes much memory. How many answers were looked at is printed."""

import contextlib
import fcntl
import hashlib
import os
import random
import re
import resource
import shutil
import socket
import stat
import threading
from concurrent.futures import ThreadPoolExecutor
from pathlib import Path

from common import MAX_FILE, MAX_FILES, Failure, main, short
from stores import FOLDERS, NAMES, Store, copy_folder, folder, list_of, new_store, number_bytes, pieces_of, program, run
from stores import day_bytes, names_listed, write_tree

# A line of standard error where a program has not done what it was asked. All of it is printable ASCII.
LINE = re.compile(rb"([a-z]+): (?:refused by ([0-9]+): )?[ -~]+: [ -~]+; [ -~]+\n")

# What may appear in a store in any case.
LOCK = re.compile("/t/[0-9s]+[.]lock$")

# The most memory, in KiB, that a program may have had.
MOST_MEMORY = 400_000

NOBODY = 65_534

# The files of the days of the store that is tried; those of day 1 of machine 0 are let go.
GONE = {"a": b"old", "old": bytes(range(256)) * 30}
FIRST = {"a": b"Hello", "long/b.txt": bytes(5_000), "c": random.Random(1).randbytes(30_000), "d": b""}
OTHER = {"a": b"Hello", "z": random.Random(2).randbytes(9_000)}
# What the next day has: files that are there, and new ones.
NEXT = {**FIRST, "new": b"not there yet", "old": GONE["old"], "other": random.Random(3).randbytes(6_000)}

# Words that are no number.
NO_NUMBERS = ["x", "-1", "+1", "", " ", " 1", "1 ", "1.", "0x1", "1e1", "1,2", "²", "१", "1\n", "--", "a" * 5_000]
# Numbers of no machine, and of no day.
LARGE = ["64", "65", "255", "256", "4294967296", "18446744073709551616", "999999999999999999999", "9" * 5_000]


class Bad:
    """A copy of the store, on which bad input is tried."""

    counts = {}
    lock = threading.Lock()

    def __init__(self, top, name, base):
        self.top = top / name
        self.top.mkdir()
        self.name, self.base = name, base
        self.tree = self.top / "tree"
        write_tree(self.tree, NEXT)
        self.store = None
        self.again()

    def again(self, rests=False):
        """The store is as it was at first; where the sweeper is to rest, it waits for no machine, and so
        a sweep looks at all days."""
        if self.store:
            shutil.rmtree(self.store.at)
        self.store = self.base.copy(self.top / "store")
        if rests:
            (self.store.at / "s").unlink()

    def counted(self):
        with Bad.lock:
            Bad.counts[self.name] = Bad.counts.get(self.name, 0) + 1

    def calls(self):
        """A call of each program that works on the store as it was at first."""
        return [
            ("list", [], {}),
            ("list", ["0", "2"], {}),
            ("back", ["0", "2", "a", self.top / "had" / "back"], {}),
            ("sweep", [], {}),
            ("day", ["0", "-"], {"at": self.tree, "given": list_of(NEXT)}),
            ("go", ["1", "1"], {}),
        ]

    def no(self, number, about, name, *words, out=b"", **more):
        """The call is refused by the number, or by none, and the line has what it is about."""
        before = listing(self.store.at)
        answer = self.store.run(name, *words, **more)
        self.counted()
        refusal(name, words, answer, number, about, out)
        same(before, self.store.at, name, words)

    def yes(self, name, *words, **more):
        """The call does what it is asked; what it writes."""
        self.counted()
        return self.store.did(name, *words, **more)

    def either(self, name, *words, **more):
        """The call does what it is asked, or else nothing and says so. Whether it does."""
        before = listing(self.store.at)
        answer = self.store.run(name, *words, **more)
        self.counted()
        if answer.status == 0 and not answer.err:
            return True
        refusal(name, words, answer, (None, 1, 2, 4, 5, 6), (), answer.out if name == "list" else b"")
        same(before, self.store.at, name, words)
        return False

    def all_no(self, number, *about):
        """Each program is refused."""
        for name, words, more in self.calls():
            self.no(number, about, name, *words, **more)

    def day_no(self, number, lines, *about, **more):
        """A day of this list is refused."""
        self.no(number, about, "day", "0", "-", **{"at": self.tree, "given": lines, **more})

    def day_yes(self, lines, files):
        """A day of this list is made, with these files."""
        self.yes("day", "0", "-", at=self.tree, given=lines)
        number = max(int(name) for name in os.listdir(self.store.at / "d/0"))
        if Path(self.store.at, "d/0", str(number)).read_bytes() != day_bytes(0, number, files):
            raise Failure(f"day {short(lines)}: other files than {sorted(files)}")


def refusal(name, words, answer, number, about, out=b""):
    """The answer is a refusal of the right form: by this number, or one of these, or by none."""
    said = f"{name} {[short(os.fsencode(word)) for word in words]}: status {answer.status}, {short(answer.err)}"
    match = LINE.fullmatch(answer.err)
    if answer.status != 1 or answer.out != out or not match or match[1].decode() != name:
        raise Failure(f"{said}, out {short(answer.out)}: no line of a refusal")
    by = int(match[2]) if match[2] else None
    if by not in (number if isinstance(number, tuple) else (number,)):
        raise Failure(f"{said}: not refused by {number}")
    for one in about:
        if os.fsencode(one) not in answer.err:
            raise Failure(f"{said}: does not say '{one}'")


def listing(top):
    """All that lies in a folder, with its kind and bytes, but locks."""
    found, folders = {}, [os.fspath(top)]
    while folders:
        with os.scandir(folders.pop()) as entries:
            for entry in entries:
                if entry.is_dir(follow_symlinks=False):
                    folders.append(entry.path)
                if not LOCK.search(entry.path):
                    found[entry.path] = content(entry)
    return found


def content(entry):
    """The mode of what lies in a folder, and its bytes."""
    mode = entry.stat(follow_symlinks=False).st_mode
    if stat.S_ISREG(mode):
        with open(entry.path, "rb") as file:
            return mode, file.read()
    return mode, os.readlink(entry.path) if stat.S_ISLNK(mode) else None


def same(before, top, name, words):
    """Nothing has changed in a folder."""
    after = listing(top)
    if before != after:
        other = [path for path in before.keys() | after.keys() if before.get(path) != after.get(path)]
        raise Failure(f"{name} {words}: was refused, and changed {sorted(other)[:3]}")


def make_base(top):
    """The store that is tried: with days of two machines, and a sweep that waits, with pieces aside."""
    store = new_store(top / "base", 0, 1)
    store.day(0, GONE)
    store.day(1, OTHER)
    store.day(0, FIRST)
    store.go(0, 1)
    if store.sweep().aside < 1:
        raise Failure("the first sweep put nothing aside")
    return store


# The store.


def no_stores(bad):
    """There is no store, or what is named is none."""
    for name, words, more in bad.calls():
        for under in [], ["env", "ZELTUVA_STORE="]:
            answer = run(name, *words, under=under, **more)
            refusal(name, words, answer, None, ["--store"])
            bad.counted()
    (bad.top / "empty").mkdir()
    (bad.top / "file").write_bytes(b"0\nend\n")
    for what in "absent", "empty", "file", "file/x", "tree", "empty/../absent":
        before = listing(bad.top)
        for name, words, more in bad.calls():
            for options, under in ([f"--store={bad.top / what}"], []), ([], ["env", f"ZELTUVA_STORE={bad.top / what}"]):
                refusal(name, words, run(name, *options, *words, under=under, **more), None, [Path(what).name])
                bad.counted()
        same(before, bad.top, "all", [what])
    # The option counts, and not the environment.
    bad.yes("list", under=["env", f"ZELTUVA_STORE={bad.top / 'absent'}"])


def parts_missing(bad):
    """A store without one of its folders, or its list, or with a file in the place of a folder."""
    for what in *FOLDERS, "d/0", "d/17", "d/63":
        for place in None, b"", b"0\nend\n":
            bad.again()
            path = bad.store.at / what
            shutil.rmtree(path)
            if place is not None:
                path.write_bytes(place)
            bad.all_no(None, bad.store.at.name)
    bad.again()
    (bad.store.at / "machines").unlink()
    bad.all_no(None, "machines")
    (bad.store.at / "machines").mkdir()
    for name, words, more in bad.calls():
        if name in ("day", "sweep"):
            bad.no(None, ["machines"], name, *words, **more)
        elif name != "go":
            bad.either(name, *words, **more)


def bad_machines(bad):
    """Lists of machines that are cut or have a wrong line, and some that are right."""
    place = bad.store.at / "machines"
    good = b"# of this store\n0 herbarium\n\n1 library\nend\n"
    wrong = [good[:length] for length in range(len(good) - 1)]
    for line in b"x", b"64", b"-1", b"+2", b"0x2", b"2.", b"e", b"END", b"ends", b"end 2", b"\xff", b"9" * 20:
        wrong.append(b"0\n1\n" + line + b"\nend\n")
    wrong += [b"0\n1\n0 again\nend\n", b"0\n1\nend\nend\n", b"0\n1\nend\n5\n", b"0\n1\nend\nx", b"0\n1\nend x\n"]
    wrong += [b"0\n1\n\0\nend\n", b"0\n1\nend\0", b"0\n1\nend\n" + b"\n" * 65_536, b"#" * 65_529 + b"\n0\n1\nend"]
    for text in wrong:
        place.write_bytes(text)
        for name, words, more in bad.calls():
            if name in ("day", "sweep"):
                bad.no(None, ["machines"], name, *words, **more)
            elif name != "go":
                bad.either(name, *words, **more)
    right = [good, good[:-1], b"0\n1\nend", b"  0\n 1  library \r\n\r\n# x\nend  \r\n", b"1\n0 \xff\nend"]
    for text in [*right, b"#" * 65_528 + b"\n0\n1\nend"]:
        place.write_bytes(text)
        bad.day_yes(list_of(FIRST), FIRST)
    # A machine that is not on the list.
    for number in "0", "2", "63":
        place.write_bytes(b"1\nend\n")
        bad.no(1, [f"machine {number}"], "day", number, "-", at=bad.tree, given=list_of(NEXT))
    place.write_bytes(b"end\n")
    bad.no(1, ["machine 1"], "day", "1", "-", at=bad.tree, given=list_of(NEXT))


# The list of a day.


def lists(bad):
    """Lists that are refused as such."""
    tree = bad.tree
    for what in "absent", "absent/x", "long", "a/x":
        bad.no(None, [Path(what).name], "day", "0", what, at=tree)
    paths = ["a", "c", "d", "new"]
    for lines, number in [
        (b"a\n\nc\n", 1), (b"\n", 1), (b"\na\n", 1), (b"a\n\n", 1), (b"./\n", 1), (b"a\n./\n", 1),
        (b"c\na\n", 1), (b"a\na\n", 1), (b"a\n./a\n", 1), (b"./c\na\n", 1), (b"new\nlong/b.txt\n", 1),
        (b"A\n", None), (b"a\r\n", None), (b"a\r\nc\r\n", None), (b"a\0b\n", None), (b"a\0\n", None), (b" a\n", None),
        (b"a\n\xff\n", None), (b"a\n\xc3\n", None), (b"a\xed\xa0\x80\n", None), (b"\xc3\xa9\n", None),
    ]:
        bad.day_no(number, lines)
    bad.day_no(None, b"a\n\xff\n", r"\xff")
    bad.day_no(None, b"a\n\xc3\xa9\n", r"\xc3\xa9")
    bad.day_no(None, b"a\0b\n", r"a\x00b")
    for lines, files in [
        (b"", []), (b"a", ["a"]), (b"a\nc", ["a", "c"]), (b"./a\nc\n./d\nnew", paths), (b"a\n./c\nd\n./new\n", paths),
    ]:
        bad.day_yes(lines, {path: NEXT[path] for path in files})


def kinds_of_files(bad):
    """Lists with something that is no file, or is not there."""
    tree = bad.tree
    os.symlink("a", tree / "link")
    os.symlink("absent", tree / "link2")
    os.symlink("link3", tree / "link3")
    os.mkfifo(tree / "pipe")
    with contextlib.closing(socket.socket(socket.AF_UNIX)) as opened:
        opened.bind(str(tree / "socket"))
    kinds = ["absent", "absent/x", "a/x", "long", "link", "link2", "link3", "pipe", "socket"]
    try:
        os.mknod(tree / "device", stat.S_IFCHR | 0o666, os.makedev(1, 3))
        kinds.append("device")
    except OSError:
        kinds.append("/dev/null")
    for what in kinds:
        before, behind = (b"", b"z\n") if what.startswith("/") else (b"A\n", b"z\n")
        write_tree(tree, {"A": b"first", "z": b"last"})
        bad.day_no(None, what.encode() + b"\n", what)
        bad.day_no(None, before + what.encode() + b"\n" + behind, what)


def limits(bad):
    """The longest file, the longest path, the most files, and one more of each."""
    tree = bad.tree
    large = tree / "large"
    large.touch()
    os.truncate(large, MAX_FILE)
    said = bad.yes("day", "0", "-", at=tree, given=b"large\n")
    # The bytes 0 are one piece, which the store has.
    wanted = b"day 3\nfiles 1\nbytes 16777216\npieces 8192\nnew 0\nwritten 0\n"
    if said != wanted:
        raise Failure(f"the longest file: {said}")
    os.truncate(large, MAX_FILE + 1)
    bad.day_no(1, b"large\n", "large")
    os.truncate(large, 1 << 40)
    bad.day_no(1, b"a\nlarge\n", "large")
    for folder, name in (127, 127), (1, 253):
        path = "e" * folder + "/" + "f" * name
        longer = path + "f"
        write_tree(tree, {path: b"x", longer: b"y"})
        bad.day_yes(path.encode(), {path: b"x"})
        bad.day_yes(b"./" + path.encode(), {path: b"x"})
        for lines in longer, "./" + longer, "a\n" + longer + "\nz":
            bad.day_no(1, lines.encode())
    bad.day_no(1, b"x" * 1_000_000)
    # A list without an end, and a program that has a gigabyte to read it into.
    bad.no((None, 1), [], "day", "0", "/dev/zero", at=tree, under=["prlimit", "--as=1000000000"])
    many = {f"many/{number:04}": b"many" for number in range(MAX_FILES + 1)}
    write_tree(tree, many)
    bad.day_no(1, list_of(many))
    del many[f"many/{MAX_FILES:04}"]
    bad.day_yes(list_of(many), many)


# Words.


def words(bad):
    """Too few words or too many, and options that there are not."""
    at = {"at": bad.tree, "given": list_of(NEXT)}
    right = {"day": ["0", "-"], "list": [], "back": ["0", "2", "a"], "go": ["1", "1"], "sweep": []}
    most = {"day": 2, "list": 2, "back": 4, "go": 2, "sweep": 0}
    for name, fit in right.items():
        for count in range(len(fit)):
            bad.no(None, [], name, *fit[:count], **at)
        bad.no(None, [], name, *(fit + ["0", "0", "0", "0", "0"])[: most[name] + 1], **at)
        for option in "--x", "--Help", "-h", "--help=1", "--storex", "-s", "-", "--stor", "--progress=1", "--progressx":
            if option != "-":
                bad.no(None, [option], name, option, *fit, **at)
                bad.no(None, [option], name, *fit, option, **at)
        for last in ["--store"], ["--", "--store"], ["--", "--help"], ["--", "--progress"]:
            if len(last) == 1 or len(fit) == most[name]:
                bad.no(None, [], name, *fit, *last, **at)
        if name in ("list", "back", "go"):
            bad.no(None, ["--progress"], name, "--progress", *fit, **at)
        for word in b"\xff", b"--\xff", b"--store=\xff", b"\xc3":
            bad.no(None, [r"\xff" if b"\xff" in word else r"\xc3"], name, *fit[:-1], word, **at)
    bad.no(None, [], "list", "0")
    for program in right:
        refusal(program, [], run(program, "--store"), None, ["--store"])


def numbers(bad):
    """Words in the place of numbers that are none, or numbers of no machine or day."""
    at = {"at": bad.tree, "given": list_of(NEXT)}
    for word in NO_NUMBERS:
        for before in ([], ["--"]) if word != "--" else ([],):
            bad.no(None, [], "day", *before, word, "-", **at)
            for name, more in ("list", []), ("back", ["a"]), ("go", []):
                bad.no(None, [], name, *before, word, "2", *more)
                bad.no(None, [], name, *before, "0", word, *more)
    for word in LARGE:
        bad.no(1, [], "day", word, "-", **at)
        for name, more in ("list", []), ("back", ["a"]), ("go", []):
            bad.no(1, [], name, word, "2", *more)
            bad.no(1, [], name, "0", word, *more)
    # A word that is no number comes before a number that is too large.
    for name, more in ("list", []), ("back", ["a"]), ("go", []):
        bad.no(None, [], name, "64", "x", *more)
        bad.no(None, [], name, "x", "4294967296", *more)
        # There are no such days.
        for machine, number in ("0", "0"), ("0", "1"), ("0", "3"), ("1", "2"), ("63", "1"), ("0", "4294967295"):
            bad.no(1, [number], name, machine, number, *more)
    # Zeros in front change nothing, where they are taken.
    for machine, number in ("00", "2"), ("0", "02"), ("0" * 50, "0" * 50 + "2"):
        if bad.either("list", machine, number) and bad.yes("list", machine, number) != bad.yes("list", "0", "2"):
            raise Failure(f"list {machine} {number}: another day")


def helps(bad):
    """--help, whatever else stands there."""
    for name in NAMES:
        for more in [], ["x"], ["--x", "--progress"], ["0", "0", "0", "0", "0", "0"], ["--store", "/absent"], [b"\xff"]:
            for words in ["--help", *more], [*more, "--help"]:
                answer = run(name, *words)
                bad.counted()
                if answer.status != 0 or answer.err or name.encode() not in answer.out:
                    raise Failure(f"{name} {words}: {answer}")
                first, *lines = answer.out.decode().splitlines()
                examples = [line for line in lines if re.match(rf" .*\b{name}\b", line)]
                if not re.match(rf"{name} .*--store", first) or not examples:
                    raise Failure(f"{name} {words}: how it is called, or an example, is not in {answer.out}")
    bad.again(rests=True)
    for name in "day", "sweep":
        bad.counted()
        words = {"day": ["0", "-"], "sweep": []}[name]
        answer = bad.store.run(name, "--progress", *words, at=bad.tree, given=list_of(NEXT))
        if answer.status != 0 or not answer.err.endswith(b"\n") or not answer.out:
            raise Failure(f"{name} --progress: {answer}")


# Having files back.


def backs(bad):
    """Where a file cannot be written, or is not in the day."""
    to = bad.top / "to"
    write_tree(to, {"file": b"stays", "folder/file": b"stays, too"})
    for path in "b", "A", "aa", "long", "long/", "long/b.txt/", "", "/a", "../a", "a/", "x" * 255, "é":
        back_no(bad, 1, [], path, to / "new")
    back_no(bad, None, [r"\xff"], b"\xff", to / "new")
    for place in "file/x", "file/x/y", "folder", "", "folder/", "x" * 256, "y/" + "x" * 256:
        back_no(bad, None, [], "a", os.path.join(to, place) if place else "")
    back_no(bad, None, [], "a", b"x\xff")
    back_no(bad, None, [], "a", to / "/".join(["n" * 200] * 30))
    for place in "file", "x" * 255, "new", "made/by/back", "./dot":
        had = bad.yes("back", "0", "2", "c", place, at=to)
        if (to / place).read_bytes() != FIRST["c"] or had != b"%d %s\n" % (len(FIRST["c"]), place.encode()):
            raise Failure(f"back to {place}: {had}")
    for path in "long/b.txt", "./long/b.txt", "d":
        bad.yes("back", "0", "2", path, at=to)
        if (to / path).read_bytes() != FIRST[path.removeprefix("./")]:
            raise Failure(f"back {path}: another file")
    if list(to.rglob(".zeltuva-back")):
        raise Failure("a .zeltuva-back stays")


def back_no(bad, number, about, path, place):
    """The file is not had back, and nothing in the folder changes, but that folders may have been made."""
    to = bad.top / "to"
    before = {path: found for path, found in listing(to).items() if not stat.S_ISDIR(found[0])}
    bad.no(number, about, "back", "0", "2", path, place, at=to)
    if {path: found for path, found in listing(to).items() if not stat.S_ISDIR(found[0])} != before:
        raise Failure(f"back of {path} to {place}: was refused, and changed the folder")


def backs_of_damage(bad):
    """Pieces that are not there, or have other bytes: neither that file nor anything else is written."""
    to = bad.top / "to"
    write_tree(to, {"c": b"stays"})
    for name in sorted(pieces_of({"c": FIRST["c"]})):
        for damage in None, b"", b"x", FIRST["c"]:
            bad.again(rests=True)
            place = bad.store.at / "p" / name
            place.unlink() if damage is None else place.write_bytes(damage)
            back_no(bad, 2, [], "c", to / "c")
            bad.no(2, [], "sweep")
            bad.yes("back", "0", "2", "a", bad.top / "other")
    # What lies in the place of a piece may be anything.
    bad.again(rests=True)
    place = bad.store.at / "p" / name
    place.unlink()
    place.mkdir()
    bad.no((None, 2), [], "back", "0", "2", "c", to / "c")
    bad.no((None, 2), [], "sweep")


# Another user.


def other_user(bad):
    """What may not be read, or not be written."""
    under = []
    if os.geteuid() == 0:
        under = ["setpriv", f"--reuid={NOBODY}", f"--regid={NOBODY}", "--clear-groups"]
        for at, folders, files in os.walk(bad.top):
            for name in [".", *folders, *files]:
                os.chown(os.path.join(at, name), NOBODY, NOBODY)
    secret = bad.tree / "secret"
    secret.write_bytes(b"secret")
    secret.chmod(0)
    bad.day_no(None, b"a\nsecret\n", "secret", under=under)
    locked = bad.top / "locked"
    locked.mkdir()
    write_tree(locked, {"file": b"stays"})
    locked.chmod(0o555)
    for place in "new", "file", "folder/new":
        bad.no(None, [], "back", "0", "2", "a", locked / place, under=under)
    if (locked / "file").read_bytes() != b"stays":
        raise Failure("back has written into a folder that is only read")
    for what, name, words in ("machines", "day", ["0", "-"]), ("d/0/2", "back", ["0", "2", "a"]):
        before = listing(bad.store.at)
        (bad.store.at / what).chmod(0)
        refusal(name, words, bad.store.run(name, *words, under=under), None, [what])
        bad.counted()
        (bad.store.at / what).chmod(0o644)
        same(before, bad.store.at, name, words)
    secret.unlink()
    bad.yes("list", under=under)
    bad.yes("day", "0", "-", at=bad.tree, given=list_of(NEXT), under=under)


# Making a store.


def inits(bad):
    """Making a store where one is, or nothing can be, and going on where it was stopped."""
    bad.no(None, [bad.store.at.name], "init", "0")
    bad.no(None, [bad.store.at.name], "init", "0-63")
    top = bad.top / "inits"
    write_tree(top, {"file": b"stays"})
    before = listing(top)
    for words in [
        [], ["x"], [""], ["-1"], ["0", "0"], ["0-3", "2"], ["2", "0-3"], ["0-3", "3-5"], ["3-1"], ["0-"], ["-"],
        ["0--1"], ["1-2-3"], ["0,1"], ["0 1"], ["0", "x"], ["--x", "0"], ["--progress", "0"], [b"\xff"], ["0", ""],
    ]:
        refusal("init", words, run("init", f"--store={top / 'new'}", *words), None, [])
        bad.counted()
    for words in ["64"], ["0-64"], ["0", "64"], ["99999999999999999999999"], ["0-99999999999999999999999"]:
        refusal("init", words, run("init", "--store", top / "new", *words), (None, 1), [])
        bad.counted()
    for place in "absent/new", "file", "file/new", "x" * 256:
        refusal("init", [place], run("init", "--store", top / place, "0"), None, [])
    refusal("init", [], run("init", "0"), None, ["--store"])
    same(before, top, "init", [])
    half_made(bad, top)


def half_made(bad, top):
    """A store that was stopped while it was made is made by another call."""
    whole = new_store(top / "whole", *range(30))
    new_store(top / "all", *range(64))
    parts = sorted(path.relative_to(whole.at) for path in whole.at.rglob("*") if path.is_dir())
    for count in range(0, len(parts) + 1, 5):
        part = top / "part"
        part.mkdir()
        for path in parts[:count]:
            (part / path).mkdir()
        bad.counted()
        refusal("list", [], run("list", "--store", part), None, ["part"])
        new_store(part, 3)
        if run("list", f"--store={part}") != (0, b"", b""):
            raise Failure(f"a store that was half-made, with {count} folders")
        shutil.rmtree(part)
    for path in "p", "d/17", "t":
        part = top / "part"
        copy_folder(whole.at, part)
        (part / "machines").unlink()
        (part / path).rmdir()
        (part / path).write_bytes(b"stays")
        before = listing(part)
        refusal("init", [path], run("init", "--store", part, "0"), None, [])
        same(before, part, "init", [])
        shutil.rmtree(part)


# Rules.


def rules(bad):
    """Refusals that need a state of the store: by 2, 3, 4, 5 and 6."""
    at = {"at": bad.tree, "given": list_of(NEXT)}
    for lock, number, name, words in ("0", 3, "day", ["0", "-"]), ("s", 4, "sweep", []):
        with open(bad.store.at / f"t/{lock}.lock", "w") as file:
            fcntl.flock(file, fcntl.LOCK_EX)
            bad.no(number, [], name, *words, **at)
            bad.yes("list")
    # The highest number is used, and all that is asked about it by number is answered.
    (bad.store.at / "m/0").write_bytes(number_bytes(2**32 - 1))
    bad.yes("back", "0", "2", "a", bad.top / "a")
    refusal("day", ["0"], bad.store.run("day", "0", "-", **at), 6, ["machine 0"])
    bad.store.check_days()
    (bad.store.at / "m/0").write_bytes(number_bytes(2**32 - 2))
    if not bad.yes("day", "0", "-", **at).startswith(b"day 4294967295\n"):
        raise Failure("the highest number is not used")
    bad.no(6, [], "day", "0", "-", **at)
    # The number that is to be raised next is that of a day.
    bad.again(rests=True)
    shutil.copy(bad.store.at / "d/0/2", bad.store.at / "d/0/3")
    refusal("day", ["0"], bad.store.run("day", "0", "-", **at), 2, [])
    bad.no(2, [], "sweep")
    bad.again(rests=True)
    full_lists(bad, at)


def full_lists(bad, at):
    """No name can be listed any more, or a list is too long to be read."""
    source = random.Random(5)
    bad.yes("day", "0", "-", at=bad.tree, given=list_of(FIRST))
    bad.yes("day", "1", "-", at=bad.tree, given=list_of(FIRST))
    (bad.store.at / "i/5").write_bytes(source.randbytes(32 * 262_144))
    refusal("day", ["0"], bad.store.run("day", "0", "-", **at), 5, [])
    bad.yes("day", "0", "-", at=bad.tree, given=list_of(FIRST))
    (bad.store.at / "i/5").write_bytes(b"")
    os.truncate(bad.store.at / "i/5", 16_777_217)
    bad.no((None, 5), ["i/5"], "sweep")


# Damage.


def damaged_days(bad):
    """Day files of another form are refused by 2, and all else goes on."""
    source = random.Random(6)
    place = bad.store.at / "d/0/2"
    right = place.read_bytes()
    bad.again(rests=True)
    other = b"machine 1 day 1 files 2 bytes %d\n" % sum(map(len, OTHER.values()))
    for wrong in damaged(right, source, 11):
        place.write_bytes(wrong)
        bad.no(2, [], "list", out=other)
        for name, *words in ("list", "0", "2"), ("back", "0", "2", "a", bad.top / "a"), ("sweep",):
            bad.no(2, ["day 2"] if name != "sweep" else [], name, *words)
    place.write_bytes(b"x")
    bad.yes("day", "0", "-", at=bad.tree, given=list_of(NEXT))
    bad.yes("go", "0", "2")
    bad.yes("sweep")


def other_days(bad):
    """Day files with a right digest and anything before it: they are answered or refused."""
    source = random.Random(7)
    bad.again(rests=True)
    place = bad.store.at / "d/0/2"
    right = place.read_bytes()
    for wrong in damaged(right[:-32], source, 23):
        place.write_bytes(wrong + hashlib.sha256(wrong).digest())
        for name, *words in ("list",), ("list", "0", "2"), ("back", "0", "2", "c", bad.top / "c"):
            bad.either(name, *words)
        if bad.either("sweep"):
            bad.again(rests=True)


def damaged(right, source, every):
    """The bytes cut at every length and with one more; with bits turned round; random ones."""
    yield from (right[:length] for length in range(len(right)))
    yield right + b"\0"
    yield from (flipped(right, bit) for bit in range(0, 8 * len(right), every))
    yield from (source.randbytes(source.randrange(0, 2 * len(right))) for _ in range(60))
    yield from (source.randbytes(len(right)) for _ in range(20))
    yield bytes(len(right))


def flipped(right, bit):
    """The bytes with one bit turned round."""
    return right[: bit // 8] + bytes([right[bit // 8] ^ 1 << bit % 8]) + right[bit // 8 + 1 :]


def damaged_numbers(bad):
    """Highest numbers of another form: whatever needs them is refused."""
    source = random.Random(8)
    place = bad.store.at / "m/0"
    right = place.read_bytes()
    for wrong in damaged(right, source, 1):
        place.write_bytes(wrong)
        for name, words, more in bad.calls():
            if name in ("day", "sweep") or name == "list" and not words:
                bad.no(None, ["m/0"], name, *words, **more)
            elif name != "go":
                bad.either(name, *words, **more)
    # What a person writes there, as the page says: 1000000.
    place.write_bytes(number_bytes(1_000_000))
    if not bad.yes("day", "0", "-", at=bad.tree, given=list_of(NEXT)).startswith(b"day 1000001\n"):
        raise Failure("no day above the number that a person wrote")
    bad.yes("sweep")


def damaged_sweeper(bad):
    """What the sweeper does is kept in another form: the sweep is refused, and nothing else."""
    source = random.Random(9)
    place = bad.store.at / "s"
    for right in place.read_bytes(), b"\0" + hashlib.sha256(b"\0").digest(), b"\2" + hashlib.sha256(b"\2").digest():
        for number, wrong in enumerate(damaged(right, source, 1)):
            place.write_bytes(wrong)
            bad.no(None, [f"{bad.store.at.name}"], "sweep")
            if number % 50 == 0:
                bad.yes("list")
                bad.yes("back", "0", "2", "a", bad.top / "a")
    place.unlink()
    bad.yes("sweep")
    for plain in b"\3", b"\1", b"\0\0", b"", b"\2" + bytes(256), b"\1" + bytes(255), b"\1" + bytes(257):
        place.write_bytes(plain + hashlib.sha256(plain).digest())
        bad.no(None, [], "sweep")
    place.write_bytes(b"x")
    bad.yes("day", "0", "-", at=bad.tree, given=list_of(NEXT))
    bad.yes("go", "1", "1")


def damaged_lists(bad):
    """Lists of names that are cut or have random bytes: nobody is kept from working by a torn end, and
    what is listed behind one is read by all."""
    source = random.Random(10)
    for who in "0", "a":
        right = (bad.store.at / "i" / who).read_bytes()
        wrongs = [right[:length] for length in range(0, len(right), 3)]
        wrongs += [right + source.randbytes(length) for length in range(1, 32)]
        wrongs += [source.randbytes(source.randrange(0, 600)) for _ in range(30)]
        for wrong in wrongs:
            bad.again()
            (bad.store.at / "i" / who).write_bytes(wrong)
            damaged_list(bad, who, wrong, right)


def damaged_list(bad, who, wrong, right):
    """One list with other bytes: all programs work, and the names that they add stand on their places."""
    store = bad.store
    bad.yes("list")
    said = bad.yes("day", "0", "-", at=bad.tree, given=list_of(NEXT))
    store.kept[0, int(said.split()[1])] = NEXT
    new = set(pieces_of(NEXT)) - set(pieces_of({**FIRST, **OTHER}))
    missing = new - set(names_listed(store.at, "0"))
    if missing:
        raise Failure(f"i/{who} of {len(wrong)} bytes: {missing.pop()} was written, and is not listed")
    if who == "0" and not (store.at / "i/0").read_bytes().startswith(wrong[: len(wrong) // 32 * 32]):
        raise Failure(f"i/0 of {len(wrong)} bytes: the names in it have not stayed")
    bad.yes("day", "1", "-", at=bad.tree, given=list_of(FIRST))
    bad.yes("sweep")
    bad.yes("back", "0", "2", "c", bad.top / "c")
    if (bad.top / "c").read_bytes() != FIRST["c"]:
        raise Failure(f"i/{who} of {len(wrong)} bytes: another file is had back")
    if wrong.startswith(right):
        store.check_listed()
    bad.yes("go", "0", "2")


SECTIONS = [
    damaged_lists, damaged_sweeper, damaged_days, other_days, damaged_numbers, bad_machines, no_stores, parts_missing,
    lists, kinds_of_files, limits, words, numbers, helps, backs, backs_of_damage, other_user, inits, rules,
]


def use_copies(top):
    """Copies of the programs are run, which another user may run, too."""
    top.chmod(0o755)
    (top / "bin").mkdir()
    for name in NAMES:
        shutil.copy(program(name), top / "bin" / name)
    os.environ["PROGRAMS"] = str(top / "bin")
    program.cache_clear()


def test():
    with folder() as top:
        use_copies(top)
        base = make_base(top)
        with ThreadPoolExecutor(4) as pool:
            jobs = [pool.submit(section, Bad(top, section.__name__, base)) for section in SECTIONS]
        for section, job in zip(SECTIONS, jobs):
            if job.exception():
                print(f"{section.__name__}: {job.exception()}")
        for job in jobs:
            job.result()
    memory = resource.getrusage(resource.RUSAGE_CHILDREN).ru_maxrss
    if memory > MOST_MEMORY:
        raise Failure(f"a program had {memory} KiB of memory")
    counts = Bad.counts
    print(f"{sum(counts.values())} answers, of no program with more than {memory // 1024} MiB of memory")
    print(", ".join(f"{name} {count}" for name, count in sorted(counts.items())))


main(test)
