"""What a power cut leaves (docs/FOLDER.md), made executable: the system calls of a run are
recorded, played on a model of the medium that knows which changes a sync has made durable,
and for each moment the states are given that a power cut could leave then.

The model is deliberately more forgetful than any one file system: each change that is not
durable may be undone, whichever others are not. What a sync makes durable:

 - the sync of a file: its bytes and its length, as they are then;
 - the sync of a folder: each name that a file or folder was given there, or lost there. That
   a file was given another name is one change, durable with the sync of the folder of the
   new name."""

import hashlib
import os
import re
import shutil
import signal
import subprocess
import time
from dataclasses import dataclass, field

from common import Failure, short

ROOT = 0

# Seconds that a recorded run may take.
TIME_LIMIT = 60

# The calls that are recorded: those that open, change or sync files, or move in them.
CALLS = (
    "open openat creat close dup dup2 dup3 fcntl chdir fchdir read readv lseek write pwrite64 writev pwritev"
    " truncate ftruncate rename renameat renameat2 link linkat unlink unlinkat mkdir mkdirat rmdir"
    " fsync fdatasync sync syncfs"
).split()

# Calls by which a program could change a file, or do things, that the model does not follow.
# A program that uses one is not tested, and that is said.
UNKNOWN = (
    "openat2 symlink symlinkat copy_file_range sendfile splice fallocate pwritev2 io_uring_setup vfork fork"
).split()


class State:
    """What lies on the medium: the entries of each folder, and the bytes of each file. Files
    and folders are known by numbers, so a file may have two names."""

    def __init__(self, folders=None, files=None):
        self.folders = folders or {ROOT: {}}
        self.files = files or {}
        self.mine = set()

    def copy(self):
        return State(dict(self.folders), dict(self.files))

    def entries(self, folder):
        """The entries of a folder, to be changed; a copy is made once, since states share them."""
        if folder not in self.mine:
            self.folders[folder] = dict(self.folders.get(folder, {}))
            self.mine.add(folder)
        return self.folders[folder]

    def find(self, path):
        """What lies under a path from the root, or nothing."""
        node = ROOT
        for part in path.split(b"/") if path else []:
            node = self.folders.get(node, {}).get(part)
            if node is None:
                return None
        return node

    def folder(self, path):
        """The entries of the folder with this path, to be read; nothing if there is none."""
        node = self.find(path)
        return None if node is None else self.folders.get(node)

    def read(self, path):
        """The bytes of the file with this path, or nothing."""
        node = self.find(path)
        return None if node is None else self.files.get(node)

    def walk(self, node=ROOT, path=b""):
        """Each name that can be come to, with what it is the name of."""
        for name, inner in sorted(self.folders[node].items()):
            inner_path = path + b"/" + name if path else name
            yield inner_path, inner
            if inner in self.folders:
                yield from self.walk(inner, inner_path)

    def print(self):
        """A value that two states have in common only if they are the same for every reader."""
        seen = {}
        return tuple(
            (path, self.files.get(node), seen.setdefault(node, path)) for path, node in self.walk()
        )

    def write_out(self, top):
        """Makes the state in a real folder, with second names as such."""
        os.makedirs(top)
        top = os.fsencode(top)
        places = {}
        for path, node in self.walk():
            place = top + b"/" + path
            if node in self.folders:
                os.mkdir(place)
            elif node in places:
                os.link(places[node], place)
            else:
                places[node] = place
                with open(place, "wb") as file:
                    file.write(self.files[node])


# The changes. Each says by `node` what has to be synced for it to last, and by `part` which
# of its bytes are kept, where it may be kept in part.


@dataclass(eq=False)
class Bytes:
    """Bytes written to a file."""

    node: int
    at: int
    new: bytes

    def apply(self, state, part=None):
        new = self.new
        if part == "zeros":
            new = bytes(len(new))
        elif part is not None:
            new = new[:part]
        old = state.files.get(self.node, b"")
        if new:
            state.files[self.node] = old[: self.at].ljust(self.at, b"\0") + new + old[self.at + len(new) :]


@dataclass(eq=False)
class Length:
    """A file cut, or made longer by bytes 0."""

    node: int
    length: int

    def apply(self, state, part=None):
        state.files[self.node] = state.files.get(self.node, b"")[: self.length].ljust(self.length, b"\0")


@dataclass(eq=False)
class Name:
    """A name given in a folder, to a new file, as a second name, or to a new folder."""

    node: int
    name: bytes
    given: int
    is_folder: bool

    def apply(self, state, part=None):
        state.entries(self.node)[self.name] = self.given
        if self.is_folder:
            state.folders.setdefault(self.given, {})
        else:
            state.files.setdefault(self.given, b"")


@dataclass(eq=False)
class NoName:
    """A name removed from a folder."""

    node: int
    name: bytes

    def apply(self, state, part=None):
        state.entries(self.node).pop(self.name, None)


@dataclass(eq=False)
class Rename:
    """A file's name given up for another one."""

    node: int
    name: bytes
    given: int
    old_folder: int
    old_name: bytes

    def apply(self, state, part=None):
        state.entries(self.old_folder).pop(self.old_name, None)
        state.entries(self.node)[self.name] = self.given
        state.files.setdefault(self.given, b"")


@dataclass(eq=False)
class Step:
    """Something that a recorded run did: a change, a sync of `node` (of everything if there is
    none), or that it told its success. The label is for people, and for those who look for a moment."""

    kind: str
    label: str
    change: object = None
    node: int = None
    call: str = None


class Disk:
    """The medium while programs run: what is durable, and the changes since, in their order."""

    def __init__(self, base=None, changes=(), durable=(), next_node=1):
        self.base = base or State()
        self.changes = list(changes)
        self.durable = list(durable)
        self.next_node = next_node
        self.now = self.base.copy()
        for change in self.changes:
            change.apply(self.now)

    def copy(self):
        return Disk(self.base, self.changes, self.durable, self.next_node)

    def new_node(self):
        self.next_node += 1
        return self.next_node - 1

    def do(self, step):
        if step.kind == "change":
            self.changes.append(step.change)
            self.durable.append(False)
            step.change.apply(self.now)
            given = getattr(step.change, "given", 0)
            self.next_node = max(self.next_node, given + 1)
        elif step.kind == "sync":
            for at, change in enumerate(self.changes):
                if step.node is None or change.node == step.node:
                    self.durable[at] = True
            self.fold()

    def fold(self):
        """Durable changes with none before them that may be undone are part of the base."""
        count = self.durable.index(False) if False in self.durable else len(self.durable)
        if count:
            self.base = self.base.copy()
            for change in self.changes[:count]:
                change.apply(self.base)
            del self.changes[:count], self.durable[:count]

    def pending(self):
        """The places of the changes that may be undone."""
        return [at for at, durable in enumerate(self.durable) if not durable]

    def left(self, kept):
        """The state in which, of the changes that may be undone, just these are kept; each with
        how much of its bytes is, which is nothing for all."""
        state = self.base.copy()
        for at, change in enumerate(self.changes):
            if self.durable[at]:
                change.apply(state)
            elif at in kept:
                change.apply(state, kept[at])
        return state

    def after_cut(self, chance, count, parts=2):
        """The states that a power cut could leave now: nothing is kept, or all; each change alone
        is kept or lost; some at random; and bytes kept in part."""
        pending = self.pending()
        whole = dict.fromkeys(pending)
        yield {}
        if not pending:
            return
        yield whole
        for at in pending:
            if len(pending) > 1:
                yield {at: None}
                yield {other: None for other in pending if other != at}
            change = self.changes[at]
            if isinstance(change, Bytes):
                for part in some_parts(change.new, chance, parts):
                    yield {at: part}
                    yield {**whole, at: part}
                    yield {other: None for other in pending if other <= at} | {at: part}
        for _ in range(count if len(pending) > 2 else 0):
            share = chance.random()
            kept = {at: None for at in pending if chance.random() < share}
            for at in kept:
                change = self.changes[at]
                if isinstance(change, Bytes) and chance.random() < 0.3:
                    kept[at] = chance.choice(some_parts(change.new, chance, 1))
            yield kept


def some_parts(new, chance, count):
    """Ways in which bytes are kept in part: room for them and no bytes, or cut somewhere."""
    parts = ["zeros"]
    if len(new) > 1:
        parts += [chance.randrange(1, len(new)) for _ in range(count)]
    return parts


def durable(state):
    """The medium that is in this state, all of it durable."""
    return Disk(state, next_node=1 + max([*state.folders, *state.files]))


def from_folder(top):
    """The medium that a real folder is, all of it durable."""
    disk, nodes = Disk(), {}

    def take(place, node):
        for entry in os.scandir(place):
            about = entry.stat(follow_symlinks=False)
            is_folder = entry.is_dir(follow_symlinks=False)
            inner = nodes.setdefault(about.st_ino, None)
            if inner is None:
                inner = nodes[about.st_ino] = disk.new_node()
                if not is_folder:
                    with open(entry.path, "rb") as file:
                        disk.base.files[inner] = file.read()
            disk.base.entries(node)[entry.name] = inner
            if is_folder:
                disk.base.entries(inner)
                take(entry.path, inner)

    take(os.fsencode(top), ROOT)
    return Disk(disk.base, next_node=disk.next_node)


# Recording.

LINE = re.compile(r"^(\d+) +(\w+)\((.*)\) += (-?\d+|\?|0x[0-9a-f]+)(?: .*)?$")
UNFINISHED = re.compile(r"^(\d+) +(\w+\(.*) <unfinished \.\.\.>$")
RESUMED = re.compile(r"^(\d+) +<\.\.\. \w+ resumed>(.*)$")
STRING = re.compile(r'"((?:\\x[0-9a-f]{2})*)"(\.\.\.)?')


@dataclass
class Call:
    name: str
    words: list
    strings: list
    result: int


def calls(log):
    """The calls in a log of strace, in the order in which they ended."""
    begun = {}
    for line in log.splitlines():
        if match := UNFINISHED.match(line):
            begun[match[1]] = match[2]
            continue
        if match := RESUMED.match(line):
            line = f"{match[1]} {begun.pop(match[1])}{match[2]}"
        match = LINE.match(line)
        if not match:
            if "(" in line and "+++" not in line and "---" not in line:
                raise Failure(f"a line of strace that is not understood: {line[:200]}")
            continue
        strings = STRING.findall(match[3])
        if any(cut for _, cut in strings):
            raise Failure(f"strace cut a string: {line[:200]}")
        if match[4] == "?":
            continue
        strings = [bytes.fromhex(text.replace("\\x", "")) for text, _ in strings]
        words = STRING.sub('"', match[3]).split(", ")
        yield Call(match[2], words, strings, int(match[4], 0))


@dataclass
class Open:
    """An open file: what it is, or nothing where it lies outside; its path; where it is read and written."""

    node: int
    path: bytes
    append: bool = False
    at: int = 0


class Player:
    """Plays calls on a medium, and notes the steps."""

    def __init__(self, disk, top, place):
        self.disk = disk
        self.top = os.fsencode(os.path.realpath(top))
        self.place = os.fsencode(os.path.realpath(place))
        self.open = {}
        self.steps = []
        self.call = None

    def step(self, kind, label, change=None, node=None):
        step = Step(kind, label.decode("ascii", "backslashreplace"), change, node, self.call)
        self.disk.do(step)
        self.steps.append(step)

    def path(self, name, folder="AT_FDCWD"):
        """The path from the root of the medium; nothing if it is outside."""
        if folder != "AT_FDCWD" and not name.startswith(b"/"):
            if int(folder) not in self.open:
                raise Failure(f"a path from a folder that is not known: {short(name)}")
            start = self.open[int(folder)].path
        else:
            start = self.place
        whole = os.path.normpath(os.path.join(start, name))
        if whole.startswith(b"/proc/self/fd"):
            raise Failure("a file is named by /proc/self/fd")
        if whole == self.top:
            return b""
        return whole[len(self.top) + 1 :] if whole.startswith(self.top + b"/") else None

    def entry(self, path):
        """The folder in which a path ends, and its last name."""
        folder, _, name = path.rpartition(b"/")
        node = self.disk.now.find(folder)
        if node is None:
            raise Failure(f"the model has no folder {short(folder)}")
        return node, name

    def play(self, call):
        if call.result < 0:
            return
        if call.name in UNKNOWN:
            raise Failure(f"the model does not know what {call.name} does")
        self.call = call.name
        getattr(self, "do_" + call.name)(call)

    def opened(self, name, folder, flags, result):
        path = self.path(name, folder)
        if path is None:
            self.open[result] = Open(None, os.path.normpath(os.path.join(self.place, name)))
            return
        if "O_TMPFILE" in flags:
            raise Failure("the model does not know files without names")
        node = self.disk.now.find(path)
        if node is None:
            folder, last = self.entry(path)
            node = self.disk.new_node()
            self.step("change", b"make " + path, Name(folder, last, node, False))
        elif "O_TRUNC" in flags and self.disk.now.files[node]:
            self.step("change", b"cut " + path, Length(node, 0))
        self.open[result] = Open(node, self.top + b"/" + path if path else self.top, "O_APPEND" in flags)

    def do_open(self, call):
        self.opened(call.strings[0], "AT_FDCWD", call.words[1].split("|"), call.result)

    def do_creat(self, call):
        self.opened(call.strings[0], "AT_FDCWD", ["O_CREAT", "O_TRUNC"], call.result)

    def do_openat(self, call):
        self.opened(call.strings[0], call.words[0], call.words[2].split("|"), call.result)

    def do_close(self, call):
        self.open.pop(int(call.words[0]), None)

    def do_dup(self, call):
        if int(call.words[0]) in self.open:
            self.open[call.result] = self.open[int(call.words[0])]

    do_dup2 = do_dup3 = do_dup

    def do_fcntl(self, call):
        if call.words[1].startswith("F_DUPFD"):
            self.do_dup(call)

    def do_chdir(self, call):
        self.place = os.path.normpath(os.path.join(self.place, call.strings[0]))

    def do_fchdir(self, call):
        self.place = self.open[int(call.words[0])].path

    def file(self, call):
        """The open file inside the medium that a call is about, or nothing."""
        file = self.open.get(int(call.words[0]))
        return file if file and file.node is not None else None

    def do_read(self, call):
        if file := self.file(call):
            file.at += call.result

    do_readv = do_read

    def do_lseek(self, call):
        if file := self.file(call):
            file.at = call.result

    def write(self, call, new, at=None):
        new = new[: call.result]
        if int(call.words[0]) == 1 and 1 not in self.open:
            self.step("told", b"told")
        file = self.file(call)
        if not file or not new:
            return
        length = len(self.disk.now.files[file.node])
        if file.append:
            at = length
        elif at is None:
            at = file.at
            file.at += len(new)
        self.step("change", b"write " + file.path[len(self.top) + 1 :], Bytes(file.node, at, new))

    def do_write(self, call):
        self.write(call, call.strings[0])

    def do_writev(self, call):
        self.write(call, b"".join(call.strings))

    def do_pwrite64(self, call):
        self.write(call, call.strings[0], int(call.words[3]))

    def do_pwritev(self, call):
        self.write(call, b"".join(call.strings), int(call.words[-1]))

    def do_ftruncate(self, call):
        if file := self.file(call):
            self.step("change", b"cut " + file.path[len(self.top) + 1 :], Length(file.node, int(call.words[1])))

    def do_truncate(self, call):
        path = self.path(call.strings[0])
        if path is not None:
            self.step("change", b"cut " + path, Length(self.disk.now.find(path), int(call.words[1])))

    def renamed(self, old, new):
        if old is None and new is None:
            return
        if old is None or new is None:
            raise Failure("a file is moved into the model or out of it")
        old_folder, old_name = self.entry(old)
        new_folder, new_name = self.entry(new)
        node = self.disk.now.find(old)
        if self.disk.now.find(new) == node:
            return
        if node not in self.disk.now.files:
            raise Failure("the model does not know folders that are renamed")
        self.step("change", b"rename " + old + b" " + new, Rename(new_folder, new_name, node, old_folder, old_name))

    def do_rename(self, call):
        self.renamed(self.path(call.strings[0]), self.path(call.strings[1]))

    def do_renameat(self, call):
        if "RENAME_EXCHANGE" in call.words[-1]:
            raise Failure("the model does not know RENAME_EXCHANGE")
        self.renamed(self.path(call.strings[0], call.words[0]), self.path(call.strings[1], call.words[2]))

    do_renameat2 = do_renameat

    def linked(self, old, new):
        if new is not None:
            folder, last = self.entry(new)
            self.step("change", b"link " + new, Name(folder, last, self.disk.now.find(old), False))

    def do_link(self, call):
        self.linked(self.path(call.strings[0]), self.path(call.strings[1]))

    def do_linkat(self, call):
        self.linked(self.path(call.strings[0], call.words[0]), self.path(call.strings[1], call.words[2]))

    def unlinked(self, path):
        if path is not None:
            folder, last = self.entry(path)
            self.step("change", b"unlink " + path, NoName(folder, last))

    def do_unlink(self, call):
        self.unlinked(self.path(call.strings[0]))

    def do_unlinkat(self, call):
        self.unlinked(self.path(call.strings[0], call.words[0]))

    do_rmdir = do_unlink

    def made_folder(self, path):
        if path is not None:
            folder, last = self.entry(path)
            self.step("change", b"mkdir " + path, Name(folder, last, self.disk.new_node(), True))

    def do_mkdir(self, call):
        self.made_folder(self.path(call.strings[0]))

    def do_mkdirat(self, call):
        self.made_folder(self.path(call.strings[0], call.words[0]))

    def do_fsync(self, call):
        if file := self.file(call):
            self.step("sync", b"sync " + file.path[len(self.top) + 1 :], None, file.node)

    do_fdatasync = do_fsync

    def do_sync(self, call):
        self.step("sync", b"sync everything")

    do_syncfs = do_sync


@dataclass
class Run:
    """A recorded run: what it did, how it ended, and what it wrote."""

    steps: list
    status: int
    out: bytes
    err: bytes


def command(words, log, *expressions):
    traced = ",".join(CALLS + UNKNOWN)
    options = ["-f", "-q", "-xx", "-s", "4194304", "-e", "trace=" + traced, "-o", log]
    for expression in expressions or ["signal=none"]:
        options += ["-e", expression]
    return ["strace", *options, *words]


def record(disk, top, words, place, environment):
    """Runs a program on the medium as it is now, which is made in the folder `top`, and plays its
    calls on `disk`. At the end the folder must be what the model says."""
    shutil.rmtree(top, ignore_errors=True)
    disk.now.write_out(top)
    run = play_in(disk, top, words, place, environment)
    check_model(disk, top, words)
    return run


def play_in(disk, top, words, place, environment):
    """Runs a program in a folder, and plays its calls on the medium."""
    log = os.fspath(top) + ".log"
    try:
        done = subprocess.run(
            command(words, log),
            stdin=subprocess.DEVNULL,
            capture_output=True,
            cwd=place,
            env=environment,
            timeout=TIME_LIMIT,
        )
    except FileNotFoundError:
        raise Failure("no strace, which records the system calls: install the package strace") from None
    player = Player(disk, top, place)
    with open(log) as file:
        for call in calls(file.read()):
            player.play(call)
    os.remove(log)
    return Run(player.steps, done.returncode, done.stdout, done.stderr)


def check_model(disk, top, words):
    if from_folder(top).now.print() != disk.now.print():
        raise Failure(f"after {words[0]} the folder is not what its calls say: the model does not know them all")


def record_between(disk, top, outer, moment, inners, environment):
    """Runs a program that is stopped at a moment, given as strace has it (fsync:when=3 is when it has
    done its third fsync), while others are run one after the other; then it goes on. The answer is each
    of them with its run; the first stands there twice, and how it ended is in its second run. Each
    of `outer` and `inners` has a command, and the folder that it is run in."""
    shutil.rmtree(top, ignore_errors=True)
    disk.now.write_out(top)
    log = os.fspath(top) + ".outer.log"
    words = command(outer.command, log, "signal=SIGSTOP", "inject=" + moment.replace(":", ":signal=SIGSTOP:"))
    pipes = {"stdin": subprocess.DEVNULL, "stdout": subprocess.PIPE, "stderr": subprocess.PIPE}
    program = subprocess.Popen(words, cwd=outer.place, env=environment, **pipes)
    player = Player(disk, top, outer.place)
    runs = [(outer, Run([], None, b"", b""))]
    try:
        before, process = stopped(log, program)
        for call in calls(before):
            player.play(call)
        runs[0][1].steps = player.steps
        player.steps = []
        for inner in inners:
            runs.append((inner, play_in(disk, top, inner.command, inner.place, environment)))
        os.kill(process, signal.SIGCONT)
        out, err = program.communicate(timeout=TIME_LIMIT)
    finally:
        program.kill()
    with open(log) as file:
        for call in calls(file.read()[len(before) :]):
            player.play(call)
    os.remove(log)
    runs.append((outer, Run(player.steps, program.returncode, out, err)))
    check_model(disk, top, outer.command)
    return runs


def stopped(log, program):
    """What is in the log when the program has stopped, and its process."""
    end = time.monotonic() + TIME_LIMIT
    while time.monotonic() < end:
        ended = program.poll() is not None
        try:
            with open(log) as file:
                text = file.read()
        except FileNotFoundError:
            text = ""
        if match := re.search(r"^(\d+) +--- stopped by SIGSTOP ---\n", text, re.MULTILINE):
            return text[: match.end()], int(match[1])
        if ended:
            raise Failure(f"a program ended, and was not stopped: {short(text)}")
        time.sleep(0.002)
    raise Failure("a program was not stopped in time")


# What must be in a store after a power cut.


class Loss(Failure):
    """Something that a power cut must not leave."""


@dataclass
class Day:
    """A day: its file, the names of its pieces, and the files that it was made of."""

    file: bytes
    pieces: list
    files: dict


@dataclass
class Told:
    """What is known of a store from what its programs told: days that are kept, days that may
    be there whole or not at all, days that are gone, the highest number of each machine that was
    told, what the files may be that were had back (nothing for no file), and whether it is a store."""

    kept: dict = field(default_factory=dict)
    maybe: dict = field(default_factory=dict)
    gone: set = field(default_factory=set)
    highest: dict = field(default_factory=dict)
    written: dict = field(default_factory=dict)
    is_store: bool = True

    def copy(self):
        one = Told(dict(self.kept), dict(self.maybe), set(self.gone), dict(self.highest), dict(self.written))
        one.is_store = self.is_store
        return one

    def begin_day(self, machine, number, day):
        self.maybe[machine, number] = day

    def end_day(self, machine, number):
        self.kept[machine, number] = self.maybe.pop((machine, number))
        self.highest[machine] = max(number, self.highest.get(machine, 0))

    def begin_go(self, machine, number):
        day = self.kept.pop((machine, number), None)
        if day:
            self.maybe[machine, number] = day

    def end_go(self, machine, number):
        self.maybe.pop((machine, number), None)
        self.gone.add((machine, number))


DIGESTS = {}


def digest(data):
    if data not in DIGESTS:
        DIGESTS[data] = hashlib.sha256(data).digest()
    return DIGESTS[data]


LISTS = {}


def names_in(data):
    """The names in a list, without a torn end."""
    if data not in LISTS:
        LISTS[data] = frozenset(data[at : at + 32] for at in range(0, len(data) - 31, 32))
    return LISTS[data]


def sealed(data):
    """The bytes before the digest at the end of a file; nothing if it is another one's."""
    return data[:-32] if data[-32:] == hashlib.sha256(data[:-32]).digest() else None


def check(state, told, store=b"store"):
    """Raises Loss where the store in this state is not what it must be, and what the next runs count on."""
    machines = state.read(store + b"/machines")
    if machines is None and not told.is_store:
        # `init` did not tell its success, so it may have to be called again.
        if not told.kept:
            return
    elif not (machines or b"").rstrip().endswith(b"end"):
        raise Loss("the list of machines is not there, or not whole")
    folders = {name: state.folder(store + b"/" + name) for name in (b"p", b"a", b"i", b"m", b"d", b"t")}
    if None in folders.values() or any(b"%d" % machine not in folders[b"d"] for machine in range(64)):
        raise Loss("a folder of the store is gone")
    days = check_days(state, told, folders)
    check_numbers(state, told, folders, days)
    check_lists(state, folders)
    check_sweeper(state.read(store + b"/s"))
    for path, contents in told.written.items():
        content = state.read(path.encode())
        if content not in contents:
            raise Loss(f"{path} was written and is lost" if content is None else f"{path} has other bytes")


def check_days(state, told, folders):
    """Each day that was told is there, each other one whole or not at all, and no further one."""
    found = {}
    for machine, node in folders[b"d"].items():
        for number, file in state.folders[node].items():
            found[int(machine), int(number)] = state.files[file]
    for name in told.kept:
        if name not in found:
            raise Loss(f"day {name} was reported and is lost")
    for name, file in found.items():
        day = told.kept.get(name) or told.maybe.get(name)
        if not day:
            raise Loss(f"day {name} was let go and is back" if name in told.gone else f"nobody made day {name}")
        if day.file != file:
            raise Loss(f"day {name} has other bytes")
        for piece in day.pieces:
            if not piece_is_there(state, folders, piece):
                raise Loss(f"day {name} lacks the piece {piece.hex()}")
    return found


def piece_is_there(state, folders, piece):
    name = piece.hex().encode()
    for folder in (b"p", b"a"):
        node = folders[folder].get(name)
        if node is not None and digest(state.files[node]) == piece:
            return True
    return False


def check_numbers(state, told, folders, days):
    """No number can be used again: the highest of each machine is no lower than that of any day of it."""
    least = dict(told.highest)
    for machine, number in days:
        least[machine] = max(number, least.get(machine, 0))
    for machine, number in least.items():
        node = folders[b"m"].get(b"%d" % machine)
        held = sealed(state.files[node]) if node is not None else bytes(4)
        if held is None or len(held) != 4:
            raise Loss(f"the number of machine {machine} is damaged")
        if int.from_bytes(held, "big") < number:
            raise Loss(f"number {number} of machine {machine} would be used again")


def check_lists(state, folders):
    """Each piece in its place is in a list, and each aside in the sweeper's: else no sweep would find it."""
    lists = [names_in(state.files[node]) for node in folders[b"i"].values()]
    for name in folders[b"p"]:
        piece = bytes.fromhex(name.decode())
        if not any(piece in names for names in lists):
            raise Loss(f"no list has the piece {piece.hex()}, which is in its place")
    node = folders[b"i"].get(b"a")
    names = names_in(state.files[node]) if node is not None else ()
    for name in folders[b"a"]:
        if bytes.fromhex(name.decode()) not in names:
            raise Loss(f"the sweeper's list lacks the piece {name.decode()}, which is aside")


def check_sweeper(data):
    """What the sweeper does is kept whole."""
    if data is None:
        return
    held = sealed(data)
    if held is None or (held[:1], len(held)) not in ((b"\0", 1), (b"\1", 257), (b"\2", 1)):
        raise Loss(f"what the sweeper does is damaged: {short(data)}")
