#!/usr/bin/env -S python3 -B
"""Machines make days of changing files, old days are let go, sweeps run and files are had
back, all at the same time in separate processes on one store, many of which are killed,
held for a while or slowed down at random moments. After each round, when all processes
have ended, every kept day is compared byte for byte with what it was made of: by `back`,
and by reading the medium. At the end whole sweeps leave nothing that no day has.

What is random comes from a seed; when programs meet does not, so the same seed may end
otherwise. The environment may set
    STORM_SEED      the seed (1)
    STORM_ROUNDS    how many rounds there are (12)
    STORM_SECONDS   no round is begun after so many seconds, but for the first three (35)
Where there is strace, a part of the programs is slowed down by it. On failure the folder
stays, with a journal of what was run."""

import collections
import contextlib
import os
import random
import shutil
import signal
import subprocess
import tempfile
import threading
import time
from concurrent.futures import ThreadPoolExecutor
from pathlib import Path

from common import Failure, main, short
from stores import LIMIT, Answer, highest, list_of, new_store, pieces_of, program, sweeper

SEED = int(os.environ.get("STORM_SEED") or 1)
ROUNDS = int(os.environ.get("STORM_ROUNDS") or 12)
SECONDS = float(os.environ.get("STORM_SECONDS") or 35)

MACHINES = range(4)

# Days that each machine starts in a round, and how many at most nobody lets go from its beginning on.
DAYS = 10
STAY = 8

# Small files that come and go on all machines, so that their pieces are shared, given up and found again.
COMMON = 120

# The calls that strace delays, and how it is called so that the program is our own child.
CALLS = "openat,write,pwrite64,ftruncate,fsync,fdatasync,rename,renameat,renameat2,link,linkat,unlink,unlinkat,flock"
# Calls that may take long, and how many of them there are about at most.
MOST = 160
LONG = {
    "link,linkat": 1, "rename,renameat,renameat2": 6, "fsync,fdatasync": 8, "unlink,unlinkat": 3, "openat": MOST,
    "statx,newfstatat": MOST,
}
STRACE = ["strace", "-D", "-qq", "-o", "/dev/null"]


class Kind:
    """What may happen to the programs of a round: the share that is killed, held, slowed down."""

    def __init__(self, name, killed, held, slowed):
        self.name, self.killed, self.held, self.slowed = name, killed, held, slowed


# The first round kills nothing, so that it is seen that all goes well then, too.
CALM = Kind("calm", 0, 0.4, 0.3)
KINDS = [Kind("killed", 0.25, 0.5, 0.2), Kind("slow and killed", 0.3, 0.3, 0.6)]


def can_slow():
    """Whether there is a strace that can delay calls here."""
    try:
        return subprocess.run([*STRACE, *delays(random.Random(0), "back"), "true"], capture_output=True).returncode == 0
    except OSError:
        return False


def delays(source, name):
    """Words for strace that delay some calls of a program a little, from a random one on, or two calls for long."""
    if source.random() < 0.4:
        when = f"{source.randrange(1, 6)}+{source.randrange(1, 4)}"
        return injected([(CALLS, source.choice((300, 1_000, 4_000)), when)])
    chosen = source.sample(sorted(LONG), 2)
    most = 15 if name == "back" else MOST
    whens = [source.randrange(1, min(LONG[calls], most) + 1) for calls in chosen]
    return injected([(calls, source.randrange(20_000, 400_000), when) for calls, when in zip(chosen, whens)])


def injected(parts):
    """Words for strace: for each part the calls, how many microseconds each takes more, and which of them."""
    parts = [(",".join("?" + call for call in calls.split(",")), delay, when) for calls, delay, when in parts]
    words = [f"inject={calls}:delay_enter={delay}:when={when}" for calls, delay, when in parts]
    words.append("trace=" + ",".join(calls for calls, _, _ in parts))
    return [word for expression in words for word in ("-e", expression)]


class Trees:
    """The files of each machine, which change from day to day, and what old days had."""

    def __init__(self, top, source):
        self.top = top
        self.files = [{} for _ in MACHINES]
        self.attic = collections.deque(maxlen=6)
        self.common = {f"common/{number:03}": source.randbytes(source.randrange(1, 4_000)) for number in range(COMMON)}
        for machine in MACHINES:
            (top / str(machine)).mkdir(parents=True)

    def change(self, machine, source):
        """Some edits of a machine's files, on the disk too; the files then, and their list."""
        tree = dict(self.files[machine])
        for _ in range(source.randrange(1, 5)):
            self.edit(tree, source)
        for path in source.sample(sorted(tree), min(len(tree), source.randrange(2, 7))):
            del tree[path]
        for path in source.sample(sorted(self.common), source.randrange(2, 5)):
            tree[path] = self.common[path]
        while len(tree) > 12:
            del tree[source.choice(sorted(tree))]
        self.write(machine, tree)
        self.files[machine] = tree
        return dict(tree)

    def edit(self, tree, source):
        """One edit: a new file, a changed one, one of another name, one of another machine or of an old day."""
        paths = sorted(tree)
        what = source.choice(("new", "insert", "delete", "append", "rename", "copy", "copy", "old", "old", "remove"))
        if what == "new" or not paths:
            tree[new_path(source)] = source.randbytes(source.choice((0, 1, 700, 3_000, 20_000, 50_000)))
        elif what == "copy":
            copied(tree, self.files[source.choice(MACHINES)], source)
        elif what == "old" and self.attic:
            copied(tree, source.choice(list(self.attic)), source)
        elif what == "rename":
            tree[new_path(source)] = tree.pop(source.choice(paths))
        elif what == "remove":
            del tree[source.choice(paths)]
        else:
            path = source.choice(paths)
            tree[path] = changed(tree[path], what, source)

    def write(self, machine, tree):
        """Makes the files on the disk those of the tree, and writes their list."""
        top, old = self.top / str(machine), self.files[machine]
        for path in old.keys() - tree.keys():
            (top / path).unlink()
        for path, content in tree.items():
            if old.get(path) != content:
                (top / path).parent.mkdir(exist_ok=True)
                (top / path).write_bytes(content)
        (self.top / f"{machine}.list").write_bytes(list_of(tree))


def new_path(source):
    return f"{source.choice('abcd')}/{source.randrange(10_000)}.txt"


def copied(tree, other, source):
    """A file of another tree, or some of them."""
    for path in source.sample(sorted(other), min(len(other), source.randrange(1, 4))):
        tree[path] = other[path]


def changed(content, what, source):
    """A file with bytes inserted, deleted, or behind its end."""
    at = len(content) if what == "append" else source.randrange(len(content) + 1)
    if what == "delete":
        return content[:at] + content[at + source.randrange(1, 2_000) :]
    return (content[:at] + source.randbytes(source.randrange(1, 6_000)) + content[at:])[:60_000]


class Storm:
    """A store with all that goes on on it, and what must be there."""

    def __init__(self, top):
        self.top = top
        self.store = new_store(top / "store", *MACHINES)
        self.source = random.Random(f"{SEED} trees")
        self.trees = Trees(top / "trees", self.source)
        self.lock = threading.Lock()
        self.count = collections.Counter()
        self.journal = []
        # How long a program takes that nothing happens to, and which days nobody lets go in this round.
        self.typical = collections.defaultdict(lambda: 0.005)
        self.stay, self.going = set(), set()
        self.slows = can_slow()
        self.begun = time.monotonic()

    def add(self, what, number=1):
        with self.lock:
            self.count[what] += number

    # Running programs.

    def play(self, kind, source, name, *words, at=None):
        """Runs a program to its end, and what happens to it is drawn: the answer, or None where it was killed."""
        killed, held = source.random() < kind.killed, source.random() < kind.held
        under = []
        if self.slows and source.random() < kind.slowed:
            under = [*STRACE, *delays(source, name)]
            self.add(f"{name} slowed")
        begin = time.monotonic()
        process = self.start(under, name, words, at)
        if under:
            under_way(process, program(name))
        span = self.typical[name, bool(under)]
        if held:
            self.hold(process, span * source.random(), source.randrange(1, 4))
        if killed:
            time.sleep(span * 1.2 * source.random())
            process.kill()
        answer = ended(name, process)
        took = time.monotonic() - begin
        with self.lock:
            self.journal.append((begin - self.begun, took, name, words, answer))
            if not killed and not held:
                self.typical[name, bool(under)] += (took - span) / 8
        if answer.status != -signal.SIGKILL:
            return answer
        self.add(f"{name} killed")
        return None

    def start(self, under, name, words, at=None):
        """Starts a program on the store."""
        command = [*under, program(name), "--store", self.store.at, *words]
        none = subprocess.DEVNULL
        return subprocess.Popen(command, cwd=at, stdin=none, stdout=subprocess.PIPE, stderr=subprocess.PIPE)

    def hold(self, process, after, sweeps):
        """Holds a program until some sweeps have ended, but not for long."""
        time.sleep(after)
        process.send_signal(signal.SIGSTOP)
        begin, ended = time.monotonic(), self.count["sweeps"]
        while time.monotonic() < begin + 0.5 and self.count["sweeps"] < ended + sweeps:
            time.sleep(0.005)
        if process.poll() is None:
            self.add("held")
        process.send_signal(signal.SIGCONT)

    def did(self, answer, *words):
        """What a program wrote that must have done what it was asked."""
        if answer.status != 0 or answer.err:
            raise Failure(f"{words}: status {answer.status}: {short(answer.err)}")
        return answer.out.decode().split("\n")[:-1]

    # Who works on the store in a round. Each runs in a thread of its own.

    def machine(self, kind, source, machine):
        """A machine that makes days of its changing files."""
        for _ in range(DAYS):
            with self.lock:
                tree = self.trees.change(machine, source)
            self.day(kind, source, machine, tree)
            time.sleep(source.choice((0, 0, 0.01, 0.03)))

    def day(self, kind, source, machine, tree):
        """One day, and what has come of it; sometimes another program makes the same day at the same time."""
        before = highest(self.store.at, machine)
        words, at = (str(machine), self.trees.top / f"{machine}.list"), self.trees.top / str(machine)
        twin = self.start([], "day", words, at) if source.random() < 0.1 else None
        answers = [self.play(kind, source, "day", *words, at=at)]
        if twin:
            answers.append(ended("day", twin))
        numbers = [self.number_of(machine, answer, bool(twin)) for answer in answers]
        self.settle(machine, before, tree, [number for number in numbers if number], len(answers))

    def number_of(self, machine, answer, twins):
        """The number of the day that a program has made, if it has."""
        if answer is None:
            return None
        if twins and answer.status == 1 and answer.err.startswith(b"day: refused by 3: "):
            self.add("twins refused by 3")
            return None
        said = self.did(answer, "day", machine)[0]
        self.add("days made")
        return int(said.removeprefix("day "))

    def settle(self, machine, before, tree, numbers, programs):
        """Which days are there now that the programs of a machine have ended: all that were reported as
        made, and perhaps one whose program was killed. Each number was used once, by one program."""
        after = highest(self.store.at, machine)
        if not before <= after <= before + programs or not set(numbers) <= set(range(before + 1, after + 1)):
            raise Failure(f"machine {machine}: the numbers {numbers} from {before} to {after}")
        for number in range(before + 1, after + 1):
            there = (self.store.at / "d" / str(machine) / str(number)).exists()
            if number in numbers and not there:
                raise Failure(f"day {number} of machine {machine} was made, and is not there")
            if number not in numbers:
                self.add("days there though killed" if there else "numbers raised without a day")
            if there:
                with self.lock:
                    self.store.kept[machine, number] = tree
                    if number % 4 == 0:
                        self.stay.add((machine, number))

    def sweeper(self, kind, source, ending):
        """One sweep after the other, until the round ends."""
        while not ending.is_set():
            was = sweeper(self.store.at)[0]
            answer = self.play(kind, source, "sweep")
            if answer is not None:
                self.swept(was, self.did(answer, "sweep"))
            time.sleep(source.choice((0, 0, 0.01)))

    def swept(self, was, lines):
        """Counts what a sweep has done."""
        aside, back, away = (int(line.split(" ")[-1]) for line in lines[:3])
        for what, number in ("put aside", aside), ("put back", back), ("thrown away", away):
            self.add(what, number)
        self.add("sweeps")
        # It has decided if it moved what was aside, or if it begins a sweep though one was under way.
        self.add("sweeps that decided", int(back + away > 0 or (aside > 0 and was != "rests")))

    def goer(self, kind, source, ending):
        """Lets go of one day after the other, but for the last of each machine and those that are to stay."""
        kind = Kind("goer", kind.killed, kind.held / 4, kind.slowed / 4)
        while not ending.is_set():
            with self.lock:
                last = set(dict(sorted(self.store.kept)).items())
                others = sorted(self.store.kept.keys() - self.stay - self.going - last)
                if others:
                    name = source.choice(others)
                    self.going.add(name)
            if others:
                self.go(kind, source, *name)
                self.going.remove(name)
            time.sleep(0.01 if len(others) < 8 else 0)

    def go(self, kind, source, machine, number):
        """Lets a day go; where the program was killed, it may be there or not."""
        answer = self.play(kind, source, "go", str(machine), str(number))
        gone = not (self.store.at / "d" / str(machine) / str(number)).exists()
        if answer is not None:
            self.did(answer, "go", machine, number)
            if not gone:
                raise Failure(f"day {number} of machine {machine} was let go, and is there")
        if gone:
            with self.lock:
                self.trees.attic.append(self.store.kept.pop((machine, number)))
            self.add("days let go")

    def reader(self, kind, source, ending, who):
        """Has files back of days that nobody lets go, or lists the days, and must get all of it."""
        kind = Kind("reader", 0, kind.held / 4, kind.slowed)
        while not ending.is_set():
            with self.lock:
                stay = {name: tree for name, tree in self.store.kept.items() if name in self.stay and tree}
            if stay and source.random() < 0.85:
                machine, number, path, tree = self.chosen(source, stay)
                to = self.top / f"back{who}" / "file"
                answer = self.play(kind, source, "back", str(machine), str(number), path, to)
                self.had_back(machine, number, path, tree[path], to, answer)
                self.add("backs beside the others")
            else:
                self.listed(self.did(self.play(kind, source, "list"), "list"), stay)

    def chosen(self, source, stay):
        """A file to be had back; often one that has a piece aside, which may be put back at any moment."""
        files = [(*day, path, tree) for day, tree in sorted(stay.items()) for path in sorted(tree)]
        aside = set(os.listdir(self.store.at / "a"))
        some = [file for file in files if aside & pieces_of({file[2]: file[3][file[2]]}).keys()]
        if some:
            self.add("backs of what has a piece aside")
        return source.choice(some or files)

    def had_back(self, machine, number, path, content, to, answer):
        """A file that was had back is the file that the day was made of."""
        self.did(answer, "back", machine, number, path)
        if to.read_bytes() != content:
            raise Failure(f"back {machine} {number} {path}: another file, of {to.stat().st_size} bytes")
        to.unlink()

    def listed(self, lines, stay):
        """All days that stay are listed."""
        for (machine, number), tree in stay.items():
            line = f"machine {machine} day {number} files {len(tree)} bytes {sum(map(len, tree.values()))}"
            if line not in lines:
                raise Failure(f"list: no line '{line}'")
        self.add("lists beside the others")

    # Rounds.

    def round(self, number):
        """All of them at once, and then a look at everything."""
        kind = CALM if number == 0 else KINDS[number % len(KINDS)]
        source = random.Random(f"{SEED} round {number}")
        old = sorted(self.store.kept)
        self.stay = set(source.sample(old, min(len(old), STAY)))
        ending = threading.Event()
        firsts = [(self.machine, machine) for machine in MACHINES]
        others = [(self.goer, ending), (self.goer, ending), (self.sweeper, ending)]
        others += [(self.reader, ending, 0), (self.reader, ending, 1)]
        with ThreadPoolExecutor(len(firsts) + len(others)) as pool:
            def submit(place, work, *more):
                return pool.submit(work, kind, random.Random(f"{SEED} {number} {place}"), *more)

            jobs = [submit(place, *work) for place, work in enumerate(firsts + others)]
            for job in jobs[: len(firsts)]:
                job.exception()
            ending.set()
        for job in jobs:
            job.result()
        self.check()

    def check(self):
        """Every kept day is whole: on the medium, and by `back`. There are no others."""
        self.store.check_days()
        self.store.check_listed()
        with ThreadPoolExecutor(4) as pool:
            checks = [pool.submit(self.check_back, *file) for file in self.store.files()]
        for check in checks:
            check.result()

    def check_back(self, machine, number, path, content):
        to = self.top / f"back-{threading.get_ident()}"
        answer = self.store.run("back", str(machine), str(number), path, to / "file")
        self.had_back(machine, number, path, content, to / "file", answer)
        self.add("backs after rounds")

    def end(self):
        """Whole sweeps, after which nothing is there that no day has."""
        self.store.whole_sweeps()
        self.check()
        there = len(os.listdir(self.store.at / "p"))
        if there != len({name for files in self.store.kept.values() for name in pieces_of(files)}):
            raise Failure(f"at the end {there} pieces are there")

    def show(self, rounds):
        """Prints what has happened, and fails where something has not, so that nothing was tested by it."""
        for what, number in sorted(self.count.items()):
            print(f"{number} {what}")
        wanted = ["days made", "days let go", "sweeps", "sweeps that decided", "put aside", "put back", "thrown away"]
        wanted += ["held", "backs of what has a piece aside", "backs beside the others", "backs after rounds"]
        wanted += ["lists beside the others"]
        wanted += ["day killed", "sweep killed"] if rounds > 2 else []
        wanted += ["go killed"] if rounds > 5 else []
        for what in wanted:
            if not self.count[what]:
                raise Failure(f"this never happened: {what}")


def under_way(process, path):
    """Waits till a process that strace begins is the program: killed before that, it would leave strace behind."""
    path = os.path.realpath(path)
    while process.poll() is None:
        with contextlib.suppress(OSError):
            if os.readlink(f"/proc/{process.pid}/exe") == path:
                return
        time.sleep(0.001)


def ended(name, process):
    """The answer of a program that ends in time."""
    try:
        out, err = process.communicate(timeout=LIMIT)
    except subprocess.TimeoutExpired:
        process.kill()
        raise Failure(f"{name}: not done after {LIMIT} s") from None
    return Answer(process.returncode, out, err)


def made_folder():
    """A new folder, in memory where that can be had."""
    memory = "/dev/shm"
    return Path(tempfile.mkdtemp(prefix="zeltuva-storm-", dir=memory if os.access(memory, os.W_OK) else None))


def keep(top, storm):
    """Writes the journal into the folder, which stays."""
    if storm:
        lines = [f"{at:.3f} {took:.3f} {name} {words} {answer}\n" for at, took, name, words, answer in storm.journal]
        (top / "journal").write_text("".join(lines))


def test():
    top, storm = made_folder(), None
    try:
        storm = Storm(top)
        done = 0
        while done < ROUNDS and (done < 3 or time.monotonic() - storm.begun < SECONDS):
            storm.round(done)
            done += 1
        storm.end()
        print(f"seed {SEED}, {done} rounds, {len(storm.store.kept)} days kept" + ("" if storm.slows else ", no strace"))
        storm.show(done)
    except BaseException:
        keep(top, storm)
        print(f"seed {SEED}: the folder {top} stays")
        raise
    shutil.rmtree(top)


main(test)
