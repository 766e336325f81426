#!/usr/bin/env -S python3 -B
"""Two sets of programs on one store in a folder: ours, and the plain Rust ones.

Seeded random steps on one folder, each done by the one or the other: machines make days
of files that share content, days are listed, had back and let go, sweeps run, several at
once, and some are stopped by SIGKILL. What is written is compared with what a model here
says, from docs/FOLDER.md and docs/PROGRAMS.md, and so is every byte in the folder after
each step. Then both are given the same damaged stores and wrong words, and have to refuse
them by the same number and change nothing. How much was done is printed.

SEED in the environment gives another seed, STEPS another number of steps."""

import fcntl
import functools
import hashlib
import os
import random
import re
import shutil
import signal
import subprocess
import tempfile
import threading
import time
from pathlib import Path

from common import MAX_FILE, MAX_FILES, Failure, day_file, folder_programs, listed, main, pieces, short

PROGRAMS = ("init", "day", "list", "back", "go", "sweep")
MACHINES = range(64)
FOLDERS = ("p", "a", "i", "m", "d", "t")
MAX_NAMES = 262_144
TIME_LIMIT = 120
STORES = 6

# In memory, if there is such a folder: what a stop of a program leaves is the same there.
SCRATCH = "/dev/shm" if os.access("/dev/shm", os.W_OK) else None

LINE = re.compile(rb"(\w+): (?:refused by ([1-6]): )?[ -~]+?: [ -~]+; [ -~]+\n")


def name_of(piece):
    return hashlib.sha256(piece).digest()


@functools.cache
def cut(file):
    """The pieces of a file by their names, in order."""
    return [(name_of(piece), piece) for piece in pieces(file)]


@functools.cache
def listed_once(path, file):
    return listed(path, file)


def file_of(machine, number, files):
    """The day file for these files, bytes by path."""
    return day_file(machine, number, [listed_once(path, files[path]) for path in sorted(files)])


def total(files):
    return sum(map(len, files.values()))


class Done:
    """What a program has done."""

    def __init__(self, name, status, output, error):
        self.name, self.status, self.output, self.error = name, status, output, error


class Started:
    """A program that runs."""

    def __init__(self, side, program, arguments, store=None, cwd=None, given=b"", stop=None):
        name, folder = side
        self.name = f"{program} of {name}"
        self.asked = f"{self.name} {' '.join(map(str, arguments))}"
        environment = {key: value for key, value in os.environ.items() if key != "ZELTUVA_STORE"}
        if store is not None:
            environment["ZELTUVA_STORE"] = os.fspath(store)
        self.process = subprocess.Popen(
            [folder / program, *arguments], cwd=cwd, env=environment,
            stdin=subprocess.PIPE, stdout=subprocess.PIPE, stderr=subprocess.PIPE,
        )
        self.given = given
        if stop is not None:
            # Nothing is sent to one that has ended by then.
            threading.Timer(stop, self.process.kill).start()

    def wait(self):
        try:
            output, error = self.process.communicate(self.given, timeout=TIME_LIMIT)
        except subprocess.TimeoutExpired:
            self.process.kill()
            raise Failure(f"{self.asked}: not done after {TIME_LIMIT} s") from None
        return Done(self.asked, self.process.returncode, output, error)

    def give(self):
        """Gives it its input, which is short, so that it works while others are started."""
        try:
            self.process.stdin.write(self.given)
            self.process.stdin.close()
        except BrokenPipeError:
            pass
        self.process.stdin, self.given = None, None


def succeeded(done, expected=None):
    """The program did what it was asked, and wrote that."""
    if done.status != 0 or done.error:
        raise Failure(f"{done.name}: status {done.status}, {short(done.output)}, error {short(done.error)}")
    if expected is not None and done.output != expected:
        raise Failure(f"{done.name}: wrote {short(done.output)}, not {short(expected)}")


def made(number, files, count, bytes_, new=0, written=0):
    """What `day` writes."""
    lines = {"day": number, "files": files, "bytes": bytes_, "pieces": count, "new": new, "written": written}
    return "".join(f"{word} {value}\n" for word, value in lines.items()).encode()


def swept(aside, back, away, waits="waits for 0 1 5"):
    """What `sweep` writes."""
    return f"put aside {aside}\nput back {back}\nthrown away {away}\n{waits}\n".encode()


def refused(done, number, expected=b""):
    """The program did not do it, by this rule, or by none, and said so in one line."""
    line = LINE.fullmatch(done.error)
    if done.status != 1 or not line or line[1].decode() != done.name.split()[0]:
        raise Failure(f"{done.name}: status {done.status}, error {short(done.error)}, not one of {number}")
    if (line[2] and int(line[2])) != number:
        raise Failure(f"{done.name}: {short(done.error)} is not by {number}")
    if done.output != expected:
        raise Failure(f"{done.name}: wrote {short(done.output)}, not {short(expected)}")


class Folder:
    """A store in a folder, as the test reads it by itself."""

    def __init__(self, top):
        self.top = Path(top)

    def read(self, *names):
        try:
            return self.top.joinpath(*names).read_bytes()
        except FileNotFoundError:
            return None

    def names(self, *folder):
        return set(os.listdir(self.top.joinpath(*folder)))

    def machines(self):
        lines = [line.strip(b" \r") for line in self.read("machines").split(b"\n")]
        lines = [line for line in lines if line and not line.startswith(b"#")]
        return sorted(int(line.split(b" ")[0]) for line in lines[: lines.index(b"end")])

    def list(self, writer):
        """The names in a list."""
        bytes_ = self.read("i", str(writer)) or b""
        return [bytes_[at : at + 32] for at in range(0, len(bytes_) - 31, 32)]

    def all_listed(self):
        return {name for writer in (*MACHINES, "a") for name in self.list(writer)}

    def highest(self, machine):
        bytes_ = self.read("m", str(machine))
        if bytes_ is None:
            return 0
        if len(bytes_) != 36 or bytes_[4:] != name_of(bytes_[:4]):
            raise Failure(f"m/{machine} is {bytes_.hex()}")
        return int.from_bytes(bytes_[:4], "big")

    def state(self):
        """What the sweeper does, and the numbers that it noted."""
        bytes_ = self.read("s")
        if bytes_ is None:
            return 0, None
        kept, digest = bytes_[:-32], bytes_[-32:]
        if name_of(kept) != digest or kept[0] not in (0, 1, 2) or len(kept) != (257 if kept[0] == 1 else 1):
            raise Failure(f"s is {bytes_.hex()}")
        noted = [int.from_bytes(kept[at : at + 4], "big") for at in range(1, len(kept), 4)]
        return kept[0], noted

    def has_piece(self, folder, name):
        """Whether the very bytes of the piece lie there."""
        bytes_ = self.read(folder, name.hex())
        return bytes_ is not None and name_of(bytes_) == name

    def lying(self, folder):
        return {bytes.fromhex(digits) for digits in self.names(folder)}

    def days(self):
        """The bytes of all days, by machine and number."""
        return {
            (machine, int(number)): self.read("d", str(machine), number)
            for machine in MACHINES
            for number in self.names("d", str(machine))
        }

    def everything(self):
        """All files, but for locks, which are no part of what is kept."""
        found = {}
        for folder, _, files in os.walk(self.top):
            for file in files:
                path = Path(folder, file)
                if path.suffix != ".lock":
                    found[os.fspath(path.relative_to(self.top))] = path.read_bytes()
        return found

    def check(self, days, stopped, torn):
        """Every file is one that there may be, of the right form; the days are these; and
        what is promised is kept. `stopped` are the writers that may have left something
        without a name, and `torn` the lists that may have a torn end."""
        if self.names() - {"s"} != {"machines", *FOLDERS}:
            raise Failure(f"there is {self.names()} in the store")
        if self.names("d") != {str(machine) for machine in MACHINES}:
            raise Failure("not just the folders of days are there")
        self.machines()
        self.state()
        self.check_t(stopped)
        for machine in self.names("m"):
            if machine not in map(str, MACHINES):
                raise Failure(f"there is m/{machine}")
            self.highest(int(machine))
        self.check_lists(torn)
        self.check_pieces()
        self.check_days(days)

    def check_t(self, stopped):
        for name in self.names("t"):
            writer = name.removesuffix(".lock")
            if writer != "s" and writer not in map(str, MACHINES):
                raise Failure(f"there is t/{name}")
            if writer == name and writer not in stopped:
                raise Failure(f"t/{name} was left")
            if writer != name and self.read("t", name):
                raise Failure(f"the lock t/{name} has bytes")

    def is_torn(self, name):
        return len(self.read("i", name) or b"") % 32 != 0

    def check_lists(self, torn):
        for name in self.names("i"):
            if name != "a" and name not in map(str, MACHINES):
                raise Failure(f"there is i/{name}")
            if self.is_torn(name) and name not in torn:
                raise Failure(f"i/{name} is torn")
            names = self.list(name)
            if len(names) != len(set(names)):
                raise Failure(f"i/{name} lists a name twice")

    def check_pieces(self):
        listed_names, for_sweeper = self.all_listed(), set(self.list("a"))
        for folder in ("p", "a"):
            for digits in self.names(folder):
                if not re.fullmatch("[0-9a-f]{64}", digits):
                    raise Failure(f"there is {folder}/{digits}")
                bytes_ = self.read(folder, digits)
                if len(bytes_) > 65_536 or hashlib.sha256(bytes_).hexdigest() != digits:
                    raise Failure(f"{folder}/{digits} has other bytes")
                if bytes.fromhex(digits) not in (for_sweeper if folder == "a" else listed_names):
                    raise Failure(f"{folder}/{digits} is not listed")

    def check_days(self, days):
        found = self.days()
        if found.keys() != days.keys():
            raise Failure(f"the days are {sorted(found)}, not {sorted(days)}")
        there = self.lying("p") | self.lying("a")
        for (machine, number), files in days.items():
            if found[machine, number] != file_of(machine, number, files):
                raise Failure(f"day {number} of machine {machine} has another file")
            if number > self.highest(machine):
                raise Failure(f"day {number} of machine {machine} is above the highest number")
            for path, file in files.items():
                if not there.issuperset(name for name, _ in cut(file)):
                    raise Failure(f"day {number} of machine {machine} has lost {path}")


class World:
    """A store, on which both sets of programs work, and what should be in it."""

    def __init__(self, seed, top):
        self.random = random.Random(seed)
        self.played = []
        self.top = Path(top)
        self.sides = folder_programs()
        self.folder = Folder(self.top / "store")
        self.machines = sorted(self.random.sample(MACHINES, self.random.randint(1, 4)))
        self.contents = [self.content() for _ in range(12)]
        self.trees = {machine: {} for machine in self.machines}
        # The files of each day, by machine and number.
        self.days = {}
        # Who was stopped and has not come up again, and the lists that have a torn end.
        self.stopped, self.torn = set(), set()
        self.steps = self.kills = self.killed_days = 0
        words = [str(machine) for machine in self.machines]
        self.random.shuffle(words)
        done = self.run("init", "--store", self.folder.top, *words)
        succeeded(done, b"store %s\nmachines %d\n" % (os.fsencode(self.folder.top), len(words)))
        if self.folder.machines() != self.machines:
            raise Failure(f"{done.name}: the machines are {self.folder.machines()}")

    def side(self):
        return self.random.choice(self.sides)

    def start(self, program, *arguments, side=None, cwd=None, given=b"", stop=None):
        self.steps += 1
        return Started(side or self.side(), program, arguments, self.folder.top, cwd or self.top, given, stop)

    def moment(self):
        """After how many seconds a program is stopped, if it is."""
        if self.random.random() < 0.3:
            return None
        return self.random.choice([0.002, 0.004, 0.008]) * self.random.random()

    def run(self, program, *arguments, **how):
        return self.start(program, *arguments, **how).wait()

    def content(self):
        kind = self.random.random()
        if kind < 0.1:
            return b""
        if kind < 0.5:
            return self.random.randbytes(self.random.randint(1, 3_000))
        if kind < 0.6:
            return bytes([self.random.choice(b"\0a")]) * self.random.randint(1, 70_000)
        return self.random.randbytes(self.random.randint(3_000, 30_000))

    def file(self):
        """The bytes of a file, most of which other files have, too."""
        parts = self.random.choices(self.contents, k=self.random.randint(0, 3))
        if self.random.random() < 0.3:
            parts.insert(self.random.randint(0, len(parts)), self.random.randbytes(self.random.randint(0, 40)))
        if self.random.random() < 0.2:
            parts.append(self.random.randbytes(self.random.randint(0, 20_000)))
        if self.random.random() < 0.05:
            at = self.random.randrange(len(self.contents))
            self.contents[at] = self.content()
        return b"".join(parts)

    def path(self):
        names = ["a", "b", "c d", "zwölf", "e.f", "g-h", "\\x", "'"]
        path = "/".join(self.random.choices(names, k=self.random.randint(1, 3)))
        # A folder of one file may not be the name of another.
        return (path + ".txt").encode()

    def change_tree(self, machine):
        """Changes some files of a machine."""
        tree, top = self.trees[machine], self.top / f"tree{machine}"
        top.mkdir(exist_ok=True)
        for path in self.random.sample(sorted(tree), len(tree) // 4):
            os.remove(top / os.fsdecode(path))
            del tree[path]
        for _ in range(self.random.randint(0, 6)):
            path, file = self.path(), self.file()
            at = top / os.fsdecode(path)
            at.parent.mkdir(parents=True, exist_ok=True)
            at.write_bytes(file)
            tree[path] = file

    def start_day(self, machine, stop=None):
        """A machine begins to make a day. The answer is the program, and the day's files."""
        tree = self.trees[machine]
        files = {path: tree[path] for path in tree if self.random.random() < 0.9}
        if self.random.random() < 0.15:
            files = {}
        prefix = self.random.choice([b"", b"./"])
        text = b"\n".join(prefix + path for path in sorted(files))
        if files and self.random.random() < 0.7:
            text += b"\n"
        top = self.top / f"tree{machine}"
        top.mkdir(exist_ok=True)
        if self.random.random() < 0.5:
            return self.start("day", str(machine), "-", cwd=top, given=text, stop=stop), files
        path = self.top / f"list{machine}"
        path.write_bytes(text)
        return self.start("day", str(machine), path, cwd=top, stop=stop), files

    def day(self):
        machine = self.random.choice(self.machines)
        if self.random.random() < 0.7:
            self.change_tree(machine)
        number = self.folder.highest(machine) + 1
        before = self.folder.lying("p")
        program, files = self.start_day(machine)
        done = program.wait()
        new = {name: piece for file in files.values() for name, piece in cut(file) if name not in before}
        count = sum(len(cut(file)) for file in files.values())
        succeeded(done, made(number, len(files), count, total(files), len(new), total(new)))
        self.made(machine, number, files)

    def made(self, machine, number, files):
        self.days[machine, number] = files
        self.stopped.discard(str(machine))
        if self.folder.highest(machine) != number:
            raise Failure(f"the highest number is {self.folder.highest(machine)}, not {number}")

    def list(self):
        """Both list the same."""
        lines = [
            f"machine {machine} day {number} files {len(files)} bytes {total(files)}\n"
            for (machine, number), files in sorted(self.days.items())
        ]
        for side in self.sides:
            succeeded(self.run("list", side=side), "".join(lines).encode())
        if self.days:
            machine, number = self.random.choice(sorted(self.days))
            files = self.days[machine, number]
            lines = [b"%d %s\n" % (len(files[path]), path) for path in sorted(files)]
            for side in self.sides:
                succeeded(self.run("list", str(machine), str(number), side=side), b"".join(lines))

    def back(self):
        """Both have a file back."""
        days = [day for day in sorted(self.days) if self.days[day]]
        if not days:
            return
        machine, number = self.random.choice(days)
        path, file = self.random.choice(sorted(self.days[machine, number].items()))
        word = os.fsdecode(self.random.choice([b"", b"./"]) + path)
        for side in self.sides:
            top = Path(tempfile.mkdtemp(dir=self.top))
            if self.random.random() < 0.5:
                words, to = [word], os.fsdecode(path)
            else:
                to = "x/y/z"
                words = [word, to]
            if self.random.random() < 0.3:
                (top / to).parent.mkdir(parents=True, exist_ok=True)
                (top / to).write_bytes(b"before")
                self.back_stopped(side, [str(machine), str(number), *words], top, to, file)
                (top / to).with_name(".zeltuva-back").write_bytes(b"left by a stop")
            done = self.run("back", str(machine), str(number), *words, side=side, cwd=top)
            succeeded(done, b"%d %s\n" % (len(file), os.fsencode(to)))
            if (top / to).read_bytes() != file:
                raise Failure(f"{done.name}: other bytes were had back")
            if (top / to).with_name(".zeltuva-back").exists():
                raise Failure(f"{done.name}: .zeltuva-back was left")
            shutil.rmtree(top)

    def back_stopped(self, side, words, top, to, file):
        """A file that is had back is whole, or what was there before is there yet."""
        done = self.run("back", *words, side=side, cwd=top, stop=self.moment())
        self.kills += done.status == -signal.SIGKILL
        if (top / to).read_bytes() not in ([file] if done.status == 0 else [file, b"before"]):
            raise Failure(f"{done.name}: left something that is not whole")

    def go(self):
        if self.days:
            machine, number = self.random.choice(sorted(self.days))
            done = self.run("go", str(machine), str(number))
            succeeded(done, f"day {number} of machine {machine} is let go\n".encode())
            del self.days[machine, number]
            for side in self.sides:
                refused(self.run("go", str(machine), str(number), side=side), 1)

    def pieces_of_days(self):
        return {name for files in self.days.values() for file in files.values() for name, _ in cut(file)}

    def sweep(self):
        """A sweep moves just what it is to move."""
        folder, had = self.folder, self.pieces_of_days()
        place, aside = folder.lying("p"), folder.lying("a")
        (state, noted), highest = folder.state(), [folder.highest(machine) for machine in MACHINES]
        late = []
        if state == 1:
            numbers = {machine: [number for of, number in self.days if of == machine] for machine in self.machines}
            late = [machine for machine in self.machines if max(numbers[machine], default=0) <= noted[machine]]
        back, away, put_aside, begins = set(), set(), set(), not late
        if state and not late:
            decided = aside & set(folder.list("a"))
            back = {name for name in decided & had if folder.has_piece("a", name)}
            away = decided - back
            place, aside = place | back, aside - decided
        if begins:
            put_aside = (place & folder.all_listed()) - had
            place, aside = place - put_aside, aside | put_aside
            late, state, noted = self.machines, 1, highest
        done = self.run("sweep")
        waits = "waits for " + " ".join(map(str, late)) if late else "rests"
        succeeded(done, swept(len(put_aside), len(back), len(away), waits))
        if (folder.lying("p"), folder.lying("a")) != (place, aside):
            raise Failure(f"{done.name}: moved other pieces")
        if folder.state() != (state, noted):
            raise Failure(f"{done.name}: keeps {folder.state()}, not {(state, noted)}")
        self.stopped.discard("s")

    def together(self):
        """Several programs work at once, and some are stopped."""
        machines = self.random.sample(self.machines, self.random.randint(1, len(self.machines)))
        started = []
        for machine in machines:
            self.change_tree(machine)
            number = self.folder.highest(machine) + 1
            program, files = self.start_day(machine, self.moment())
            started.append((program, machine, number, files))
            program.give()
        if self.random.random() < 0.6:
            started.append((self.start("sweep", stop=self.moment()), None, None, None))
        self.random.shuffle(started)
        for program, machine, number, files in started:
            writer = "s" if machine is None else str(machine)
            done = program.wait()
            if done.status == -signal.SIGKILL:
                self.kills += 1
                self.stopped.add(writer)
                self.torn.add("a" if machine is None else writer)
            else:
                succeeded(done)
                self.stopped.discard(writer)
            if machine is not None:
                self.settle(done, machine, number, files)

    def settle(self, done, machine, number, files):
        """A day that was stopped is there, whole, or not at all."""
        if done.status == 0 and not done.output.startswith(f"day {number}\n".encode()):
            raise Failure(f"{done.name}: wrote {short(done.output)}, and is to be day {number}")
        if done.status == 0 or self.folder.read("d", str(machine), str(number)) is not None:
            self.days[machine, number] = files
            self.killed_days += done.status != 0

    def leave(self):
        """What a stop may leave: something that has no name yet, or a torn list."""
        machine = self.random.choice(self.machines)
        left = self.folder.top / "t" / str(machine)
        left.unlink(missing_ok=True)
        days = [day for day in self.days if day[0] == machine]
        if days and self.random.random() < 0.5:
            # As between the two steps by which a day is named.
            _, number = self.random.choice(days)
            os.link(self.folder.top / "d" / str(machine) / str(number), left)
        else:
            left.write_bytes(self.random.randbytes(self.random.randint(0, 100)))
        self.stopped.add(str(machine))
        writer = self.random.choice([str(machine), "a"])
        if not self.folder.is_torn(writer):
            with open(self.folder.top / "i" / writer, "ab") as file:
                file.write(self.random.randbytes(self.random.randint(1, 31)))
            self.torn.add(writer)

    def put_aside(self):
        """Pieces that days have lie aside, as where a sweep has looked before a day was named."""
        had = self.pieces_of_days() & self.folder.lying("p")
        if self.folder.is_torn("a") or not had:
            return
        for name in self.random.sample(sorted(had), self.random.randint(1, len(had))):
            if name not in self.folder.list("a"):
                with open(self.folder.top / "i/a", "ab") as file:
                    file.write(name)
            os.rename(self.folder.top / "p" / name.hex(), self.folder.top / "a" / name.hex())

    def mend(self):
        """A day writes a piece anew whose bytes are damaged, if the machine has its file."""
        machine = self.random.choice(self.machines)
        names = [name for file in self.trees[machine].values() for name, _ in cut(file)]
        names = [name for name in names if self.folder.has_piece("p", name)]
        if not names:
            return
        digits = self.random.choice(names).hex()
        bytes_ = bytearray(self.folder.read("p", digits))
        if self.random.random() < 0.5:
            bytes_[self.random.randrange(len(bytes_))] ^= 1 << self.random.randrange(8)
        else:
            bytes_ = bytes_[: self.random.randrange(len(bytes_))]
        (self.folder.top / "p" / digits).write_bytes(bytes_)
        files = self.trees[machine]
        text = b"".join(path + b"\n" for path in sorted(files))
        number = self.folder.highest(machine) + 1
        done = self.run("day", str(machine), "-", cwd=self.top / f"tree{machine}", given=text)
        succeeded(done)
        self.made(machine, number, files.copy())

    def step(self):
        steps = [self.day] * 6 + [self.sweep] * 6 + [self.together] * 8 + [self.go] * 3 + [self.list, self.back] * 2
        step = self.random.choice(steps + [self.leave, self.mend, self.put_aside])
        self.played.append(step.__name__)
        step()
        self.folder.check(self.days, self.stopped, self.torn)
        # A torn end is taken off when the next name is added, and not before.
        self.torn = set(filter(self.folder.is_torn, self.torn))


def random_stores(seed, steps):
    done = [0, 0, 0, 0]
    for at in range(STORES):
        with tempfile.TemporaryDirectory(dir=SCRATCH) as top:
            world = World(seed + at, top)
            try:
                for _ in range(steps // STORES):
                    world.step()
            except Failure as failure:
                raise Failure(f"seed {seed + at}, after {', '.join(world.played[-4:])}: {failure}") from None
            counts = [world.steps, len(world.days), world.kills, world.killed_days]
            done = [sum(pair) for pair in zip(done, counts)]
    print("{} programs were run on {} stores, {} days kept, {} programs stopped, {} of them after a day had its name"
          .format(done[0], STORES, *done[1:]))


class Cases:
    """Stores of one form, each damaged in its own way, that both sets of programs are given."""

    def __init__(self, top):
        self.top = Path(top)
        self.sides = folder_programs()
        self.count = 0
        self.base = Folder(self.top / "base")
        self.tree = self.top / "tree"
        self.tree.mkdir()
        self.files = {b"a": b"abc", b"b/c": bytes(5_000), b"empty": b""}
        for path, file in self.files.items():
            at = self.tree / os.fsdecode(path)
            at.parent.mkdir(exist_ok=True)
            at.write_bytes(file)
        self.make_base()

    def make_base(self):
        """Days 1 and 2 of machine 0 and 1 of machine 1; one piece aside that none has."""
        _, plain = self.sides
        self.ask(plain, self.base, "init", "0-1", "5")
        self.ask(plain, self.base, "day", "0", "-", given=b"a\nb/c\nempty\n")
        self.ask(plain, self.base, "day", "1", "-", given=b"a\n")
        (self.tree / "a").write_bytes(b"abd")
        self.ask(plain, self.base, "day", "0", "-", given=b"a\n")
        self.ask(plain, self.base, "day", "0", "-", given=b"empty\n")
        self.ask(plain, self.base, "go", "0", "2")
        self.ask(plain, self.base, "sweep")
        (self.tree / "a").write_bytes(b"abc")

    def ask(self, side, folder, program, *arguments, given=b""):
        done = Started(side, program, arguments, folder.top, self.tree, given).wait()
        succeeded(done)

    DAYS = b"machine 0 day 1 files 3 bytes 5003\nmachine 0 day 3 files 1 bytes 0\nmachine 1 day 1 files 1 bytes 3\n"

    def case(self, harm, program, *arguments, by="done", writes=b"", given=b"", changes=False):
        """Both are given a store that `harm` has changed. `by` is the number by which they
        refuse it, or None; they must change nothing then, unless `changes` says so."""
        self.count += 1
        for side in self.sides:
            folder = Folder(self.top / "case")
            shutil.copytree(self.base.top, folder.top, symlinks=True)
            held = harm and harm(folder)
            before = folder.everything() if folder.top.exists() else None
            tree = set(os.listdir(self.tree))
            done = Started(side, program, arguments, folder.top, self.tree, given).wait()
            if by == "done":
                succeeded(done, writes)
            else:
                refused(done, by, writes)
                if not changes and folder.top.exists() and folder.everything() != before:
                    raise Failure(f"{done.name}: was refused, and changed the store")
                if set(os.listdir(self.tree)) != tree:
                    raise Failure(f"{done.name}: was refused, and left something")
            del held
            shutil.rmtree(folder.top, ignore_errors=True)

    def all(self):
        for harm in (None, self.touch("t/x")):
            self.case(harm, "list", writes=self.DAYS)
        self.words()
        self.lists_of_days()
        self.damaged_stores()
        self.full_lists()
        self.damaged_days()
        self.damaged_pieces()
        self.locks()
        print(f"{self.count} cases of damage and of wrong words were given to both")

    # What harms a store.

    def put(self, name, bytes_):
        return lambda folder: (folder.top / name).write_bytes(bytes_) and None

    def touch(self, name):
        return self.put(name, b"")

    def gone(self, name):
        def harm(folder):
            path = folder.top / name
            shutil.rmtree(path) if path.is_dir() else path.unlink()
        return harm

    def length(self, name, count):
        def harm(folder):
            with open(folder.top / name, "ab") as file:
                file.truncate(count)
        return harm

    def flip(self, name, at=0):
        def harm(folder):
            bytes_ = bytearray((folder.top / name).read_bytes())
            bytes_[at] ^= 0xFF
            (folder.top / name).write_bytes(bytes_)
        return harm

    def both(self, *harms):
        def harm(folder):
            for one in harms:
                one(folder)
        return harm

    def lock(self, name):
        def harm(folder):
            file = open(folder.top / name, "wb")
            fcntl.flock(file, fcntl.LOCK_EX)
            return file
        return harm

    # The cases.

    def words(self):
        for words in (["64", "1"], ["0", "0"], ["0", "2"], ["0", "4"], ["0", "4294967296"], ["2", "1"],
                      ["0", "99999999999999999999"], ["99999999999999999999", "1"]):
            self.case(None, "list", *words, by=1)
            self.case(None, "go", *words, by=1)
            self.case(None, "back", *words, "a", by=1)
        for path in ("x", "a/", "b", "", "/a", "b/c/"):
            self.case(None, "back", "0", "1", path, by=1)
        for words in (["x", "1"], ["0", "x"], ["0", ""], ["0", "-1"], ["0", "+1"], ["0"], ["0", "1", "a", "b", "c"],
                      ["--nonsense", "0", "1"], ["0", "1 "], ["0", "1", "--store"], ["0", "1", "--store="],
                      ["0", b"\xff"], ["0", "1", "--", "--help", "b"]):
            self.case(None, "list", *words, by=None)
            self.case(None, "go", *words, by=None)
        self.case(None, "back", "0", "1", by=None)
        self.case(None, "back", "0", "1", "a", "b", "c", by=None)
        self.case(None, "back", "0", "1", b"\xff", by=None)
        for to in ("", "b", "b/", ".", "..", "/", "a/x"):
            self.case(None, "back", "0", "1", "a", to, by=None)
        self.case(None, "sweep", "0", by=None)
        self.case(None, "list", "--progress", by=None)
        for words in ([], ["x"], ["0", "0"], ["0-2", "1"], ["2-1"], ["0-"], ["-1"], ["0", "1"]):
            self.case(None, "init", *words, by=None)
        self.case(None, "list", "--store", "nothing", by=None)
        self.case(None, "list", "--store", "a", by=None)
        self.case(None, "list", "--store=.", by=None)
        for program in PROGRAMS:
            for words in (["--help"], ["x", b"\xff", "--store", "--help"]):
                for side in self.sides:
                    done = Started(side, program, words).wait()
                    succeeded(done)
                    if program.encode() not in done.output:
                        raise Failure(f"{done.name}: wrote {short(done.output)}")
            for side in self.sides:
                enough = {"init": ["0"], "day": ["0", "-"], "list": [], "back": ["0", "1", "a"], "go": ["0", "1"]}
                refused(Started(side, program, enough.get(program, [])).wait(), None)

    def lists_of_days(self):
        """Lists by which a day is made, or is not."""
        top = self.tree
        os.symlink("a", top / "link")
        os.mkfifo(top / "pipe")
        with open(top / "long", "wb") as file:
            file.truncate(MAX_FILE + 1)
        many = b"".join(b"many/%04d\n" % at for at in range(MAX_FILES + 1))
        (top / "many").mkdir()
        for path in many.split():
            (top / os.fsdecode(path)).touch()
        self.case(None, "day", "0", "-", writes=made(4, 0, 0, 0))
        self.case(None, "day", "0", "-", given=b"a\nb/c\nempty", writes=made(4, 3, 4, 5_003))
        self.case(None, "day", "5", "--", "-", given=b"./a\n./b/c\n", writes=made(1, 2, 4, 5_003))
        self.case(None, "day", "5", "-", given=b"a\n./b/c\n", writes=made(1, 2, 4, 5_003))
        # Just one './' counts for nothing.
        self.case(None, "day", "5", "-", given=b"././a\n./a\n", writes=made(1, 2, 2, 6))
        self.case(None, "day", "5", "-", given=many[:-len(b"many/0000\n")], writes=made(1, MAX_FILES, 0, 0))
        for text, number in (
            (b"\n", 1), (b"a\n\n", 1), (b"./\n", 1), (b"a\na\n", 1), (b"a\n./a\n", 1), (b"b/c\na\n", 1),
            (b"x" * 256, 1), (b"x" * 10_000, 1), (b"long\n", 1), (many, 1),
            (b"a\nnothing\n", None), (b"b\n", None), (b"link\n", None), (b"pipe\n", None), (b"\xff\n", None),
            (b"a\n././a\n", 1), (b"a\r\n", None), (b"a\0\n", None), (b"x" * 255, None), (b"./" + b"x" * 255, None),
            (b"a/b\n", None), (b" a\n", None),
        ):
            self.case(None, "day", "0", "-", given=text, by=number)
        self.case(None, "day", "2", "-", by=1)
        self.case(None, "day", "64", "-", by=1)
        self.case(None, "day", "x", "-", by=None)
        self.case(None, "day", "0", "nothing", by=None)
        self.case(None, "day", "0", "b", by=None)
        self.case(None, "day", "0", by=None)

    def every(self, harm, **expected):
        """Programs that need nothing but what was harmed."""
        given = {"list": [], "back": ["0", "1", "a"], "go": ["0", "1"], "day": ["0", "-"], "sweep": []}
        for program, number in expected.items():
            self.case(harm, program, *given[program], by=number)

    def damaged_stores(self):
        for name in (*FOLDERS, "d/0", "d/63", "machines"):
            self.every(self.gone(name), list=None, back=None, go=None, day=None, sweep=None)
        for text in (b"", b"0\n1\n", b"0\n1\nen", b"0\n0\nend\n", b"64\nend\n", b"x\nend\n", b"0\nend\n1\n",
                     b"-0\nend\n", b"0\nend of it\n", b"#" * 65_533 + b"\nend"):
            self.every(self.put("machines", text), day=None, sweep=None)
        for text in (b"0\nend", b"# x\r\n  0 it is\r\n\r\n end ", b"#" * 65_530 + b"\n0\nend"):
            self.case(self.put("machines", text), "day", "1", "-", by=1)
            self.case(self.put("machines", text), "sweep", writes=swept(0, 0, 0, "waits for 0"))
        # The sweep under way is ended, the next one begins, and it waits for none.
        self.case(self.put("machines", b"end\n"), "sweep", writes=swept(0, 0, 1, "rests"))
        number = (3).to_bytes(4, "big")
        right = number + name_of(number)
        for bytes_ in (b"", number, number + bytes(32), right + b"x", right[:35], name_of(b"")):
            self.every(self.put("m/0", bytes_), day=None, list=None, sweep=None)
        self.case(self.put("m/0", b"x"), "list", "0", "1", writes=b"3 a\n5000 b/c\n0 empty\n")
        for kept in (b"", b"\3", b"\0x", b"\1", b"\1" + bytes(252), b"\1" + bytes(260), b"\2\0"):
            self.every(self.put("s", kept + name_of(kept)), sweep=None)
        self.every(self.put("s", b"\0" + bytes(32)), sweep=None)
        self.every(self.flip("s", 200), sweep=None)
        last = (2**32 - 1).to_bytes(4, "big")
        self.case(self.put("m/1", last + name_of(last)), "day", "1", "-", by=6)
        self.case(self.put("d/0/4", b"x"), "day", "0", "-", by=2, changes=True)
        # What is not named yet is no day, and is removed.
        self.case(self.put("t/0", b"left"), "day", "0", "-", writes=made(4, 0, 0, 0))

    def full_lists(self):
        (self.tree / "new").write_bytes(b"nobody has this")
        ends = b"\2" + name_of(b"\2")
        rests = self.both(self.gone("s"), self.gone("d/1/1"), self.gone("d/0/1"))
        # With the one that is to be added.
        taken = len(self.base.list(0)) + len(self.base.list(1)) + len(self.base.list("a")) + 1
        for count, number in ((MAX_NAMES - taken, "done"), (MAX_NAMES - taken + 1, 5)):
            full = self.length("i/63", 32 * count)
            writes = b"" if number == 5 else made(4, 1, 1, 15, 1, 15)
            self.case(full, "day", "0", "-", given=b"new\n", by=number, writes=writes)
        full = self.length("i/63", 32 * MAX_NAMES)
        self.case(full, "day", "0", "-", given=b"a\n", writes=made(4, 1, 1, 3))
        self.case(self.both(full, rests), "sweep", by=5)
        self.case(self.both(full, self.put("s", ends)), "sweep",
                  writes=swept(0, 0, 1))
        # Only its own list is read; of the others the lengths count.
        for name, number in (("i/0", None), ("i/5", 5), ("i/a", 5)):
            long = self.length(name, 16_777_217)
            self.case(long, "day", "0", "-", given=b"new\n", by=number)
            self.case(self.both(long, self.gone("s")), "sweep", by=None)

    def damaged_days(self):
        file = self.base.read("d", "0", "1")
        for bytes_ in (b"", file[:-1], file + b"\0", file[:-32] + bytes(32), self.base.read("d", "1", "1"), b"D"):
            harm = self.put("d/0/1", bytes_)
            others = b"".join(self.DAYS.splitlines(True)[1:])
            self.case(harm, "list", by=2, writes=others)
            self.case(harm, "list", "0", "1", by=2)
            self.case(harm, "list", "0", "3", writes=b"0 empty\n")
            self.case(harm, "back", "0", "1", "a", by=2)
            self.case(harm, "back", "0", "1", "nothing", by=2)
            self.case(self.both(harm, self.gone("s")), "sweep", by=2)
            self.case(harm, "go", "0", "1", writes=b"day 1 of machine 0 is let go\n")
        # A day of the form that lists what nobody can have back.
        name = name_of(b"abc")
        for path, length, names in ((b"a", 2, [name]), (b"a", 4, [name]), (b"a", 3, []), (b"a", 3, [name, name])):
            harm = self.put("d/0/1", day_file(0, 1, [(path, length, names)]))
            self.case(harm, "list", "0", "1", writes=b"%d a\n" % length)
            self.case(harm, "back", "0", "1", "a", by=2)

    def damaged_pieces(self):
        piece, zeros = name_of(b"abc").hex(), name_of(bytes(2_048)).hex()
        for harm in (self.gone(f"p/{piece}"), self.flip(f"p/{piece}"), self.touch(f"p/{piece}"),
                     self.put(f"p/{piece}", b"abcd"), self.put(f"p/{piece}", b"abc" + bytes(65_534))):
            self.case(harm, "back", "0", "1", "a", by=2)
            self.case(harm, "back", "0", "1", "b/c", "had", writes=b"5000 had\n")
            self.case(self.both(harm, self.gone("s")), "sweep", by=2)
            self.case(harm, "day", "5", "-", given=b"a\n", writes=made(1, 1, 1, 3, 1, 3))
            aside = self.both(harm, self.put(f"a/{piece}", b"abc"))
            self.case(aside, "back", "0", "1", "a", "had", writes=b"3 had\n")
            self.case(aside, "day", "5", "-", given=b"a\n", writes=made(1, 1, 1, 3, 1, 3))
        self.case(self.put(f"a/{zeros}", b"x"), "back", "0", "1", "b/c", "had", writes=b"5000 had\n")
        # A piece aside that is listed and has wrong bytes is thrown away, also where a day has it.
        ends = b"\2" + name_of(b"\2")
        listed_aside = self.put("i/a", b"".join(self.base.list("a")) + bytes.fromhex(zeros))
        for bytes_, (back, away) in ((b"x", (0, 2)), (bytes(2_048), (1, 1))):
            harm = self.both(self.put("s", ends), listed_aside, self.put(f"a/{zeros}", bytes_))
            self.case(harm, "sweep", writes=swept(0, back, away))

    def locks(self):
        self.case(self.lock("t/0.lock"), "day", "0", "-", by=3)
        self.case(self.lock("t/0.lock"), "day", "1", "-", writes=made(2, 0, 0, 0))
        self.case(self.lock("t/0.lock"), "go", "0", "1", writes=b"day 1 of machine 0 is let go\n")
        self.case(self.lock("t/s.lock"), "sweep", by=4)
        self.case(self.lock("t/s.lock"), "day", "1", "-", writes=made(2, 0, 0, 0))


def test():
    start = time.monotonic()
    random_stores(int(os.environ.get("SEED") or 1), int(os.environ.get("STEPS") or 420))
    middle = time.monotonic()
    with tempfile.TemporaryDirectory(dir=SCRATCH) as top:
        Cases(top).all()
    print(f"{middle - start:.1f} s and {time.monotonic() - middle:.1f} s")


main(test)
