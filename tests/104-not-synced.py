#!/usr/bin/env -S python3 -B
"""What a power cut leaves of a store, at every moment of runs of all programs, also where
programs were killed before: tests/crashes.py says what may be lost. In each such state every
day that was reported is there, a day that is being made or let go is there whole or not at
all, no number can be used again, and nothing lies where no sweep finds it. On some of the
states the programs are run: days come back, the next days and whole sweeps work.

Then syncs are dropped from what was recorded: each time the same checks must find a loss.

A word, as `104-not-synced.py 5`, is how much is tried, 1 in the gate; the environment
variable PROGRAMS names the folder of the programs."""

import multiprocessing
import os
import random
import re
import shutil
import sys
import tempfile
from dataclasses import dataclass
from pathlib import Path

import crashes
import stores
from common import Failure, generated, main
from crashes import Disk, Loss, Told

# The seed of all that is chosen at random.
SEED = 104

# In how many parts the stories are played, each by a process of its own.
SHARES = 4

# How many random states are tried at each moment, and on how many of all states of a share of a
# story the programs are run, with effort 1.
RANDOM_STATES = 6
SAMPLES = 20


# Files of the days: with one piece, with two that are the same, with several.
A, B, C, D, E, F = (generated(seed, 50 * seed) for seed in range(1, 7))
ZEROS = bytes(5_000)
LONG = generated(7, 30_000)


@dataclass
class Act:
    """What one run of a program does: which program, and for which day, or to which file."""

    kind: str
    words: str
    command: list
    place: Path
    machine: int = None
    number: int = None
    files: dict = None
    day: object = None
    to: str = None
    content: bytes = None
    may_lack_folders: bool = False

    def path(self):
        return f"store/d/{self.machine}/{self.number}"

    def pass_step(self, told, step):
        """Notes what is known by this step."""
        if self.kind == "day":
            if step.kind == "change" and re.fullmatch(f"(link|rename .*) {self.path()}", step.label):
                told.begin_day(self.machine, self.number, self.day)
            elif step.kind == "told" and (self.machine, self.number) not in told.kept:
                told.end_day(self.machine, self.number)
        elif self.kind == "back":
            if step.kind == "told":
                told.written[self.to] = [self.content, None] if self.may_lack_folders else [self.content]
            elif step.kind == "change" and step.label.endswith(" " + self.to):
                told.written[self.to] = told.written.get(self.to, [None]) + [self.content]
        elif self.kind == "init":
            told.is_store = told.is_store or step.kind == "told"
        elif self.kind == "go":
            if step.label == "unlink " + self.path():
                told.begin_go(self.machine, self.number)
            elif step.kind == "told":
                told.end_go(self.machine, self.number)


# What stands for a step before the first one.
BEGINNING = crashes.Step("none", "the beginning")


@dataclass
class Scene:
    """A moment between runs: a medium that is durable, or what a recorded take left, whole or cut off after a step."""

    start: object = None
    told: object = None
    take: object = None
    count: int = None

    def remake(self, keeps=None):
        """The medium and what was told; `keeps` says which steps are not dropped."""
        if self.take is None:
            return self.start.copy(), self.told.copy()
        disk, told = self.take.scene.remake(keeps)
        for step, act in self.take.steps[: self.count]:
            if keeps is None or keeps(step):
                disk.do(step)
            act.pass_step(told, step)
        return disk, told


@dataclass
class Take:
    """A recorded run, or several at the same time: their steps in order."""

    scene: Scene
    steps: list

    def cut(self, count):
        """The moment after so many steps, at which all these programs were killed."""
        return Scene(take=self, count=count)

    def end(self):
        return self.cut(len(self.steps))

    def count_to(self, pattern, nth=1):
        """How many steps there are up to and with the one of this label."""
        for count, (step, _) in enumerate(self.steps, 1):
            if re.fullmatch(pattern, step.label):
                nth -= 1
                if nth == 0:
                    return count
        raise Failure(f"{self.name()} has no step {pattern}: {[step.label for step, _ in self.steps]}")

    def cuts(self):
        """How many steps are done where a kill may matter: after each by which something is
        changed or durable that was not."""
        last, counts = None, []
        for count, (disk, told, step) in enumerate(self.moments()):
            now = (len(disk.changes), tuple(disk.durable), id(disk.base), repr(told))
            if 0 < count < len(self.steps) and now != last:
                counts.append(count)
            last = now
        return counts

    def name(self):
        return " while ".join(dict.fromkeys(act.words for _, act in self.steps)) or "nothing"

    def moments(self, keeps=None):
        """The medium at the beginning and after each step, what was told by then, and the step."""
        disk, told = self.scene.remake(keeps)
        yield disk, told, BEGINNING
        for step, act in self.steps:
            if keeps is None or keeps(step):
                disk.do(step)
            act.pass_step(told, step)
            yield disk, told, step


class Theatre:
    """Where takes are recorded and tried: a folder, what is chosen at random, and counts."""

    def __init__(self, top, effort, seed, share=0, shares=1):
        self.top = Path(top)
        self.root = self.top / "root"
        self.effort = effort
        self.chance = random.Random(seed)
        self.share, self.shares = share, shares
        self.states = self.runs = self.samples = self.seen = 0
        self.waiting, self.rare = [], []

    def turns(self, items):
        """Those of the items that fall to this share."""
        return [item for at, item in enumerate(items) if at % self.shares == self.share]

    # Recording.

    def day(self, scene, machine, files):
        """A machine makes a day of these files."""
        return self.play(scene, self.day_act(machine, files))

    def go(self, scene, machine, number):
        act = self.act("go", machine, number)
        act.machine, act.number = machine, number
        return self.play(scene, act)

    def sweep(self, scene):
        return self.play(scene, self.act("sweep"))

    def back_to(self, scene, machine, number, path, to, content):
        """`back` writes a file of a day to a path in the folder out."""
        to = f"out/{to}"
        act = self.act("back", machine, number, path, self.root / to)
        act.to, act.content = to, content
        # Folders that a killed run has made are there, and the next one does not make them durable.
        disk, labels = scene.remake()[0], all_labels(scene)
        act.may_lack_folders = any(labels[id(disk.changes[at])].startswith("mkdir ") for at in disk.pending())
        return self.play(scene, act)

    def act(self, kind, *words):
        words = list(map(str, words))
        command = [os.fspath(stores.program(kind)), "--store", os.fspath(self.root / "store"), *words]
        return Act(kind, " ".join([kind, *words]), command, self.top)

    def day_act(self, machine, files):
        """A day of these files, which lie in a folder of their own."""
        place = Path(tempfile.mkdtemp(dir=self.top))
        stores.write_tree(place / "files", files)
        (place / "names").write_bytes(stores.list_of(files))
        act = self.act("day", machine, place / "names")
        act.place, act.words = place / "files", f"day {machine} of {' '.join(sorted(files)) or 'no files'}"
        act.machine, act.files = machine, files
        return act

    def play(self, scene, act):
        """Records one run."""
        disk, _ = scene.remake()
        run = crashes.record(disk, self.root, act.command, act.place, environment())
        self.ended(act, run)
        return Take(scene, [(step, act) for step in run.steps])

    def play_between(self, scene, outer, moment, inners):
        """Records a run that is stopped at a moment, while others are run, and then goes on."""
        disk, _ = scene.remake()
        parts = crashes.record_between(disk, self.root, outer, moment, inners, environment())
        for act, run in parts:
            self.ended(act, run)
        return Take(scene, [(step, act) for act, run in parts for step in run.steps])

    def ended(self, act, run):
        self.runs += 1
        if run.status is None:
            return
        if run.status != 0:
            raise Failure(f"{act.words}: status {run.status}: {run.err!r}")
        if act.kind == "day":
            act.number = int(run.out.split()[1])
            act.day = day_of(act.machine, act.number, act.files)

    def durable(self, store):
        """The moment at which a store is there, all of it durable."""
        told = Told()
        for (machine, number), files in store.kept.items():
            told.begin_day(machine, number, day_of(machine, number, files))
            told.end_day(machine, number)
        return Scene(crashes.from_folder(self.root), told)

    def settled(self, state, told):
        """The moment after a power cut that left this state: what is there is durable."""
        told = told.copy()
        for name in list(told.maybe):
            day = told.maybe.pop(name)
            if is_there(state, name):
                told.kept[name] = day
        return Scene(crashes.durable(state), told)

    def some_states(self, take, count):
        """Some of the states that a power cut may leave during a take, and what was told by then; one
        of them of the rare kind where what a program is writing is a second name of a day file."""
        found, rare, seen = [], [], 0
        for disk, told, _ in take.moments():
            for kept in disk.after_cut(self.chance, RANDOM_STATES * self.effort):
                seen += 1
                if self.chance.randrange(seen) < count:
                    found = found[-count + 1 :] + [(disk.left(kept), told.copy())]
                if not rare and has_second_name(disk.left(kept)):
                    rare.append((disk.left(kept), told.copy()))
        return found + rare

    def after_power_cut(self, scene, kept):
        """The moment after a power cut that left those changes of which the label has this pattern."""
        disk, told = scene.remake()
        labels = all_labels(scene)
        kept = {at: None for at in disk.pending() if re.search(kept, labels[id(disk.changes[at])])}
        return self.settled(disk.left(kept), told)

    # Trying.

    def try_all(self, take, keeps=None):
        """Checks all states that a power cut may leave at each moment of a take; returns how many."""
        last, before = None, self.states
        for count, (disk, told, step) in enumerate(take.moments(keeps)):
            if keeps is None and step.kind == "told":
                check_reported(take, disk, count)
            now = (len(disk.changes), tuple(disk.durable), repr(told))
            if now == last:
                continue
            last = now
            for kept in disk.after_cut(self.chance, RANDOM_STATES * self.effort):
                self.states += 1
                state = disk.left(kept)
                try:
                    crashes.check(state, told)
                except Loss as loss:
                    raise Loss(f"{loss}; {in_words(take, disk, count, kept)}") from None
                if keeps is None:
                    self.sample(state, told, (take, disk, count, kept))
        return self.states - before

    def sample(self, state, told, where):
        """Keeps some of the states for the programs, each as likely as another, and the first few of a rare kind:
        those where what a program is writing is a second name of a day file."""
        self.seen += 1
        place = len(self.waiting) if len(self.waiting) < SAMPLES * self.effort else self.chance.randrange(self.seen)
        is_rare = len(self.rare) < 3 * self.effort and has_second_name(state)
        if place >= SAMPLES * self.effort and not is_rare:
            return
        take, disk, count, kept = where
        disk = disk.copy()
        kept_state = (state, told.copy(), lambda: in_words(take, disk, count, kept))
        if is_rare:
            self.rare.append(kept_state)
        elif place < len(self.waiting):
            self.waiting[place] = kept_state
        else:
            self.waiting.append(kept_state)

    def run_samples(self):
        """Runs the programs on the states that were kept, on each once."""
        done = set()
        for state, told, where in self.waiting + self.rare:
            if state.print() in done:
                continue
            done.add(state.print())
            self.samples += 1
            try:
                self.go_on(state, told)
            except Failure as failure:
                raise Failure(f"{failure}; {where()}") from None

    def go_on(self, state, told):
        """The programs go on after a power cut."""
        shutil.rmtree(self.root, ignore_errors=True)
        state.write_out(self.root)
        if state.read(b"store/machines") is None:
            again = stores.run("init", "--store", self.root / "store", "0", "1")
            if again.status != 0:
                raise Failure(f"init, called again: {again.err!r}")
            state = crashes.from_folder(self.root).now
        there = {name: day.files for name, day in (told.maybe | told.kept).items() if is_there(state, name)}
        store = stores.Store(self.root / "store", there)
        check_list(store)
        store.check_days()
        store.check_back()
        files = {"new": self.chance.randbytes(70), "zeros": ZEROS, "e": E, "f": F, "long": LONG}
        for machine in stores.machines(store.at):
            if store.day(machine, files) <= told.highest.get(machine, 0):
                raise Failure(f"machine {machine} uses a number again")
        if self.chance.random() < 0.5:
            store.sweep()
            store.go(*self.chance.choice(sorted(store.kept)))
        store.whole_sweeps()
        store.check_back()


def check_reported(take, disk, count):
    """What a program did that has told its success is durable, but for names in t."""
    act = take.steps[count - 1][1]
    own = {id(step.change): step.label for step, other in take.steps if other is act and step.change}
    for at in disk.pending():
        label = own.get(id(disk.changes[at]), "none store/t/")
        if not all(path.startswith("store/t/") for path in label.split(" ")[1:]):
            raise Loss(f"{act.words} reported, and a power cut may undo its '{label}'; runs: {history(take)}")


def in_words(take, disk, count, kept):
    """A state in words: the runs, the step, and what is lost."""
    labels = all_labels(take.end())
    lost = [labels[id(disk.changes[at])] for at in disk.pending() if at not in kept]
    cut = [f"{labels[id(disk.changes[at])]} ({part})" for at, part in kept.items() if part is not None]
    step = take.steps[count - 1][0].label if count else "the beginning"
    return f"runs: {history(take)}; power cut after '{step}' (step {count}); lost: {lost}; in part: {cut}"


def has_second_name(state):
    """Whether something in t is a day file, too."""
    nodes = set((state.folder(b"store/t") or {}).values())
    days = (state.folder(b"store/d") or {}).values()
    return any(not nodes.isdisjoint(state.folders[node].values()) for node in days)


def day_of(machine, number, files):
    pieces = [bytes.fromhex(name) for name in stores.pieces_of(files)]
    return crashes.Day(stores.day_bytes(machine, number, files), pieces, files)


def is_there(state, name):
    return state.read(b"store/d/%d/%d" % name) is not None


def check_list(store):
    """`list` lists just the days that there are."""
    lines = store.did("list").decode().splitlines()
    listed = [(int(line.split()[1]), int(line.split()[3])) for line in lines]
    if listed != sorted(store.kept):
        raise Failure(f"list: lists the days {listed}, not {sorted(store.kept)}")


def all_labels(scene):
    """The labels of all changes up to a scene."""
    labels = {}
    while scene.take is not None:
        labels |= {id(step.change): step.label for step, _ in scene.take.steps if step.change}
        scene = scene.take.scene
    return labels


def history(take):
    """The runs up to a take and with it, in words."""
    runs, scene = [take.name()], take.scene
    while scene.take is not None:
        is_whole = scene.count == len(scene.take.steps)
        last = scene.take.steps[scene.count - 1][0].label
        runs.append(scene.take.name() + ("" if is_whole else f" killed after '{last}'"))
        scene = scene.take.scene
    return ", ".join(reversed(runs))


def environment():
    return {key: word for key, word in os.environ.items() if key != "ZELTUVA_STORE"}


# The stores from which the runs begin.


def fresh(theatre):
    """A store without days."""
    shutil.rmtree(theatre.root, ignore_errors=True)
    theatre.root.mkdir()
    return stores.new_store(theatre.root / "store", 0, 1)


def with_days(theatre):
    """A store with days of machines 0 and 1, and of 2, which is no longer on the list."""
    shutil.rmtree(theatre.root, ignore_errors=True)
    theatre.root.mkdir()
    store = stores.new_store(theatre.root / "store", 0, 1, 2)
    store.day(0, {"a": A, "b": B})
    store.day(1, {"a": A, "d": D})
    store.day(2, {"b": B, "c": C, "zeros": ZEROS})
    store.day(0, {"a": A})
    machines = store.at / "machines"
    machines.write_text("".join(line for line in machines.read_text().splitlines(True) if not line.startswith("2")))
    return store


# The stories: each yields takes, all of whose states are tried.


def beginnings(theatre):
    """A store is made, killed anywhere, made again where it is none yet; and its first day."""
    scene = Scene(Disk(), Told(is_store=False))
    made = theatre.play(scene, theatre.act("init", 0, 1))
    if theatre.share == 0:
        yield made
    for count in theatre.turns(made.cuts()):
        disk, _ = made.cut(count).remake()
        if disk.now.read(b"store/machines") is None:
            yield theatre.play(made.cut(count), theatre.act("init", 0, 1))


def first_days(theatre):
    """The first days of a machine, whose list and number are new, and each of them let go."""
    scene = theatre.durable(fresh(theatre))
    one = theatre.day(scene, 0, {"a": A, "e": E, "f": F, "zeros": ZEROS})
    two = theatre.day(one.end(), 0, {"a": A, "f": B, "long": LONG})
    three = theatre.go(two.end(), 0, 1)
    four = theatre.go(three.end(), 0, 2)
    yield from theatre.turns([one, two, three, four])


def killed_days(theatre, first, machine):
    """A day is killed at each of its steps, and then a machine makes a day of the same pieces."""
    scene = theatre.durable(first(theatre))
    killed = theatre.day(scene, 0, {"e": E, "f": F})
    for count in theatre.turns(killed.cuts()):
        yield theatre.day(killed.cut(count), machine, {"a": A, "e": E, "f": F})


def first_day_found(theatre):
    yield from killed_days(theatre, fresh, 1)


def first_day_again(theatre):
    yield from killed_days(theatre, fresh, 0)


def day_found(theatre):
    yield from killed_days(theatre, with_days, 1)


def day_again(theatre):
    yield from killed_days(theatre, with_days, 0)


def swept_after_days(theatre):
    """A day is killed at each of its steps, and a sweep looks, and the next one decides."""
    scene = theatre.durable(with_days(theatre))
    killed = theatre.day(scene, 0, {"e": E, "zeros": ZEROS})
    for count in theatre.turns(killed.cuts()):
        yield from two_sweeps(theatre, killed.cut(count))


def two_sweeps(theatre, scene):
    looked = theatre.sweep(scene)
    one = theatre.day(looked.end(), 1, {"zeros": ZEROS})
    two = theatre.day(one.end(), 0, {})
    yield from [looked, one, theatre.sweep(two.end())]


def swept_after_go(theatre):
    """A day is let go, killed at each step or not, and swept."""
    gone = theatre.go(theatre.durable(with_days(theatre)), 2, 1)
    for count in theatre.turns(gone.cuts() + [len(gone.steps)]):
        yield from two_sweeps(theatre, gone.cut(count))


def looks(theatre):
    """A sweep that puts aside is killed at each of its steps, and goes on, or days are made."""
    gone = theatre.go(theatre.durable(with_days(theatre)), 2, 1)
    looked = theatre.sweep(gone.cut(gone.count_to("unlink store/d/2/1")))
    yield from after_each_step(theatre, looked)


def after_each_step(theatre, swept):
    """A sweep is killed at each of its steps; another one goes on, and machines make days of what it has moved."""
    for count in theatre.turns(swept.cuts()):
        yield theatre.sweep(swept.cut(count))
        found = theatre.day(swept.cut(count), 0, {"c": C, "zeros": ZEROS})
        yield found
        yield theatre.sweep(theatre.day(found.end(), 1, {}).end())


def before_decision(theatre):
    """Pieces of a day that is back after a power cut are aside, and such that no day has."""
    scene = theatre.durable(with_days(theatre))
    killed = theatre.day(scene, 0, {"e": E, "f": F})
    gone = theatre.go(killed.cut(killed.count_to("rename .* store/p/.*", 2)), 2, 1)
    looked = theatre.sweep(gone.cut(gone.count_to("unlink store/d/2/1")))
    scene = theatre.after_power_cut(looked.end(), "^(?!unlink store/d/)")
    return theatre.day(theatre.day(scene, 0, {"a": A}).end(), 1, {}).end()


def decides(theatre):
    """A sweep that puts back and throws away is killed at each of its steps, and goes on, or days are made."""
    decided = theatre.sweep(before_decision(theatre))
    decided.count_to("rename store/a/.* store/p/.*")
    decided.count_to("unlink store/a/.*")
    if theatre.share == 0:
        yield decided
    yield from after_each_step(theatre, decided)


def decides_anew(theatre):
    """Such a sweep is killed at each of its steps; then the day whose pieces it puts back is
    let go, killed before that is durable; the next sweep decides anew."""
    decided = theatre.sweep(before_decision(theatre))
    for count in theatre.turns(decided.cuts() + [len(decided.steps)]):
        gone = theatre.go(decided.cut(count), 2, 1)
        anew = theatre.sweep(gone.cut(gone.count_to("unlink store/d/2/1")))
        yield anew
        days = theatre.day(theatre.day(anew.end(), 0, {}).end(), 1, {})
        yield theatre.sweep(days.end())


def swept_between(theatre):
    """A day is stopped at each of its syncs and renames, while a sweep puts aside what it has found
    and not named; then it goes on, and the next sweep decides. Or its day is let go before that,
    killed before that is durable."""
    gone = theatre.go(theatre.durable(with_days(theatre)), 2, 1)
    whole = theatre.day(gone.end(), 0, {"c": C, "e": E, "zeros": ZEROS})
    for moment in theatre.turns(moments_of(whole)):
        day = theatre.day_act(0, {"c": C, "e": E, "zeros": ZEROS})
        both = theatre.play_between(gone.end(), day, moment, [theatre.act("sweep")])
        yield both
        scene = theatre.day(both.end(), 1, {"c": C}).end()
        yield theatre.sweep(scene)
        let_go = theatre.go(scene, 0, day.number)
        yield theatre.sweep(let_go.cut(let_go.count_to(f"unlink store/d/0/{day.number}")))


def moments_of(take):
    """The moments at which a run like this take may be stopped: after each of its syncs and renames,
    but one of the many folders of days."""
    counts, moments = {}, []
    for step, _ in take.steps:
        if step.kind == "sync" or step.label.startswith("rename "):
            counts[step.call] = counts.get(step.call, 0) + 1
            if not re.fullmatch("sync store/d/([013-9]|[1-9][0-9])", step.label):
                moments.append(f"{step.call}:when={counts[step.call]}")
    return moments


def days_between(theatre):
    """A sweep is stopped at each of its syncs and renames, while days are made."""
    gone = theatre.go(theatre.durable(with_days(theatre)), 2, 1)
    for scene in (gone.end(), before_decision(theatre)):
        whole = theatre.sweep(scene)
        for moment in theatre.turns(moments_of(whole)):
            days = [theatre.day_act(0, {"c": C, "zeros": ZEROS}), theatre.day_act(1, {"e": E})]
            both = theatre.play_between(scene, theatre.act("sweep"), moment, days)
            yield both
            yield theatre.sweep(theatre.day(both.end(), 0, {}).end())


def backs(theatre):
    """A file is had back to a new folder, and over another file; also after a kill."""
    store = with_days(theatre)
    (theatre.root / "out").mkdir()
    (theatre.root / "out/old").write_bytes(bytes(100))
    scene = theatre.durable(store)
    for path, number, content in (("deep/new/a", 1, A), ("old", 2, A)):
        scene.told.written["out/" + path] = [bytes(100) if path == "old" else None]
        whole = theatre.back_to(scene, 0, number, "a", path, content)
        if theatre.share == 0:
            yield whole
        for count in theatre.turns(whole.cuts()):
            yield theatre.back_to(whole.cut(count), 0, number, "a", path, content)


def used_early(theatre):
    """A store is made, killed when it is one already, and a day is made on it. Its list may be lost then;
    `init` makes it again, and the day is there."""
    made = theatre.play(Scene(Disk(), Told(is_store=False)), theatre.act("init", 0, 1))
    for count in theatre.turns(made.cuts()):
        scene = made.cut(count)
        if scene.remake()[0].now.read(b"store/machines") is not None:
            yield theatre.day(scene, 0, {"a": A})


def cut_twice(theatre):
    """After a power cut the programs go on, and there is another one."""
    scene = theatre.durable(with_days(theatre))
    takes = [theatre.day(scene, 0, {"e": E, "zeros": ZEROS}), theatre.sweep(before_decision(theatre))]
    for take in takes:
        for state, told in theatre.some_states(take, 2 * theatre.effort):
            scene = theatre.settled(state, told)
            yield theatre.day(scene, 0, {"c": C, "e": E, "f": F})
            yield from two_sweeps(theatre, scene)


STORIES = [
    first_day_found, first_day_again, day_found, day_again, swept_after_days, swept_after_go, looks, decides,
    decides_anew, swept_between, days_between, first_days, beginnings, used_early, backs, cut_twice,
]


# That the checks find what is lost where a program does not sync.


def syncs(pattern):
    """Drops the syncs of which the label has this pattern."""
    return lambda takes: [step for step in steps_of(takes) if re.fullmatch("sync " + pattern, step.label)]


def syncs_before(pattern):
    """Drops the last sync of a file before it gets a name of this pattern."""

    def dropped(takes):
        found, steps = [], steps_of(takes)
        for at, step in enumerate(steps):
            if re.fullmatch(pattern, step.label):
                before = [other for other in steps[:at] if other.kind == "sync" and other.node == step.change.given]
                found += before[-1:]
        return found

    return dropped


def steps_of(takes):
    return [step for take in takes for step, _ in take.steps]


def one_day(theatre):
    return [theatre.day(theatre.durable(fresh(theatre)), 0, {"e": E, "f": F})]


def found_day(theatre):
    killed = one_day(theatre)[0]
    return [theatre.day(killed.cut(killed.count_to("rename .* store/p/.*", 2)), 1, {"e": E, "f": F})]


def listed_again(theatre):
    killed = one_day(theatre)[0]
    return [theatre.day(killed.cut(killed.count_to("write store/i/0")), 0, {"e": E, "f": F})]


def one_go(theatre):
    return [theatre.go(theatre.durable(with_days(theatre)), 2, 1)]


def one_look(theatre):
    return [theatre.sweep(one_go(theatre)[0].end())]


def one_decision(theatre):
    gone = one_go(theatre)[0]
    looked = theatre.sweep(gone.cut(gone.count_to("unlink store/d/2/1")))
    return [theatre.sweep(theatre.day(theatre.day(looked.end(), 0, {}).end(), 1, {}).end())]


def one_anew(theatre):
    decided = theatre.sweep(before_decision(theatre))
    scene = decided.cut(decided.count_to("rename .* store/s"))
    gone = theatre.go(scene, 2, 1)
    return [theatre.sweep(gone.cut(gone.count_to("unlink store/d/2/1")))]


def one_back(theatre):
    store = with_days(theatre)
    (theatre.root / "out").mkdir()
    return [theatre.back_to(theatre.durable(store), 0, 1, "a", "new", A)]


def one_beginning(theatre):
    return [theatre.play(Scene(Disk(), Told(is_store=False)), theatre.act("init", 0, 1))]


# What is played, which syncs are dropped, and what the checks must find.
TEETH = [
    (one_day, syncs("store/p"), "lacks the piece"),
    (found_day, syncs("store/p"), "lacks the piece"),
    (one_day, syncs_before("rename .* store/p/.*"), "lacks the piece"),
    (one_day, syncs("store/m"), "would be used again"),
    (one_day, syncs_before("rename .* store/m/0"), "number of machine 0 is damaged"),
    (one_day, syncs("store/i/0"), "no list has"),
    (one_day, syncs("store/i"), "no list has"),
    (listed_again, syncs("store/i/0"), "no list has"),
    (listed_again, syncs("store/i"), "no list has"),
    (one_day, syncs_before("(link|rename .*) store/d/0/1"), "has other bytes"),
    (one_day, syncs("store/d/0"), "reported and is lost"),
    (one_go, syncs("store/d/2"), "let go and is back"),
    (one_look, syncs("store/i/a"), "the sweeper's list lacks"),
    (one_look, syncs("store/i"), "the sweeper's list lacks"),
    (one_look, syncs_before("rename .* store/s"), "what the sweeper does is damaged"),
    (one_decision, syncs("store/d/.*"), "lacks the piece"),
    (one_anew, syncs("store/d/.*"), "lacks the piece"),
    (one_back, syncs_before("rename .* out/new"), "has other bytes"),
    (one_back, syncs("out"), "was written and is lost"),
    (one_beginning, syncs("store"), "is gone|list of machines"),
    (one_beginning, syncs_before("(link|rename .*) store/machines"), "list of machines"),
]


def bite(number):
    """One of the teeth: the loss must be found, and none where nothing is dropped."""
    story, dropped, words = TEETH[number]
    with stores.folder() as top:
        theatre = Theatre(top, 1, f"{SEED} teeth {number}")
        takes = story(theatre)
        what = f"tooth {number + 1}, {story.__name__}, '{words}'"
        drop = {id(step) for step in dropped(takes)}
        if not drop:
            raise Failure(f"{what}: there is no such sync to drop")
        for take in takes:
            theatre.try_all(take)
        try:
            for take in takes:
                theatre.try_all(take, lambda step: id(step) not in drop)
        except Loss as loss:
            if not re.search(words, str(loss)):
                raise Failure(f"{what}: something else is found: {loss}") from None
            return theatre.runs, theatre.states, 0
        raise Failure(f"{what}: syncs were dropped, and no loss was found")


def play(story, share, effort):
    """A share of a story: the states of its takes, and the programs on some of them."""
    with stores.folder() as top:
        theatre = Theatre(top, effort, f"{SEED} {story.__name__} {share}", share, SHARES)
        for take in story(theatre):
            theatre.try_all(take)
        theatre.run_samples()
        return theatre.runs, theatre.states, theatre.samples


def do(job):
    """One job, in a process of its own: its counts, or why it failed."""
    name, *words = job
    try:
        return (bite(*words) if name == "bite" else play(*words)), None
    except Failure as failure:
        return None, f"{words[0].__name__ if name == 'play' else 'teeth'}: {failure}"


def test():
    effort = int(sys.argv[1]) if len(sys.argv) > 1 else 1
    jobs = [("bite", number) for number in range(len(TEETH))]
    jobs += [("play", story, share, effort) for story in STORIES for share in range(SHARES)]
    with multiprocessing.Pool(min(len(jobs), os.cpu_count() or 1)) as pool:
        results = pool.map(do, jobs, 1)
    failures = [failure for _, failure in results if failure]
    if failures:
        print("\n".join(failures[:-1]))
        raise Failure(failures[-1])
    runs, states, samples = (sum(counts[at] for counts, _ in results) for at in range(3))
    print(f"{runs} runs recorded, {states} states after a power cut, on {samples} of which the programs went on")
    print(f"{len(TEETH)} times syncs were dropped, and the loss was found")


main(test)
