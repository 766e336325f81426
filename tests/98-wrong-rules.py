#!/usr/bin/env -S python3 -B
"""Where a rule is wrong, the theorem of the crate promise must not be proved. In a copy of
the specs that say what machines and the sweeper may do, one wrong rule at a time takes the
place of the right one, and the prover must then find no proof of a fact that the theorem
stands on. By the right rules it must prove all.

The copy stands in the specs of a copied promise. So the crates below are as they are here:
their code goes by the right rules, and would be refused first."""

import re
import shutil
import subprocess
import tempfile
from concurrent.futures import ThreadPoolExecutor
from pathlib import Path
from queue import SimpleQueue

from common import TOP, Failure, main

# The specs that have the rules, each by its crate and its name there.
RULES = [("days", "System"), ("sweeper", "System"), ("sweeper", "Sweepers"), ("sweeper", "Pieces")]

# What stands on the code of machines, which goes by the right rules: the copied promise does without it.
ON_CODE = ["src/files.rt", "specs/Back.antt", "proofs/Returns.antt", "proofs/files/days_come_back/Answers.antt"]

# How many checks there are at a time, and the seconds that one of them may take.
JOBS = 2
CHECK_LIMIT = 900

# A spec has this line just before its imports.
HEAD = "-- Assumes nothing.\n"


def use(module, *names):
    """An edit that imports more."""
    return HEAD, f"{HEAD}use Rattle.{module}.{{{', '.join(names)}}}\n"


# Wrong rules, in words, the spec of each, and its edits: what stands there just once, and what takes its place.
WRONG = [
    (
        "while the sweeper waits, only the days above the noted numbers count",
        "sweeper/Pieces",
        ("first : 1 ≤ d.number", "first : noted_in s.sweep d.machine < d.number"),
        (
            "-- a day that can be found",
            "abbrev pub noted_in : Sweep → ℕ → ℕ\n"
            "noted_in (kept.Waits h) i = unwrap_or (slice_get h.highest i) 0\n"
            "noted_in other i = 0\n\n"
            "-- a day that can be found",
        ),
        use("std.specs.Prelude", "slice_get"),
        use("std.specs.Option", "unwrap_or"),
        use("store.specs.declared.sweep.Sweep", "Sweep"),
        (HEAD, f"{HEAD}use Rattle.store.specs.declared.sweep.Sweep.TheVariants as kept\n"),
    ),
    (
        "days of a machine that is off the list do not count",
        "sweeper/Pieces",
        ("machine : d.machine < most_machines", "machine : s.machines d.machine ≡ true"),
    ),
    (
        "a number that is raised counts, with no day",
        "sweeper/Pieces",
        ("× IsSome (s.days (record { machine = i; number = n }))", "× Unit {0}"),
    ),
    (
        "what days have is put aside, too",
        "sweeper/System",
        ("IsSome (s.place n) × (FoundHas s n → ⊥)\n", "IsSome (s.place n) × Unit {0}\n"),
    ),
    (
        "putting aside throws the piece away",
        "sweeper/System",
        ("(put_aside n (w.store.place n) w.store).1", "with_place n None w.store"),
        use("store.specs.Effects", "with_place"),
    ),
    (
        "putting aside copies, and leaves the piece in its place",
        "sweeper/System",
        (
            "(put_aside n (w.store.place n) w.store).1",
            "with_place n (w.store.place n) (put_aside n (w.store.place n) w.store).1",
        ),
        use("store.specs.Effects", "with_place"),
    ),
    (
        "the numbers may be noted before all is aside, so that they are lower",
        "sweeper/System",
        ("noted_of h i ≡ w.store.highest i", "noted_of h i ≤ w.store.highest i"),
        use("std.specs.Prelude", "◌≤◌"),
    ),
    (
        "the sweeper does not ask for a day of the last machine",
        "sweeper/System",
        ("waits h → ((i : ℕ) → i < most_machines →", "waits h → ((i : ℕ) → i + 1 < most_machines →"),
        use("std.specs.Prelude", "◌+◌"),
    ),
    (
        "what is aside and in no day may be left there",
        "sweeper/System",
        ("IsSome (s.aside n) → (is_in n back", "IsSome (s.aside n) → FoundHas s n → (is_in n back"),
    ),
    (
        "the last piece that goes back may be thrown away",
        "sweeper/System",
        (
            "w.sweeper ≡ ends [] (n ∷ away) →",
            "(w.sweeper ≡ ends [] (n ∷ away)) ⊎ (w.sweeper ≡ ends (n ∷ []) away) →",
        ),
    ),
    (
        "putting back copies, and leaves the piece aside",
        "sweeper/System",
        (
            "(put_back n (w.store.aside n) w.store).1",
            "with_aside n (w.store.aside n) (put_back n (w.store.aside n) w.store).1",
        ),
    ),
    (
        "after a stop while it ends, the sweeper rests",
        "sweeper/Sweepers",
        ("up kept.Ends = anew", "up kept.Ends = rests"),
    ),
    (
        "after a stop while it waits, the sweeper decides at once",
        "sweeper/Sweepers",
        ("up (kept.Waits h) = waits h", "up (kept.Waits h) = anew"),
    ),
    (
        "a piece that is aside is found",
        "days/System",
        (
            "w.store.place (digest_of p) ≡ Some p →",
            "(w.store.place (digest_of p) ≡ Some p) ⊎ (w.store.aside (digest_of p) ≡ Some p) →",
        ),
        use("std.specs.Prelude", "◌⊎◌"),
    ),
    (
        "a piece may be written whose name is not listed",
        "days/System",
        ("w.store.listed (record { machine = i; name = digest_of p }) ≡ true →", "w.store.machines i ≡ true →"),
    ),
    (
        "a number is used again",
        "days/System",
        (
            "(with_highest i (w.store.highest i + 1) w.store) i (Some (with_number (w.store.highest i + 1) d))",
            "(with_highest i (w.store.highest i) w.store) i (Some (with_number (w.store.highest i) d))",
        ),
    ),
    (
        "a machine that is off the list may finish its day",
        "days/System",
        ("(k : ℕ) → w.store.machines i ≡ true →", "(k : ℕ) → IsSome (w.makes i) →"),
    ),
    (
        "a day takes the name of another",
        "days/System",
        (
            "d.number ≡ Some k → w.store.days (record { machine = i; number = k }) ≡ None →",
            "1 ≤ k → k ≤ w.store.highest i →",
        ),
    ),
]


def module(crate, name):
    """The name that such a spec has in the copied promise."""
    return crate.capitalize() + name


def renamed(text):
    """A text of the copied promise, by these names."""
    for crate, name in RULES:
        text = re.sub(rf"\bRattle\.{crate}\.specs\.{name}\b", f"Rattle.promise.specs.{module(crate, name)}", text)
    return text


def write_rules(promise, spec="", edits=()):
    """Writes the rules into the copied promise, with the edits of one of the specs."""
    for crate, name in RULES:
        text = (TOP / f"crates/{crate}/specs/{name}.antt").read_text()
        if spec == f"{crate}/{name}":
            for old, new in edits:
                if text.count(old) != 1:
                    raise Failure(f"{spec} has {old!r} {text.count(old)} times, and not once")
                text = text.replace(old, new)
        (promise / f"specs/{module(crate, name)}.antt").write_text(renamed(text))


def copied(top):
    """A copy of the crates, and in it the folder of promise, which has the right rules."""
    shutil.copy(TOP / "crates.txt", top)
    shutil.copytree(TOP / "crates", top / "crates", ignore=shutil.ignore_patterns("out", "must-fail"))
    promise = top / "crates/promise"
    for path in promise.rglob("*.antt"):
        path.write_text(renamed(path.read_text()))
    for path in ON_CODE:
        (promise / path).unlink()
    for lib, lines in [
        ("src/lib.rt", r"mod files;|pub use files::.*;"),
        ("specs/Lib.antt", "pub mod Back"),
        ("proofs/Lib.antt", "pub mod Returns"),
    ]:
        text = (promise / lib).read_text()
        (promise / lib).write_text(re.sub(rf"^(?:{lines})\n", "", text, flags=re.MULTILINE))
    with open(promise / "specs/Lib.antt", "a") as lib:
        lib.writelines(f"pub mod {module(crate, name)}\n" for crate, name in RULES)
    write_rules(promise)
    return promise


def check(promise, jobs):
    """Whether all is proved, and what `rt check` says."""
    command = ["rt", "check", "--jobs", str(jobs)]
    streams = {"stdin": subprocess.DEVNULL, "stdout": subprocess.PIPE, "stderr": subprocess.STDOUT}
    done = subprocess.run(command, cwd=promise, text=True, timeout=CHECK_LIMIT, **streams)
    if done.returncode not in (0, 1):
        raise Failure(f"rt check ends with status {done.returncode}: {done.stdout[-2000:]!r}")
    return done.returncode == 0, done.stdout


def refuse(promise, words, spec, *edits):
    """By this wrong rule the prover must find no proof of some fact, and must find nothing else wrong."""
    write_rules(promise, spec, edits)
    try:
        proved, said = check(promise, 1)
    finally:
        write_rules(promise)
    if proved:
        raise Failure(f"all is proved, also where {words}")
    errors = re.findall(r"^(\S+?):\d+:\d+: (?:error: )?(.*)", said, re.MULTILINE)
    for file, error in errors:
        if not file.startswith("./proofs/"):
            raise Failure(f"{file} is refused itself where {words}: {error}")
    facts = [
        f"{Path(file).stem}.{lemma[1]}"
        for file, error in errors
        if (lemma := re.match(r"`(\w+)`: `(?:grind|omega)`", error))
    ]
    if not facts:
        raise Failure(f"no fact is left unproved where {words}: {errors or said[-2000:]!r}")
    return facts[0]


def test():
    with tempfile.TemporaryDirectory() as top:
        tops = [Path(top) / str(number) for number in range(JOBS)]
        for folder in tops:
            folder.mkdir()
        # The first check, by the right rules, leaves the crates below for those that follow.
        copies = [copied(folder) for folder in tops]
        proved, said = check(copies[0], JOBS)
        if not proved:
            raise Failure(f"not proved by the right rules: {said[-2000:]!r}")

        free = SimpleQueue()
        for promise in copies:
            free.put(promise)

        def refuse_in_turn(rule):
            promise = free.get()
            try:
                return refuse(promise, *rule)
            finally:
                free.put(promise)

        with ThreadPoolExecutor(JOBS) as pool:
            try:
                facts = list(pool.map(refuse_in_turn, WRONG))
            finally:
                pool.shutdown(cancel_futures=True)
    for (words, *_), fact in zip(WRONG, facts):
        print(f"{words}: {fact} is not proved")
    print(f"{len(WRONG)} wrong rules are refused; by the right ones all is proved")


main(test)
