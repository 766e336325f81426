"""Programs, measured: how long they take, how much memory they have at most, and how often they sync."""

import os
import shutil
import subprocess
import tempfile
import time
from typing import NamedTuple

TIME = "/usr/bin/time"

# What counts as a sync.
SYNCS = ["fsync", "fdatasync", "sync", "syncfs"]


# KiB of memory that a program of ours may have beside the largest file.
MOST_BESIDE = 64 << 10

# Syncs of a day beside those of its pieces and of its files with new pieces.
MOST_SYNCS_BESIDE = 20


class Failed(Exception):
    """A program that did not do what it was asked, or took too much for it."""


class Taken(NamedTuple):
    """What a run took: seconds in all, of the processor in the program and in the system, and KiB of memory at most."""

    seconds: float
    user: float
    system: float
    peak: int
    out: str


class Calls(NamedTuple):
    """What strace counted: calls of each name and the seconds in them, and the seconds of the whole run."""

    counts: dict
    within: dict
    seconds: float
    out: str

    def syncs(self):
        return sum(self.counts.get(name, 0) for name in SYNCS)

    def sync_seconds(self):
        return sum(self.within.get(name, 0) for name in SYNCS)


def took(command, **more):
    """Runs a command to its end, and its children, of which the largest counts for the memory."""
    if not os.access(TIME, os.X_OK):
        return took_by_wait(command, **more)
    with tempfile.NamedTemporaryFile("r") as report:
        begun = time.monotonic()
        out = output([TIME, "-o", report.name, "-f", "%U %S %M", *command], **more)
        seconds = time.monotonic() - begun
        user, system, peak = report.read().split()
    return Taken(seconds, float(user), float(system), int(peak), out)


def took_by_wait(command, **more):
    """The same without GNU time. The peak is at least what python itself had when it began the program."""
    with tempfile.TemporaryFile("w+") as out, tempfile.TemporaryFile("w+") as err:
        begun = time.monotonic()
        process = subprocess.Popen(command, stdin=subprocess.DEVNULL, stdout=out, stderr=err, **more)
        _, status, usage = os.wait4(process.pid, 0)
        process.returncode = os.waitstatus_to_exitcode(status)
        seconds = time.monotonic() - begun
        for file in out, err:
            file.seek(0)
        check(command, process.returncode, err.read())
        return Taken(seconds, usage.ru_utime, usage.ru_stime, usage.ru_maxrss, out.read())


def can_trace():
    """Whether strace is there, and may trace."""
    if not shutil.which("strace"):
        return False
    return subprocess.run(["strace", "-o", os.devnull, "true"], capture_output=True).returncode == 0


def calls(command, names=SYNCS, **more):
    """Runs a command, and counts its calls of these names, or all where that is None. Only these are slowed down."""
    options = ["-f", "-c", "-w", "-U", "name,calls,time-total"]
    if names is not None:
        options += ["--seccomp-bpf", "-e", "trace=" + ",".join(names)]
    with tempfile.NamedTemporaryFile("r") as report:
        begun = time.monotonic()
        out = output(["strace", *options, "-o", report.name, *command], **more)
        seconds = time.monotonic() - begun
        lines = [line.split() for line in report]
    rows = [line for line in lines if len(line) == 3 and line[1].isdigit() and line[0] != "total"]
    counts = {name: int(count) for name, count, _ in rows}
    within = {name: float(spent) for name, _, spent in rows}
    return Calls(counts, within, seconds, out)


def output(command, **more):
    """What a command writes to standard output."""
    done = subprocess.run(command, stdin=subprocess.DEVNULL, capture_output=True, text=True, **more)
    check(command, done.returncode, done.stderr)
    return done.stdout


def check(command, status, said):
    if status != 0:
        raise Failed(f"{' '.join(map(str, command))}: status {status}: {said.strip()[-300:]}")


def most_memory(largest):
    """KiB of memory that a program of ours may have where the largest file has so many bytes."""
    return MOST_BESIDE + largest // 1024


def most_syncs(new, files):
    """How often a day may sync that has so many new pieces, in so many files; names are listed once for each file."""
    return new + files + MOST_SYNCS_BESIDE


def word_of(out, name):
    """The number behind that name, in its line of what a program wrote."""
    return next(int(line.removeprefix(name)) for line in out.splitlines() if line.startswith(name + " "))
