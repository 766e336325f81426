"""Programs under strace, for the tests of the programs on a store: their system calls, and
runs in which one of these calls is where the program is killed, or fails, or waits.

Calls are counted by their names, each name from 1, as strace counts them. A program works
in one thread, so the same run on a copy of the same store makes the same calls."""

import functools
import os
import re
import shutil
import signal
import subprocess
import tempfile
import time
from pathlib import Path
from typing import NamedTuple

from common import Failure, short
from stores import LIMIT, Answer, run, start

# The calls that are looked at; those that this kind of processor has not are left out by the '?'.
CALLS = [
    *["open", "openat", "openat2", "creat", "close", "read", "readv", "pread64", "write", "writev", "pwrite64"],
    *["rename", "renameat", "renameat2", "link", "linkat", "unlink", "unlinkat", "rmdir", "mkdir", "mkdirat"],
    *["fsync", "fdatasync", "sync", "syncfs", "sync_file_range", "truncate", "ftruncate", "fallocate"],
    *["stat", "lstat", "fstat", "newfstatat", "statx", "access", "faccessat", "faccessat2", "getdents64"],
    *["flock", "fcntl", "lseek", "sendfile", "copy_file_range", "chdir", "symlink", "symlinkat"],
]
OPENS = ["open", "openat", "openat2", "creat"]
READS = ["read", "readv", "pread64"]
WRITES = ["write", "writev", "pwrite64"]
RENAMES = ["rename", "renameat", "renameat2"]
LINKS = ["link", "linkat"]
UNLINKS = ["unlink", "unlinkat"]
MKDIRS = ["mkdir", "mkdirat"]
SYNCS = ["fsync", "fdatasync"]
STATS = ["stat", "lstat", "fstat", "newfstatat", "statx", "access", "faccessat", "faccessat2"]


class Call(NamedTuple):
    """A system call: its name, which one of this name it is, the paths in it in their order (also
    those that descriptors stand for), the bytes of its strings, what it was called with, and its answer."""

    name: str
    count: int
    paths: list
    strings: list
    words: str
    answer: str

    def path(self):
        """The path that the call concerns, or '': for a new name the last one."""
        return self.paths[-1] if self.paths else ""

    def well(self):
        return not self.answer.startswith("-1")

    def creates(self):
        return self.name in OPENS and ("O_CREAT" in self.words or "O_TRUNC" in self.words or self.name == "creat")

    def changes(self):
        """Whether the call may change what lies on the medium, or syncs it."""
        changing = [*WRITES, *RENAMES, *LINKS, *UNLINKS, *MKDIRS, *SYNCS, "truncate", "ftruncate", "fallocate", "rmdir"]
        return self.creates() or self.name in changing


@functools.cache
def strace():
    """The command strace, which must be allowed to follow a program and to kill it."""
    path = shutil.which("strace")
    if path is None:
        raise Failure("strace is not there: install Debian's package strace")
    with tempfile.TemporaryDirectory() as at:
        there = Path(at, "there")
        there.touch()
        under = [path, "-f", "-o", Path(at, "log"), "-e", "trace=unlink,unlinkat"]
        under += ["-e", "inject=unlink,unlinkat:signal=KILL:when=1", "rm", there]
        done = subprocess.run(under, capture_output=True)
        if done.returncode != -signal.SIGKILL or not there.exists():
            said = done.stderr.decode(errors="replace").strip().split("\n")[-1]
            raise Failure(f"strace cannot stop a program here (does the container forbid ptrace?): {said}")
    return path


def trace(name, words, **more):
    """A whole run of a program: its answer, and its calls, in order."""
    with tempfile.TemporaryDirectory() as at:
        log = Path(at, "log")
        under = [strace(), "-f", "-y", "-xx", "-s", "200000", "-o", log, "-e"]
        under += ["trace=" + ",".join("?" + call for call in CALLS), "-e", "signal=none"]
        answer = run(name, *words, under=under, **more)
        return answer, read_log(log.read_text(), name)


LINE = re.compile(r"^(\d+) +(\w+)\((.*)\) += (-?\d+|\?|0x[0-9a-f]+)(.*)$")
STRING = re.compile(r'"((?:\\x[0-9a-f]{2})*)"(\.\.\.)?|<((?:\\x[0-9a-f]{2}|[^<>"\\])*)>(?:\(deleted\))?')


def read_log(text, name):
    calls, counts, threads = [], {}, set()
    for line in text.split("\n"):
        found = LINE.match(line)
        if found is None:
            if line and "+++ exited with" not in line:
                raise Failure(f"{name}: strace says {short(line)}")
            continue
        thread, call, words, answer, rest = found.groups()
        threads.add(thread)
        counts[call] = counts.get(call, 0) + 1
        paths, strings = strings_of(words, call)
        calls.append(Call(call, counts[call], paths, strings, plain(words), plain(answer + rest)))
    if len(threads) != 1:
        raise Failure(f"{name}: it works in {len(threads)} threads, and these tests follow one")
    return calls


def strings_of(words, call):
    """The paths and the strings in a call. A path that is relative to a descriptor is joined to it."""
    paths, strings, folder = [], [], ""
    for string, cut, descriptor in STRING.findall(words):
        if cut:
            raise Failure(f"{call}: strace left out bytes")
        content = bytes.fromhex(string.replace("\\x", ""))
        if descriptor:
            folder = unescaped(descriptor)
            paths.append(folder)
            continue
        strings.append(content)
        if call not in READS + WRITES + ["fcntl", "getdents64"]:
            if folder and (content or call != "newfstatat"):
                paths.pop()
            paths.append(os.path.normpath(os.path.join(folder, os.fsdecode(content))))
            folder = ""
    return paths, strings


def unescaped(text):
    return re.sub(r"(?:\\x[0-9a-f]{2})+", lambda found: os.fsdecode(bytes.fromhex(found[0].replace("\\x", ""))), text)


def plain(words):
    """What a call was called with, its strings left out."""
    return STRING.sub('""', words)


def touching(calls, at):
    """The calls from the first that touches the folder to the end; there must be some."""
    for first, call in enumerate(calls):
        if any(path == str(at) or path.startswith(f"{at}/") for path in call.paths):
            return calls[first:]
    raise Failure(f"no call touches {at}")


def struck(call, what):
    """strace with what happens at a call, and the log that shows it."""
    log = tempfile.NamedTemporaryFile(prefix="zeltuva-log-", dir="/dev/shm" if os.access("/dev/shm", os.W_OK) else None)
    command = [strace(), "-f", "-o", log.name, "-e", f"trace={call.name}"]
    return log, [*command, "-e", f"inject={call.name}:{what}:when={call.count}"]


def kill_at(call, name, words, **more):
    """Runs a program that is killed before it makes this call; it must have been."""
    log, command = struck(call, "signal=KILL")
    with log:
        answer = run(name, *words, under=command, **more)
        made = re.findall(rf"^\d+ +{call.name}\(", Path(log.name).read_text(), re.MULTILINE)
    if answer.status != -signal.SIGKILL or len(made) != call.count:
        raise Failure(f"{name}: was not killed at {call.name} {call.count}: {answer}, {len(made)} such calls")


def fail_at(call, error, name, words, **more):
    """What a program answers of which this call fails; it must have failed."""
    log, command = struck(call, f"error={error}")
    with log:
        answer = run(name, *words, under=command, **more)
        failed = [line for line in Path(log.name).read_text().split("\n") if "(INJECTED)" in line]
    if len(failed) != 1 or error not in failed[0]:
        raise Failure(f"{name}: {call.name} {call.count} did not fail: {answer}, {failed}")
    return answer


class Stopped:
    """A program that stops after it has made a call, till it is told to go on; then its answer."""

    def __init__(self, call, name, words, at=None, given=b""):
        self.name = name
        self.log, command = struck(call, "signal=STOP")
        self.running = start(name, *words, at=at, under=command)
        try:
            self.running.stdin.write(given)
            self.running.stdin.close()
            self.running.stdin = None
            self.thread = self.wait()
        except BaseException:
            self.end()
            raise

    def wait(self):
        """Waits until the program has stopped; its number."""
        for _ in range(LIMIT * 20):
            stopped = re.search(r"^(\d+) +--- stopped by SIGSTOP ---", Path(self.log.name).read_text(), re.MULTILINE)
            if stopped:
                return int(stopped[1])
            if self.running.poll() is not None:
                break
            time.sleep(0.005)
        raise Failure(f"{self.name}: did not stop: {Path(self.log.name).read_text()[-200:]!r}")

    def go_on(self):
        os.kill(self.thread, signal.SIGCONT)
        out, err = self.running.communicate(timeout=LIMIT)
        self.log.close()
        return Answer(self.running.returncode, out, err)

    def end(self):
        self.running.kill()
        self.running.communicate()
        self.log.close()
