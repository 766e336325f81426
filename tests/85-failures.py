#!/usr/bin/env -S python3 -B
"""Where the script cannot be read or an answer cannot be written, a program says so and does not succeed."""

import os
import subprocess

from common import TIME_LIMIT, TOP, Failure, main, programs


# A file of megabytes is had back.
BACK = b"begin 0\nfile 0 a repeat 61 9999999\nraise 0\nname 0\nback 0 1 a\n"


def fails(name, path, what, **streams):
    done = subprocess.run([path], stderr=subprocess.PIPE, timeout=TIME_LIMIT, **streams)
    if done.returncode != 1:
        raise Failure(f"{name}: exit status {done.returncode} with {what}")
    if not done.stderr.strip():
        raise Failure(f"{name}: no message with {what}")


def test():
    for name, path in programs():
        folder = os.open(TOP, os.O_RDONLY)
        try:
            fails(name, path, "a folder as its input", stdin=folder, stdout=subprocess.DEVNULL)
        finally:
            os.close(folder)
        with open("/dev/full", "wb") as full:
            fails(name, path, "a full disk as its output", input=b"digest 616263\n", stdout=full)
            fails(name, path, "a full disk for many pieces", input=b"cut repeat 00 9999999\n", stdout=full)
            fails(name, path, "a full disk for what is where", input=b"show\n" * 9999, stdout=full)
            fails(name, path, "a full disk for a file that is had back", input=BACK, stdout=full)


main(test)
