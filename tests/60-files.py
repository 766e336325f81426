#!/usr/bin/env -S python3 -B
"""Files of many sizes: the digests of `sha256sum`."""

import random
import subprocess
import tempfile
from pathlib import Path

from common import Failure, check, main

SIZES = [0, 1, 2, 3, *range(55, 66), 100, *range(118, 130), 1000, *range(4095, 4098)]
SIZES += [10_000, 65_535, 65_536, 65_537, 1_000_000, 1 << 20, (1 << 20) + 1, 5_000_000]


def test():
    source = random.Random(60)
    with tempfile.TemporaryDirectory() as folder:
        files = []
        for size in SIZES:
            file = Path(folder) / f"of-{size}-bytes"
            file.write_bytes(source.randbytes(size))
            files.append(file)
        done = subprocess.run(["sha256sum", "--", *files], capture_output=True)
        if done.returncode != 0:
            raise Failure(f"sha256sum: exit status {done.returncode}")
        expected = [line.split()[0] for line in done.stdout.decode().splitlines()]
        if len(expected) != len(files):
            raise Failure(f"sha256sum: {len(expected)} digests for {len(files)} files")
        script = b"".join(b"digest " + file.read_bytes().hex().encode() + b"\n" for file in files)
    check(script, expected)


main(test)
