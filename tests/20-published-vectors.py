#!/usr/bin/env -S python3 -B
"""The published digests of vectors.txt."""

from common import TOP, Failure, check, main


def test():
    expected, steps = [], []
    for line in (TOP / "tests/vectors.txt").read_text("ascii").splitlines():
        if line and not line.startswith("#"):
            digest, step = line.split("  ", 1)
            expected.append(digest)
            steps.append(step)
    if not steps:
        raise Failure("vectors.txt has no vector")
    check("".join(step + "\n" for step in steps).encode("ascii"), expected)


main(test)
