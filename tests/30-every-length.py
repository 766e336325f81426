#!/usr/bin/env -S python3 -B
"""Every length from 0 to 300, and the lengths at which the padding changes."""

import random

from common import check_digests, main


def contents(length, source):
    """Messages of one length: counted bytes, random ones, and all bits the same."""
    yield bytes((7 * i + length) % 256 for i in range(length))
    yield source.randbytes(length)
    yield bytes(length)
    yield b"\xff" * length
    yield b"\x80" + bytes(length - 1) if length else b""


def test():
    source = random.Random(300)
    check_digests([next(contents(length, source)) for length in range(301)])

    # 55 bytes is the most that one block takes with its padding, 119 the most
    # that two blocks take.
    near = sorted({at + by for at in (55, 56, 63, 64, 119, 120, 128) for by in range(-2, 3)})
    for lengths in (near, range(65_534, 65_539)):
        check_digests([message for length in lengths for message in contents(length, source)])


main(test)
