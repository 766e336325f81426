#!/usr/bin/env -S python3 -B
"""`digest repeat`: counts around whole blocks and up to the largest."""

from common import MAX_COUNT, check, check_repeats, main


def test():
    check(
        b"digest repeat 61 1000000\n",
        ["cdc76e5c9914fb9281a1c7e284d73e67f1809a48a497200e046d39ccc7112cd0"],
    )
    counts = (0, 1, 2, 55, 56, 63, 64, 65, 127, 128, 129, 4095, 4096, 4097, 65535, 65536, 65537)
    check_repeats([(byte, count) for byte in (0x00, 0x61, 0x80, 0xFF) for count in counts])
    check_repeats([(byte, 1) for byte in range(256)])
    check_repeats([(0xA5, 16_777_216), (0x00, 16_777_215)])
    check_repeats([(0x61, MAX_COUNT)])


main(test)
