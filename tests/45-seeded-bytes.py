#!/usr/bin/env -S python3 -B
"""`digest random`: several seeds, counts around 4,096 and 8,192, and the largest
seed with the largest count."""

from common import MAX_COUNT, check, generated, main, sha256

SEEDS = (0, 1, 2, 255, 1804, 65_536, 123_456_789, MAX_COUNT - 1, MAX_COUNT)
COUNTS = (0, 1, 2, 63, 64, 65, 4095, 4096, 4097, 8191, 8192, 8193, 65_536, 100_000)

# From a generator in C and `sha256sum`.
LARGEST = "9221d466f45a8c7723374f1a7693790386b4cb4b9863d48cc618fc90e45b7631"


def test():
    steps, expected = ["digest random 1 4\n", "digest 6c82a562\n"], [sha256(bytes.fromhex("6c82a562"))] * 2
    for seed in SEEDS:
        made = generated(seed, max(COUNTS))
        for count in COUNTS:
            steps.append(f"digest random {seed} {count}\n")
            expected.append(sha256(made[:count]))
    check("".join(steps).encode(), expected)
    check(f"digest random {MAX_COUNT} {MAX_COUNT}\n".encode(), [LARGEST])


main(test)
