#!/usr/bin/env -S python3 -B
"""Makes files like those of a museum, the same ones each time, and changes them as a day does.

    tree.py make FOLDER MEGABYTES     some MEGABYTES of files in a new folder
    tree.py change FOLDER             2 % of it: some files edited, a few new, some gone

The folder has scans as images (bytes that look random), catalogues in which lines repeat, text records, small labels,
and second copies of some of all that."""

import hashlib
import os
import sys
from pathlib import Path
from random import Random

SEED = 1871
CHANGE_SEED = 1872

KIB, MIB = 1 << 10, 1 << 20

# Of 200 MB. The numbers are less where there are fewer megabytes, and the sizes stay.
SCANS = 34
CATALOGUES = 6
RECORDS = 1_000
LABELS = 330
COPIES = 120
FULL = 200

# Of so many files one is edited, or gone; for so many scans one is new.
EDITED_RECORDS = 50
GONE_RECORDS = 80
NEW_SCANS = 34


def main():
    match sys.argv[1:]:
        case ["make", folder, megabytes]:
            make(Path(folder), float(megabytes))
        case ["change", folder]:
            change(Path(folder))
        case _:
            sys.exit(__doc__)


def make(folder, megabytes):
    random = Random(SEED)
    words = [word(random) for _ in range(3_000)]
    for name, size in scans(random, parts(SCANS, megabytes)):
        write_random(folder / name, size, random)
    for number in range(parts(CATALOGUES, megabytes)):
        write(folder / f"catalogues/room-{number}.csv", catalogue(random, words, random.randrange(20_000, 45_000)))
    for number in range(parts(RECORDS, megabytes)):
        write(folder / f"records/{number % 20:02}/{number:04}.txt", record(random, words))
    for number in range(parts(LABELS, megabytes)):
        write(folder / f"labels/{number:04}", random.randbytes(random.randrange(1_500) if number else 0))
    copy_some(folder, random, parts(COPIES, megabytes))


def change(folder):
    random = Random(CHANGE_SEED)
    words = [word(random) for _ in range(300)]
    scans_there = sorted((folder / "scans").rglob("*.img"))
    records = sorted((folder / "records").rglob("*.txt"))
    for file in sorted((folder / "catalogues").iterdir())[::2]:
        insert_lines(file, random, words)
    for file in records[::EDITED_RECORDS]:
        insert_text(file, random, words)
    for file in scans_there[1::NEW_SCANS]:
        replace_some(file, random)
    for number in range(max(1, len(scans_there) // NEW_SCANS)):
        write_random(folder / f"scans/new/{number:04}.img", random.randrange(2 * MIB, 4 * MIB), random)
    for file in [*records[1::GONE_RECORDS], *scans_there[2::NEW_SCANS]]:
        file.unlink()


def parts(number, megabytes):
    """So many of a kind, at least two."""
    return max(2, round(number * megabytes / FULL))


def scans(random, number):
    """Names and sizes. Most of the bytes are here, 0.5 to 8 MiB in each."""
    for at in range(number):
        yield f"scans/{1850 + at // 10}/plate {at:04}.img", random.randrange(MIB // 2, 8 * MIB)


def word(random):
    return "".join(random.choice("bdfglmnprstv") + random.choice("aeiou") for _ in range(random.randrange(1, 5)))


def catalogue(random, words, lines):
    """Lines of about 80 bytes; of ten, three stand in it many times."""
    often = [line(random, words, 0) for _ in range(200)]
    made = (random.choice(often) if random.random() < 0.3 else line(random, words, number) for number in range(lines))
    return "".join(made).encode()


def line(random, words, number):
    genus, kind, place, by = random.choices(words, k=4)
    year, shelf = random.randrange(1790, 1930), random.randrange(400)
    what = f"{genus.capitalize()} {kind};{place.capitalize()};{year};leg. {by};shelf {shelf};not described yet"
    return f"{number:06};{what}\n"


def record(random, words):
    """A text of some 0.5 to 16 KB."""
    sentences = (" ".join(random.choices(words, k=14)).capitalize() + ".\n" for _ in range(random.randrange(6, 200)))
    return "".join(sentences).encode()


def copy_some(folder, random, number):
    """Second copies: most of small files, some of scans and catalogues."""
    files = sorted(path for path in folder.rglob("*") if path.is_file())
    small = [path for path in files if path.stat().st_size < 64 * KIB]
    large = [path for path in files if path.stat().st_size >= 64 * KIB]
    chosen = random.sample(small, number * 19 // 20) + random.sample(large, max(1, number // 24))
    for at, file in enumerate(chosen):
        write(folder / f"exhibition/{at:03}-{file.name}", file.read_bytes())


def insert_lines(file, random, words):
    """Some new lines in each of five places of a catalogue."""
    lines = file.read_bytes().splitlines(keepends=True)
    for _ in range(5):
        at = random.randrange(len(lines))
        lines[at:at] = [line(random, words, 900_000 + at).encode() for _ in range(3)]
    file.write_bytes(b"".join(lines))


def insert_text(file, random, words):
    text = file.read_bytes()
    at = random.randrange(len(text))
    file.write_bytes(text[:at] + " ".join(random.choices(words, k=8)).encode() + text[at:])


def replace_some(file, random):
    """Some other bytes in the middle of a scan."""
    with file.open("r+b") as opened:
        opened.seek(random.randrange(file.stat().st_size - 5_000))
        opened.write(random.randbytes(4_000))


def write(file, data):
    file.parent.mkdir(parents=True, exist_ok=True)
    file.write_bytes(data)


def write_random(file, size, random):
    """Bytes that look random, some at a time."""
    file.parent.mkdir(parents=True, exist_ok=True)
    with file.open("wb") as opened:
        for start in range(0, size, MIB):
            opened.write(random.randbytes(min(MIB, size - start)))


class Tree:
    """What is in the tree, and its list, which is written."""

    def __init__(self, tree, file):
        files = sorted(os.fsencode(path.relative_to(tree)) for path in tree.rglob("*") if path.is_file())
        file.write_bytes(b"".join(path + b"\n" for path in files))
        sizes = [os.stat(os.path.join(os.fsencode(tree), path)).st_size for path in files]
        self.files, self.bytes, self.largest = len(files), sum(sizes), max(sizes)
        self.contents = {digest(tree / os.fsdecode(path)) for path, size in zip(files, sizes) if size > 0}


def digest(path):
    with open(path, "rb") as file:
        return hashlib.file_digest(file, "sha256").digest()


if __name__ == "__main__":
    main()
