#!/usr/bin/env -S python3 -B
"""`cut`: the two programs and the rule in Python on files of many kinds, and what
is new of a file in which little changed. That is printed."""

import random
import re
import textwrap

from common import MAX_FILE, TOO_LONG_FILE, TOP, Failure, agreed_lines, check, check_cuts
from common import cut_answer, generated, main, pieces, sha256

SEED = 65

# Around the bytes that weigh in the number, and the limits of a piece.
LENGTHS = [*range(4), *range(30, 35), *range(2_047, 2_050), *range(2_078, 2_083), *range(4_095, 4_098)]
LENGTHS += [*range(65_535, 65_538), *range(131_071, 131_074)]
MEGABYTES = [3_000_001, 5_000_000]

# How many pieces may be new after a change.
MAX_NEW = 10


def number(file):
    """The number after a file's last byte. No byte weighs in it after 32 more."""
    total = 0
    for byte in file[-32:]:
        total = (2 * total + 2_654_435_761 * byte) % 2**32
    return total


def random_files(source):
    files = [source.randbytes(length) for length in LENGTHS for _ in range(2)]
    check_cuts([(file.hex(), pieces(file)) for file in files])
    for lengths in (LENGTHS, MEGABYTES):
        files = []
        for length in lengths:
            seed = source.randrange(1_000_000)
            file = generated(seed, length)
            cut = pieces(file)
            files += [(f"random {seed} {length}", cut), (file.hex(), cut)]
        check_cuts(files)


def by_lengths(file, lengths):
    """The pieces of the file that have these lengths. The rule in Python must cut
    it so, too; that is left out where it takes long."""
    cut, start = [], 0
    for length in lengths:
        cut.append(file[start : start + length])
        start += length
    if start != len(file):
        raise Failure(f"the lengths {lengths} are not those of {len(file)} bytes")
    if len(file) <= 200_000 and cut != pieces(file):
        raise Failure(f"the rule in Python does not cut {len(file)} bytes into {lengths}")
    return cut


def repeated_bytes():
    """Lengths by hand: bytes 0 are cut as soon as they may be, others as late."""
    files = []
    for count, lengths in [
        (1, [1]),
        (2_047, [2_047]),
        (2_048, [2_048]),
        (2_049, [2_048, 1]),
        (4_096, [2_048, 2_048]),
        (5_000, [2_048, 2_048, 904]),
        (65_537, [2_048] * 32 + [1]),
    ]:
        cut = by_lengths(bytes(count), lengths)
        files += [(f"repeat 00 {count}", cut), ("00" * count, cut)]
    for count, lengths in [
        (1, [1]),
        (5_000, [5_000]),
        (65_535, [65_535]),
        (65_536, [65_536]),
        (65_537, [65_536, 1]),
        (131_071, [65_536, 65_535]),
        (131_072, [65_536, 65_536]),
        (131_073, [65_536, 65_536, 1]),
    ]:
        cut = by_lengths(b"a" * count, lengths)
        files += [(f"repeat 61 {count}", cut), ("61" * count, cut)]
    check_cuts(files)

    check_cuts([
        (f"repeat {byte:02x} 210000", by_lengths(bytes([byte]) * 210_000, [65_536, 65_536, 65_536, 13_392]))
        for byte in range(1, 256)
    ])


def limits(source):
    """Files of bytes 0x61 in which the number says at chosen places alone that a
    piece may end. Lengths by hand."""
    before, after = b"a" * 40, b"a" * 40
    while True:
        four = source.randbytes(4)
        if number(before + four) < 2**19:
            text = before + four + after
            ends = [end for end in range(41, len(text) + 1) if number(text[:end]) < 2**19]
            if ends == [44]:
                break

    files = []
    for length, places, lengths in [
        (70_000, [2_047], [65_536, 4_464]),
        (70_000, [2_048], [2_048, 65_536, 2_416]),
        (70_000, [2_049], [2_049, 65_536, 2_415]),
        (70_000, [2_048, 4_095], [2_048, 65_536, 2_416]),
        (70_000, [2_048, 4_096], [2_048, 2_048, 65_536, 368]),
        (70_000, [2_048, 4_097], [2_048, 2_049, 65_536, 367]),
        (70_000, [10_000, 10_050, 12_047], [10_000, 60_000]),
        (70_000, [10_000, 10_050, 12_048], [10_000, 2_048, 57_952]),
        (70_000, [65_535], [65_535, 4_465]),
        (70_000, [65_536], [65_536, 4_464]),
        (70_000, [65_537], [65_536, 4_464]),
        (70_000, [67_583], [65_536, 4_464]),
        (70_000, [67_584], [65_536, 2_048, 2_416]),
        (2_047, [2_047], [2_047]),
        (2_048, [2_048], [2_048]),
        (2_049, [2_048], [2_048, 1]),
        (4_096, [2_048, 4_096], [2_048, 2_048]),
        (65_535, [65_535], [65_535]),
        (65_536, [65_536], [65_536]),
        (65_537, [65_536], [65_536, 1]),
    ]:
        file = bytearray(b"a" * length)
        for place in places:
            file[place - 4 : place] = four
        files.append((file.hex(), by_lengths(bytes(file), lengths)))
    check_cuts(files)


def invented_text(source, size):
    """Text of invented words, some of them far more frequent than others."""
    syllables = [first + vowel + last for first in "bdfgklmnprstvz" for vowel in "aeiou" for last in ("", "n", "r")]
    known = ["".join(source.choices(syllables, k=source.randint(1, 4))) for _ in range(2_000)]
    weights = [1 / rank for rank in range(1, len(known) + 1)]
    sentences, length = [], 0
    while length < size + 1_000:
        sentence = " ".join(source.choices(known, weights, k=source.randint(3, 20))).capitalize() + "."
        sentences.append(sentence)
        length += len(sentence) + 1
    paragraphs = [" ".join(sentences[at : at + 8]) for at in range(0, len(sentences), 8)]
    return "\n\n".join(textwrap.fill(paragraph, 80) for paragraph in paragraphs).encode()[:size]


def texts(source):
    files = [invented_text(source, size) for size in (1_000, 20_000, 400_000)]
    files += [file.read_bytes() for file in (TOP / "README.md", *sorted((TOP / "docs").rglob("*.md")))]
    check_cuts([(file.hex(), pieces(file)) for file in files])


def agreed(files):
    """The pieces of each file, which is given as the words for its bytes and its
    bytes: each piece as its length and its digest. The programs must agree. What
    they answer must be the file's pieces and end where the rule lets a piece end;
    whether one had to end before is not looked at."""
    script = "".join(f"cut {words}\n" for words, _ in files).encode()
    lengths = ", ".join(str(len(file)) for _, file in files)
    lines, cuts = agreed_lines(script, f"files of {lengths} bytes"), []
    for _, file in files:
        what = f"a file of {len(file)} bytes"
        found = re.fullmatch(b"pieces ([0-9]+)", lines[0] if lines else b"")
        if not found:
            raise Failure(f"{what}: the answer does not begin with the number of pieces")
        count = int(found[1])
        answer, lines = lines[1 : count + 1], lines[count + 1 :]
        cut, start = [], 0
        for at, line in enumerate(answer, 1):
            found = re.fullmatch(b"([0-9]+) ([0-9a-f]{64})", line)
            if not found:
                raise Failure(f"{what}: no length and digest for piece {at}")
            length, digest = int(found[1]), found[2].decode()
            piece = file[start : start + length]
            if sha256(piece) != digest:
                raise Failure(f"{what}: piece {at} has another digest")
            if not 1 <= length <= 65_536 or length < 2_048 and at < count:
                raise Failure(f"{what}: piece {at} has {length} bytes")
            if length < 65_536 and at < count and number(piece) >= 2**19:
                raise Failure(f"{what}: piece {at} ends where none may")
            cut.append((length, digest))
            start += length
        if start != len(file):
            raise Failure(f"{what}: the pieces have {start} bytes")
        cuts.append(cut)
    if lines:
        raise Failure(f"files of {lengths} bytes: {len(lines)} answers too many")
    return cuts


def longest_files():
    file = generated(SEED, MAX_FILE)
    one, other = agreed([(f"random {SEED} {MAX_FILE}", file), (file.hex(), file)])
    if one != other:
        raise Failure(f"the pieces of random {SEED} {MAX_FILE} are not those of its bytes")

    check_cuts([
        (f"repeat 00 {MAX_FILE}", [bytes(2_048)] * 8_192),
        (f"repeat 61 {MAX_FILE}", [b"a" * 65_536] * 256),
    ])

    # One byte more, or as many as there may be.
    longer = file.hex() + "00"
    steps = [f"repeat 00 {MAX_FILE + 1}", f"random {SEED} {MAX_FILE + 1}", longer]
    steps += ["repeat 61 1073741824", "random 0 1073741824"]
    script = "".join(f"cut {words}\n" for words in steps) + "cut 616263\n"
    expected = [f"line {line}: {TOO_LONG_FILE}" for line in range(1, len(steps) + 1)]
    check(script.encode(), expected + cut_answer([b"abc"]))

    # A fault of the digits comes before the length.
    check(f"cut {longer}5\n".encode(), ["line 1: an odd number of hexadecimal digits, 33554435"])
    check(f"cut {longer[:-1]}x\n".encode(), ["line 1: 'x' is not a hexadecimal digit, at place 33554434"])


def after_ends(cut, size, start):
    """Where pieces end from a place on: the number of bytes that are left then, and of the pieces before."""
    ends, end = {}, 0
    for count, (length, _) in enumerate(cut, 1):
        end += length
        if end >= start:
            ends[size - end] = count
    return ends


def share(what, old, start, removed, added):
    """Cuts a file before and after a change, and prints what is new."""
    new = old[:start] + added + old[start + removed :]
    old_cut, new_cut = agreed([(old.hex(), old), (new.hex(), new)])

    same, end = 0, 0
    while same < len(old_cut) and end + old_cut[same][0] <= start:
        end += old_cut[same][0]
        same += 1
    if old_cut[:same] != new_cut[:same]:
        raise Failure(f"{what}: the pieces before the change are not the same")

    # Counted from the end of the file, both versions have the same places after the change.
    old_ends, new_ends = after_ends(old_cut, len(old), start + removed), after_ends(new_cut, len(new), start + len(added))
    for left in sorted(old_ends.keys() & new_ends.keys(), reverse=True)[:1]:
        if old_cut[old_ends[left] :] != new_cut[new_ends[left] :]:
            raise Failure(f"{what}: the pieces are not the same from {left} bytes before the end on")

    known = set(old_cut)
    fresh = [length for length, digest in new_cut if (length, digest) not in known]
    of_all = 100 * len(fresh) / len(new_cut)
    print(
        f"{what} of {len(old)}: {len(fresh)} of {len(new_cut)} pieces new ({of_all:.1f} %), "
        f"{sum(fresh)} of {len(new)} bytes",
        flush=True,
    )
    if not 1 <= len(fresh) <= MAX_NEW:
        raise Failure(f"{what}: {len(fresh)} pieces are new")


def changes(source):
    for size, count in [(1_000_000, 1), (2_000_000, 10), (4_000_000, 100)]:
        old = source.randbytes(size)
        unit = "byte" if count == 1 else "bytes"
        for where, start in [("at the beginning", 0), ("in the middle", size // 2), ("near the end", size - 1_000)]:
            share(f"insertion of {count} {unit} {where}", old, start, 0, source.randbytes(count))
    old = source.randbytes(1_500_000)
    share("deletion of 1 byte in the middle", old, 750_000, 1, b"")
    share("deletion of 100 bytes in the middle", old, 750_000, 100, b"")
    replaced = bytes(255 - byte for byte in old[750_000:750_050])
    share("replacement of 50 bytes in the middle", old, 750_000, 50, replaced)
    text = invented_text(source, 1_000_000)
    share("insertion of 60 bytes in the middle of a text", text, 500_000, 0, invented_text(source, 60))


def test():
    source = random.Random(SEED)
    random_files(source)
    repeated_bytes()
    limits(source)
    texts(source)
    longest_files()
    changes(source)


main(test)
