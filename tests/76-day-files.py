#!/usr/bin/env -S python3 -B
"""Files of days, day files, having files back, and damage: scripts, each step with its
answer. What is expected is written here by hand, from docs/REHEARSE.md, docs/DAYS.md
and docs/STORE.md. The second program also checks the promise after each step, up to
the first one that damages something. How many steps there are is printed."""

import hashlib

from common import MAX_FILE, MAX_FILES, TOO_LONG_FILE, USAGE, check_promise, day_file, generated, had_back, listed, main
from common import played, sha256

# The names of the pieces of the bytes 61, 62 and 63, in the order of their digits C, B, A;
# of 2,048 and of 904 bytes 0.
A = "ca978112ca1bbdcafac231b39a23dc4da786eff8147c4e72b9807785afee48bb"
B = "3e23e8160039594a33894f6564e1b1348bbd7a0088d42c4acb73eeaed59c009d"
C = "2e7d2c03a9507ae265ecf5b5356885a53393a2029d241394997265a1a25aefc6"
Z = "e5a00aa9991ac8a5ee3109844d84a55583bd20572ad3ffcd42792f3c36b183ad"
Y = "cc401ce5099578287fd15c062a92893754851bdb7ca3c1fe742bbff85e2281c2"
assert [A, B, C, Z, Y] == [sha256(piece) for piece in (b"a", b"b", b"c", bytes(2_048), bytes(904))]

# In an answer, `line: ` stands for `line N: ` with the line's number.
LONG_FILE = "line: " + TOO_LONG_FILE
LONG_PATH = "line: refused by 1: a path has from 1 to 255 bytes"
EMPTY = "line: refused by 1: a piece has at least one byte"
LONG_PIECE = "line: refused by 1: a piece has at most 65536 bytes"
ABSENT = "line: refused by 1: there is no such machine, day or path"
TOO_MANY = "line: refused by 1: a day has at most 4096 files"
NOT_ABOVE = "line: refused by 1: a path must be above the one before it"
MAKES_NONE = "line: refused by 3: the machine makes no day"
RAISED = "line: refused by 3: the day has its number already, and is to be named or broken off"
DAMAGED = "line: refused by 2: a day is damaged or incomplete"
NOT_THERE = "line: refused by 4: the sweeper is not at that point"
NO_DAY = "line: refused by 4: a machine has finished no day since"

RESTS = "sweeper rests"
NOTHING = ["machine 0 0 none", "machine 1 0 none", "machine 2 0 none", "machine 3 0 none"]


def digest(digits):
    """The digits of a string with its SHA-256 at its end."""
    return digits + hashlib.sha256(bytes.fromhex(digits)).hexdigest()


def answer(digits):
    """What `bytes` and `back` answer for these digits."""
    return f"{len(digits) // 2} {digits}".rstrip()


def flipped(digits, at):
    """The digits of a string whose byte of this number is turned round."""
    string = bytearray.fromhex(digits)
    string[at] = 255 - string[at]
    return string.hex()


def places(start, end):
    """Files of the piece A, as a day lists them, whose paths are their places."""
    return [listed(b"%04d" % place, b"a") for place in range(start, end)]


def day(machine, number, *files):
    """A machine makes a day, whose number is this. A file is its words, and what is added and written."""
    yield f"begin {machine}", "begun"
    for words, added, written in files:
        yield f"file {machine} {words}", f"added {added}, written {written}"
    yield f"raise {machine}", f"raised {number}"
    yield f"name {machine}", f"named {number}"


def refused(why, *lines):
    return [(line, why) for line in lines]


# A day of machine 0 with the files a, b and c, and its day file.
ABC_DAY = [*day(0, 1, ("a", 0, 0), ("b 61", 1, 1), ("c repeat 00 5000", 3, 2))]
ABC_FILE = digest(
    "44" "00" "00000001" "0003"
    "01" "61" "00000000" "0000"
    "01" "62" "00000001" "0001" + A +
    "01" "63" "00001388" "0003" + Z + Z + Y
)
ABC_LENGTH = len(ABC_FILE) // 2
ABC_PLACES = [f"place {A} 1", f"place {Y} 904", f"place {Z} 2048"]
ABC_LISTED = [f"listed 0 {A}", f"listed 0 {Y}", f"listed 0 {Z}"]
ABC_BACK = [("back 0 1 a", "0"), ("back 0 1 b", "1 61"), ("back 0 1 c", answer("00" * 5_000))]
assert sorted([A, Y, Z]) == [A, Y, Z]

# A day of machine 0 with the file a, which is the piece A.
ONE_DAY = [*day(0, 1, ("a 61", 1, 1))]
ONE_FILE = digest("44" "00" "00000001" "0001" "01" "61" "00000001" "0001" + A)
ONE_LENGTH = len(ONE_FILE) // 2
assert ONE_LENGTH == 80

SCRIPTS = [
    # A day without files.
    [
        ("begin 3", "begun"),
        ("raise 3", "raised 1"),
        ("bytes 3 1", ABSENT),
        ("name 3", "named 1"),
        ("bytes 3 1", answer(digest("44" "03" "00000001" "0000"))),
        ("back 3 1 a", ABSENT),
        ("back 3 1 0001", ABSENT),
        ("back 3 0 a", ABSENT),
        ("bytes 3 0", ABSENT),
        ("bytes 3 2", ABSENT),
        ("bytes 0 1", ABSENT),
    ],
    # A file of no bytes, one of one piece, and one of several, two of which are the same.
    [
        *ABC_DAY,
        ("bytes 0 1", answer(ABC_FILE)),
        *ABC_BACK,
        ("back 0 1 d", ABSENT),
        ("back 0 1 A", ABSENT),
        ("back 0 1 aa", ABSENT),
        ("back 0 1 0001", ABSENT),
        (
            "show",
            *ABC_PLACES,
            *ABC_LISTED,
            f"day 0 1 {A} {Z} {Z} {Y}",
            "machine 0 1 none",
            *NOTHING[1:],
            RESTS,
        ),
        # Another machine finds the pieces.
        ("begin 1", "begun"),
        ("file 1 x repeat 00 5000", "added 3, written 0"),
        ("file 1 y 6162", "added 1, written 1"),
        ("file 1 z repeat 00 2048", "added 1, written 0"),
        ("back 1 1 x", ABSENT),
        ("raise 1", "raised 1"),
        ("back 1 1 x", ABSENT),
        ("name 1", "named 1"),
        ("back 1 1 x", answer("00" * 5_000)),
        ("back 1 1 y", "2 6162"),
        ("back 1 1 z", answer("00" * 2_048)),
        # A day that is let go is not there any more; the other one is.
        ("go 0 1", "let go"),
        *refused(ABSENT, "back 0 1 a", "back 0 1 b", "bytes 0 1", "go 0 1"),
        ("back 1 1 x", answer("00" * 5_000)),
    ],
    # While a machine makes a day, what it has seen to is shown in the order of its files.
    [
        ("begin 0", "begun"),
        ("file 0 a", "added 0, written 0"),
        ("show", "machine 0 0 makes", *NOTHING[1:], RESTS),
        ("file 0 b repeat 00 5000", "added 3, written 2"),
        ("file 0 c 61", "added 1, written 1"),
        ("show", *ABC_PLACES, *ABC_LISTED, f"machine 0 0 makes {Z} {Z} {Y} {A}", *NOTHING[1:], RESTS),
        ("raise 0", "raised 1"),
        ("show", *ABC_PLACES, *ABC_LISTED, f"machine 0 1 names 1 {Z} {Z} {Y} {A}", *NOTHING[1:], RESTS),
        ("break 0", "broken off"),
        ("bytes 0 1", ABSENT),
        ("begin 0", "begun"),
        ("file 0 a 61", "added 1, written 0"),
        ("raise 0", "raised 2"),
        ("name 0", "named 2"),
        ("bytes 0 2", answer(digest("44" "00" "00000002" "0001" "01" "61" "00000001" "0001" + A))),
    ],
    # The path of what is seen to is its place in the day, in four digits.
    [
        ("begin 2", "begun"),
        ("see 2 61", f"written {A}"),
        ("see 2 61", f"found {A}"),
        ("file 2 00020", "added 0, written 0"),
        ("see 2 62", f"written {B}"),
        ("see 2 repeat 00 5000", "written " + sha256(bytes(5_000))),
        ("file 2 0006 repeat 00 5000", "added 3, written 2"),
        ("file 2 0007 63", "added 1, written 1"),
        ("see 2 63", f"found {C}"),
        ("raise 2", "raised 1"),
        ("name 2", "named 1"),
        ("back 2 1 0001", "1 61"),
        ("back 2 1 0002", "1 61"),
        ("back 2 1 0003", ABSENT),
        ("back 2 1 00020", "0"),
        ("back 2 1 0004", "1 62"),
        ("back 2 1 0005", answer("00" * 5_000)),
        ("back 2 1 0006", answer("00" * 5_000)),
        ("back 2 1 0007", "1 63"),
        ("back 2 1 0008", "1 63"),
        *refused(ABSENT, "back 2 1 0009", "back 2 1 1", "back 2 1 8", "back 2 1 00001", "back 2 1 000"),
        (
            "bytes 2 1",
            answer(
                digest(
                    "44" "02" "00000001" "0008"
                    "04" "30303031" "00000001" "0001" + A +
                    "04" "30303032" "00000001" "0001" + A +
                    "05" "3030303230" "00000000" "0000"
                    "04" "30303034" "00000001" "0001" + B +
                    "04" "30303035" "00001388" "0001" + sha256(bytes(5_000)) +
                    "04" "30303036" "00001388" "0003" + Z + Z + Y +
                    "04" "30303037" "00000001" "0001" + C +
                    "04" "30303038" "00000001" "0001" + C
                )
            ),
        ),
    ],
    # It may not be above the path before it. A day goes on all the same.
    [
        ("begin 0", "begun"),
        ("file 0 z", "added 0, written 0"),
        *refused(NOT_ABOVE, "see 0 61", "see 0 repeat 61 65536", "file 0 y 61", "file 0 z 61", "file 0 Z 61"),
        *refused(EMPTY, "see 0", "see 0 repeat 61 0"),
        *refused(LONG_PIECE, "see 0 repeat 61 65537"),
        ("show", "machine 0 0 makes", *NOTHING[1:], RESTS),
        ("file 0 z0 61", "added 1, written 1"),
        ("begin 1", "begun"),
        ("file 1 0001 61", "added 1, written 0"),
        ("see 1 61", f"found {A}"),
        ("file 1 0002 61", NOT_ABOVE),
        ("file 1 0003 61", "added 1, written 0"),
        # Its place would be 4, and it has that path then.
        ("file 1 0003~ 61", "added 1, written 0"),
        ("file 1 0005 61", "added 1, written 0"),
        ("file 1 0007 61", "added 1, written 0"),
        ("see 1 61", NOT_ABOVE),
        ("file 1 0008 61", "added 1, written 0"),
        ("see 1 61", NOT_ABOVE),
        # Its place is 9 then.
        ("file 1 00080 61", "added 1, written 0"),
        ("see 1 61", f"found {A}"),
        ("raise 1", "raised 1"),
        ("name 1", "named 1"),
        ("back 1 1 0009", "1 61"),
        ("back 1 1 0010", ABSENT),
        ("back 1 1 00080", "1 61"),
    ],
    # Paths in the order of their bytes; bytes that stand in no text. A carriage return at a line's end is none of them.
    [
        ("begin 0", "begun"),
        ("file 0 \x00", "added 0, written 0"),
        *[
            step
            for before, path in [
                ("\x00", "\x00\x00"),
                ("\x00\x00", "\x00\x01"),
                ("\x00\x01", "\x01"),
                ("\x01", "!"),
                ("!", "#"),
                ("#", "'\\"),
                ("'\\", "/"),
                ("/", "61"),
                ("61", "A"),
                ("A", "Z\xff"),
                ("Z\xff", "a"),
                ("a", "a\x00"),
                ("a\x00", "a\r"),
                ("a\r", "a/b/../c"),
                ("a/b/../c", "aa"),
                ("aa", "b"),
                ("b", "repeat"),
                ("repeat", "\x7f"),
                ("\x7f", "\x80"),
                ("\x80", "\xfe\xff\xff"),
                ("\xfe\xff\xff", "\xff"),
                ("\xff", "\xff\x00"),
            ]
            for step in [
                (f"file 0 {path} 61", f"added 1, written {int(before == chr(0))}"),
                (f"file 0 {before} 61", NOT_ABOVE),
            ]
        ],
        ("file 0 \xff\x01\r", "added 0, written 0"),
        ("file\t0 \t\xff\x01\r  \t repeat \t 61\t3 \r", "added 1, written 1"),
        ("raise 0", "raised 1"),
        ("name 0", "named 1"),
        *[(f"back 0 1 {path}", "1 61") for path in ("\x00\x00", "#", "'\\", "61", "Z\xff", "a\x00", "repeat", "\x80")],
        ("back 0 1 a\r\r", "1 61"),
        ("back 0 1 a\r", "1 61"),
        ("back 0 1 \xff\x01", "0"),
        ("back 0 1 \xff\x01\r", "0"),
        ("back 0 1 \xff\x01\r\r", "3 616161"),
        ("back 0 1 \xff\x01\r ", "3 616161"),
        ("back 0 1 a\x01", ABSENT),
        ("back 000 0001 \t#\t ", "1 61"),
    ],
    # The longest path, and one byte more.
    [
        ("begin 1", "begun"),
        ("file 1 " + "p" * 254 + " 61", "added 1, written 1"),
        ("file 1 " + "p" * 255 + " 62", "added 1, written 1"),
        ("file 1 " + "p" * 255 + " 62", NOT_ABOVE),
        ("file 1 " + "p" * 256 + " 63", LONG_PATH),
        ("file 1 " + "q" * 256 + " 63", LONG_PATH),
        ("file 1 " + "q" * 100_000, LONG_PATH),
        ("file 1 " + "q" * 255 + " 63", "added 1, written 1"),
        ("raise 1", "raised 1"),
        # It is refused before the machine is looked at; so is a file that is too long, before that.
        ("file 1 " + "q" * 256, LONG_PATH),
        ("file 3 " + "q" * 256, LONG_PATH),
        ("file 9 " + "q" * 256, LONG_PATH),
        ("file 9 " + "q" * 256 + " repeat 61 16777217", LONG_FILE),
        ("name 1", "named 1"),
        ("back 1 1 " + "p" * 254, "1 61"),
        ("back 1 1 " + "p" * 255, "1 62"),
        ("back 1 1 " + "q" * 255, "1 63"),
        *refused(ABSENT, *["back 1 1 " + "p" * length for length in (1, 253, 256, 511, 100_000)]),
        (
            "bytes 1 1",
            answer(
                digest(
                    "44" "01" "00000001" "0003"
                    "fe" + "70" * 254 + "00000001" "0001" + A +
                    "ff" + "70" * 255 + "00000001" "0001" + B +
                    "ff" + "71" * 255 + "00000001" "0001" + C
                )
            ),
        ),
    ],
    # What is refused by the state of the machine. The first row of the table that fits decides.
    [
        *refused(ABSENT, *[f"file {machine} a 61" for machine in (4, 5, 63, 64, 255, 256, 65_536, 4_294_967_295)]),
        *refused(MAKES_NONE, "file 0 a", "file 0 a 61", "see 0 61", "file 3 a repeat 00 5000"),
        ("begin 0", "begun"),
        ("file 1 a 61", MAKES_NONE),
        ("file 0 m", "added 0, written 0"),
        ("raise 0", "raised 1"),
        *refused(NOT_ABOVE, "file 0 m 61", "file 0 a", "see 0 61"),
        *refused(RAISED, "file 0 n", "file 0 n 61", "file 0 m0 repeat 00 5000"),
        *refused(EMPTY, "see 0", "see 4", "see 1 repeat 00 0"),
        ("show", "machine 0 1 names 1", *NOTHING[1:], RESTS),
        ("name 0", "named 1"),
        ("file 0 n", MAKES_NONE),
        ("bytes 0 1", answer(digest("44" "00" "00000001" "0001" "01" "6d" "00000000" "0000"))),
        ("begin 1", "begun"),
        ("file 1 0000", "added 0, written 0"),
        ("raise 1", "raised 1"),
        ("see 1 61", RAISED),
        ("part 1", "parted"),
        *refused(ABSENT, "file 1 a 61", "see 1 61", "file 1 0000"),
        ("file 1 " + "p" * 256, LONG_PATH),
        ("see 1", EMPTY),
        ("file 1 a repeat 61 16777217", LONG_FILE),
    ],
    # The number of a day in its file.
    [
        *[step for number in range(1, 300) for step in day(2, number)],
        ("bytes 2 255", answer(digest("44" "02" "000000ff" "0000"))),
        ("bytes 2 256", answer(digest("44" "02" "00000100" "0000"))),
        ("bytes 2 00299", answer(digest("44" "02" "0000012b" "0000"))),
    ],
    # A piece that is put aside is had back from there. A machine that writes it anew does no harm.
    [
        ("begin 0", "begun"),
        ("file 0 a 61", "added 1, written 1"),
        ("file 0 b repeat 00 5000", "added 3, written 2"),
        ("look", "to put aside 3"),
        ("aside", f"put aside {A}"),
        ("aside", f"put aside {Y}"),
        ("raise 0", "raised 1"),
        ("name 0", "named 1"),
        ("back 0 1 a", "1 61"),
        ("back 0 1 b", answer("00" * 5_000)),
        ("aside", f"put aside {Z}"),
        ("back 0 1 b", answer("00" * 5_000)),
        ("note", "noted"),
        *day(1, 1, ("a 61", 1, 1)),
        ("back 0 1 a", "1 61"),
        ("back 1 1 a", "1 61"),
        *day(0, 2),
        *day(2, 1),
        *day(3, 1),
        ("decide", "to put back 3, to throw away 0"),
        ("back 0 1 b", answer("00" * 5_000)),
        ("next", f"put back {A}"),
        ("next", f"put back {Y}"),
        ("back 0 1 b", answer("00" * 5_000)),
        ("next", f"put back {Z}"),
        ("back 0 1 a", "1 61"),
        ("back 0 1 b", answer("00" * 5_000)),
    ],
    # A file that is added while one of its pieces is aside has the others found.
    [
        *day(0, 1, ("b repeat 00 5000", 3, 2)),
        ("go 0 1", "let go"),
        ("look", "to put aside 2"),
        ("aside", f"put aside {Y}"),
        ("begin 1", "begun"),
        ("file 1 a repeat 00 5000", "added 3, written 1"),
        ("aside", f"put aside {Z}"),
        ("file 1 b repeat 00 5000", "added 3, written 1"),
        ("file 1 c repeat 00 5000", "added 3, written 0"),
    ],
    # Days of a machine that is gone are had back like others.
    [
        *ABC_DAY,
        ("begin 0", "begun"),
        ("file 0 d 62", "added 1, written 1"),
        ("part 0", "parted"),
        ("bytes 0 1", answer(ABC_FILE)),
        *ABC_BACK,
        *refused(ABSENT, "back 0 2 d", "back 0 1 d", "bytes 0 2"),
        ("look", "to put aside 1"),
        *ABC_BACK,
        ("go 0 1", "let go"),
        *refused(ABSENT, "back 0 1 a", "bytes 0 1"),
    ],
    # Other bytes in a place, and no copy: no file that has the piece is had back, and nothing moves. Turned round
    # again, all is as it was.
    [
        *ABC_DAY,
        ("flip-place 0 61", "flipped"),
        ("back 0 1 a", "0"),
        ("back 0 1 b", DAMAGED),
        ("back 0 1 c", answer("00" * 5_000)),
        ("back 0 1 d", ABSENT),
        *refused(DAMAGED, "look", "decide"),
        ("bytes 0 1", answer(ABC_FILE)),
        (
            "show",
            *ABC_PLACES,
            *ABC_LISTED,
            f"day 0 1 {A} {Z} {Z} {Y}",
            "machine 0 1 none",
            *NOTHING[1:],
            RESTS,
        ),
        ("flip-place 0 61", "flipped"),
        *ABC_BACK,
        # The piece that stands in its file twice, and the last one.
        ("flip-place 2047 repeat 00 2048", "flipped"),
        *refused(DAMAGED, "back 0 1 c", "look", "decide"),
        ("back 0 1 b", "1 61"),
        ("flip-place 2047 repeat 00 2048", "flipped"),
        ("flip-place 903 repeat 00 904", "flipped"),
        *refused(DAMAGED, "back 0 1 c", "look", "decide"),
        ("flip-place 903 repeat 00 904", "flipped"),
        *ABC_BACK,
        ("look", "to put aside 0"),
        # Two bytes, one after the other.
        ("flip-place 7 repeat 00 2048", "flipped"),
        ("flip-place 8 repeat 00 2048", "flipped"),
        ("flip-place 7 repeat 00 2048", "flipped"),
        ("back 0 1 c", DAMAGED),
        ("flip-place 8 repeat 00 2048", "flipped"),
        ("back 0 1 c", answer("00" * 5_000)),
    ],
    # A machine that sees to the piece writes it anew, and the file is had back again.
    [
        *ONE_DAY,
        ("flip-place 0 61", "flipped"),
        ("back 0 1 a", DAMAGED),
        ("begin 1", "begun"),
        ("see 1 61", f"written {A}"),
        ("back 0 1 a", "1 61"),
        ("see 1 61", f"found {A}"),
        ("flip-place 0 61", "flipped"),
        ("file 1 a 61", "added 1, written 1"),
        ("back 0 1 a", "1 61"),
        ("show", f"place {A} 1", f"listed 0 {A}", f"listed 1 {A}", f"day 0 1 {A}", "machine 0 1 none")
        + (f"machine 1 0 makes {A} {A} {A}", *NOTHING[2:], RESTS),
    ],
    # Damage in a place with a right copy aside, the other way round, and in both.
    [
        ("begin 0", "begun"),
        ("file 0 a 61", "added 1, written 1"),
        ("look", "to put aside 1"),
        ("flip-aside 0 61", ABSENT),
        ("aside", f"put aside {A}"),
        ("flip-place 0 61", ABSENT),
        ("raise 0", "raised 1"),
        ("name 0", "named 1"),
        ("flip-aside 0 61", "flipped"),
        ("back 0 1 a", DAMAGED),
        *refused(DAMAGED, "look", "decide"),
        ("note", "noted"),
        *refused(DAMAGED, "look", "decide"),
        ("flip-aside 0 61", "flipped"),
        ("back 0 1 a", "1 61"),
        ("look", NOT_THERE),
        ("decide", NO_DAY),
        *day(1, 1, ("a 61", 1, 1)),
        ("flip-place 0 61", "flipped"),
        ("back 0 1 a", "1 61"),
        ("back 1 1 a", "1 61"),
        ("decide", NO_DAY),
        ("flip-aside 0 61", "flipped"),
        *refused(DAMAGED, "back 0 1 a", "back 1 1 a", "look", "decide", "decide"),
        ("flip-place 0 61", "flipped"),
        ("back 0 1 a", "1 61"),
        ("decide", NO_DAY),
        # What lies aside is not of its name. It is thrown away, also where a day has the piece.
        *day(0, 2),
        *day(2, 1),
        *day(3, 1),
        ("decide", "to put back 0, to throw away 1"),
        ("flip-aside 0 61", "flipped"),
        ("next", f"thrown away {A}"),
        ("flip-aside 0 61", ABSENT),
        ("back 0 1 a", "1 61"),
    ],
    # What is put back takes the place, whatever it is by then.
    [
        ("begin 0", "begun"),
        ("file 0 a 61", "added 1, written 1"),
        ("look", "to put aside 1"),
        ("aside", f"put aside {A}"),
        ("note", "noted"),
        ("raise 0", "raised 1"),
        ("name 0", "named 1"),
        *day(1, 1, ("a 61", 1, 1)),
        *day(2, 1),
        *day(3, 1),
        ("decide", "to put back 1, to throw away 0"),
        ("flip-aside 0 61", "flipped"),
        ("back 0 1 a", "1 61"),
        ("next", f"put back {A}"),
        *refused(DAMAGED, "back 0 1 a", "back 1 1 a", "look"),
        ("flip-place 0 61", "flipped"),
        ("back 1 1 a", "1 61"),
        ("look", "to put aside 0"),
    ],
    # Anything that lies in a place is put aside where no day has it.
    [
        *ONE_DAY,
        ("go 0 1", "let go"),
        ("flip-place 0 61", "flipped"),
        ("look", "to put aside 1"),
        ("aside", f"put aside {A}"),
        ("flip-place 0 61", ABSENT),
        ("flip-aside 0 61", "flipped"),
        ("stop", "stopped"),
        *day(1, 1, ("a 61", 1, 1)),
        ("flip-place 0 61", "flipped"),
        # The right copy is aside.
        ("back 1 1 a", "1 61"),
        ("look", "to put aside 0"),
    ],
    # There is nothing to turn round: no piece, no day, no such byte.
    [
        *ABC_DAY,
        *refused(ABSENT, "flip-place 0", "flip-place 0 62", "flip-place 0 6161", "flip-place 1 61"),
        *refused(ABSENT, "flip-place 4294967295 61", "flip-place 2048 repeat 00 2048", "flip-place 904 repeat 00 904"),
        *refused(ABSENT, "flip-place 0 random 1 904", "flip-place 0 repeat 00 5000"),
        *refused(ABSENT, "flip-place 0 repeat 61 65537", "flip-place 0 random 7 99999999"),
        *refused(ABSENT, "flip-aside 0", "flip-aside 0 61", "flip-aside 0 repeat 00 2048", "flip-aside 1 61"),
        *refused(ABSENT, "flip-aside 0 repeat 61 65537"),
        *refused(ABSENT, f"flip-day 0 1 {ABC_LENGTH}", "flip-day 0 1 4294967295", "flip-day 0 0 0", "flip-day 0 2 0"),
        *refused(ABSENT, "flip-day 1 1 0", "flip-day 4 1 0", "flip-day 64 1 0", "flip-day 256 1 0"),
        *refused(ABSENT, f"cut-day 0 1 {ABC_LENGTH + 1}", "cut-day 0 1 4294967295", "cut-day 0 2 0", "cut-day 0 0 0"),
        *refused(ABSENT, "cut-day 1 1 0", "cut-day 4 1 0", "cut-day 256 1 0"),
        *refused(ABSENT, "back 4 1 a", "back 64 1 a", "back 256 1 a", "back 4294967295 4294967295 a"),
        *refused(ABSENT, "bytes 4 1", "bytes 256 1"),
        *ABC_BACK,
        ("look", "to put aside 0"),
        ("begin 1", "begun"),
        *refused(ABSENT, "flip-day 1 1 0", "cut-day 1 1 0", "flip-day 1 0 0"),
        ("raise 1", "raised 1"),
        *refused(ABSENT, "flip-day 1 1 0", "cut-day 1 1 0", "bytes 1 1", "back 1 1 a"),
    ],
    # Each byte of a day file, turned round and back again. No path is looked for in what is no day file.
    [
        *ONE_DAY,
        *[
            step
            for at in range(ONE_LENGTH)
            for step in [
                (f"flip-day 0 1 {at}", "flipped"),
                ("back 0 1 a", DAMAGED),
                ("back 0 1 b", DAMAGED),
                ("look", DAMAGED),
                ("bytes 0 1", answer(flipped(ONE_FILE, at))),
                (f"flip-day 0 1 {at}", "flipped"),
                ("back 0 1 a", "1 61"),
            ]
        ],
        ("bytes 0 1", answer(ONE_FILE)),
        ("look", "to put aside 0"),
    ],
    # A day that is damaged is a day all the same, of which nobody knows the pieces.
    [
        *ONE_DAY,
        *day(1, 1, ("a 61", 1, 0)),
        ("flip-day 0 1 9", "flipped"),
        (
            "show",
            f"place {A} 1",
            f"listed 0 {A}",
            "day 0 1 damaged",
            f"day 1 1 {A}",
            "machine 0 1 none",
            "machine 1 1 none",
            *NOTHING[2:],
            RESTS,
        ),
        *refused(DAMAGED, "look", "decide"),
        *refused(NOT_THERE, "aside", "note", "next"),
        ("back 1 1 a", "1 61"),
        # Machines make days as before.
        *day(0, 2, ("a 61", 1, 0)),
        ("back 0 2 a", "1 61"),
        ("part 0", "parted"),
        *refused(DAMAGED, "back 0 1 a", "look"),
        ("go 0 1", "let go"),
        ("look", "to put aside 0"),
        ("note", "noted"),
        *day(1, 2),
        *day(2, 1),
        ("cut-day 2 1 39", "cut"),
        *day(3, 1),
        *refused(DAMAGED, "decide", "look"),
        ("cut-day 1 2 0", "cut"),
        ("bytes 1 2", "0"),
        (
            "show",
            f"place {A} 1",
            f"listed 0 {A}",
            f"day 0 2 {A}",
            f"day 1 1 {A}",
            "day 1 2 damaged",
            "day 2 1 damaged",
            "day 3 1",
            "machine 0 2 parted",
            "machine 1 2 none",
            "machine 2 1 none",
            "machine 3 1 none",
            "sweeper waits 2 1 0 0",
        ),
        ("go 2 1", "let go"),
        ("decide", DAMAGED),
        ("go 1 2", "let go"),
        ("decide", NO_DAY),
        *day(1, 3),
        *day(2, 2),
        ("decide", "to put back 0, to throw away 0"),
    ],
    # After a stop while it ended, the sweeper decides anew, and that is refused, too, where a day is damaged.
    [
        *ONE_DAY,
        ("go 0 1", "let go"),
        ("look", "to put aside 1"),
        ("aside", f"put aside {A}"),
        ("note", "noted"),
        *[step for machine, number in ((0, 2), (1, 1), (2, 1), (3, 1)) for step in day(machine, number)],
        ("decide", "to put back 0, to throw away 1"),
        ("stop", "stopped"),
        ("flip-day 3 1 2", "flipped"),
        ("decide", DAMAGED),
        ("next", NOT_THERE),
        ("flip-day 3 1 2", "flipped"),
        ("decide", "to put back 0, to throw away 1"),
        # What was decided is done also where a day is damaged after that.
        ("flip-day 3 1 2", "flipped"),
        ("next", f"thrown away {A}"),
        ("look", DAMAGED),
    ],
    # The first bytes of a day file are left.
    [
        *ONE_DAY,
        (f"cut-day 0 1 {ONE_LENGTH}", "cut"),
        ("bytes 0 1", answer(ONE_FILE)),
        ("back 0 1 a", "1 61"),
        ("look", "to put aside 0"),
        ("stop", "stopped"),
        *[
            step
            for length in range(ONE_LENGTH - 1, -1, -1)
            for step in [
                (f"cut-day 0 1 {length}", "cut"),
                (f"cut-day 0 1 {length + 1}", ABSENT),
                (f"flip-day 0 1 {length}", ABSENT),
                ("bytes 0 1", answer(ONE_FILE[: 2 * length])),
                ("back 0 1 a", DAMAGED),
                ("back 0 1 b", DAMAGED),
                ("look", DAMAGED),
            ]
        ],
        ("bytes 0 1", "0"),
        ("cut-day 0 1 0", "cut"),
        ("flip-day 0 1 0", ABSENT),
        ("show", f"place {A} 1", f"listed 0 {A}", "day 0 1 damaged", "machine 0 1 none", *NOTHING[1:], RESTS),
        ("go 0 1", "let go"),
        *refused(ABSENT, "cut-day 0 1 0", "bytes 0 1"),
        ("look", "to put aside 1"),
    ],
    # Bytes from a seed, and a day whose file lists many pieces.
    [
        ("begin 3", "begun"),
        ("file 3 r random 1 30000", "added {pieces}, written {pieces}"),
        ("see 3 random 2 10", NOT_ABOVE),
        ("file 3 s random 2 10", "added 1, written 1"),
        ("raise 3", "raised 1"),
        ("name 3", "named 1"),
        ("back 3 1 r", had_back(generated(1, 30_000))),
        ("back 3 1 s", had_back(generated(2, 10))),
        ("bytes 3 1", had_back(day_file(3, 1, [listed(b"r", generated(1, 30_000)), listed(b"s", generated(2, 10))]))),
        ("flip-place 9 random 2 10", "flipped"),
        ("back 3 1 s", DAMAGED),
        ("flip-place 009 random 02 010", "flipped"),
        ("back 3 1 s", had_back(generated(2, 10))),
    ],
    # Leading zeros; spaces, tabs and carriage returns.
    [
        ("begin 0", "begun"),
        ("file " + "0" * 100_000 + " a 4A", "added 1, written 1"),
        ("  file \t 0\tb\t4a \r", "added 1, written 0"),
        ("file 00 c repeat 4a 0001", "added 1, written 0"),
        ("file 0 d  \t\r", "added 0, written 0"),
        ("raise 0", "raised 1"),
        ("name 0", "named 1"),
        ("\tback 00 \t" + "0" * 100_000 + "1 a \r", "1 4a"),
        ("back 0 01 d", "0"),
        ("flip-place 00 \t4A\r", "flipped"),
        ("back 0 1 b", DAMAGED),
        ("\tflip-place\t" + "0" * 100_000 + " repeat 4a 1 ", "flipped"),
        ("back 0 1 b", "1 4a"),
        ("flip-day 000 001 0002\r", "flipped"),
        (" flip-day\t0 1\t2 \r", "flipped"),
        ("back 0 1 c", "1 4a"),
        ("cut-day 00 0001 " + "0" * 100_000 + "1", "cut"),
        (" bytes\t0 \t01 \r", "1 44"),
    ],
]

# Scripts that would take long if the promise were checked after each of their steps.
LONG_SCRIPTS = [
    # The longest file, and one byte more, which is refused before all else.
    [
        ("file 0 a repeat 61 16777216", MAKES_NONE),
        ("file 4 a repeat 61 16777216", ABSENT),
        ("begin 0", "begun"),
        *[
            (f"file {machine} {path} {words}", LONG_FILE)
            for machine in (0, 1, 4, 4_294_967_295)
            for path in ("a", "p" * 256)
            for words in ("repeat 61 16777217", "random 1 16777217", "repeat 00 1073741824", "random 7 1073741824")
        ],
        ("file 0 a repeat 00 16777216", "added 8192, written 1"),
        ("file 0 a repeat 00 16777217", LONG_FILE),
        ("file 0 b repeat 61 16777216", "added 256, written 1"),
        ("raise 0", "raised 1"),
        ("file 0 c repeat 61 16777217", LONG_FILE),
        ("name 0", "named 1"),
        ("back 0 1 b", answer("61" * MAX_FILE)),
    ],
    # As many files as there may be, and one more.
    [
        ("begin 0", "begun"),
        ("see 0 61", f"written {A}"),
        *[("see 0 61", f"found {A}")] * (MAX_FILES - 2),
        ("file 0 4095~ 62", "added 1, written 1"),
        *refused(TOO_MANY, "see 0 61", "see 0 63", "file 0 z", "file 0 z 63", "file 0 a", "file 0 0 63"),
        *refused(TOO_MANY, "file 0 4095~"),
        *refused(EMPTY, "see 0"),
        *refused(LONG_PIECE, "see 0 repeat 61 65537"),
        *refused(LONG_PATH, "file 0 " + "z" * 256),
        *refused(LONG_FILE, "file 0 z repeat 61 16777217"),
        ("raise 0", "raised 1"),
        *refused(TOO_MANY, "see 0 61", "file 0 z", "file 0 a"),
        ("name 0", "named 1"),
        ("see 0 61", MAKES_NONE),
        ("back 0 1 0001", "1 61"),
        ("back 0 1 4095", "1 61"),
        ("back 0 1 4095~", "1 62"),
        *refused(ABSENT, "back 0 1 4096", "back 0 1 4097", "back 0 1 0000"),
        (
            "bytes 0 1",
            had_back(day_file(0, 1, [*places(1, MAX_FILES), listed(b"4095~", b"b")])),
        ),
        ("begin 0", "begun"),
        ("see 0 61", f"found {A}"),
        *[("see 0 61", f"found {A}")] * (MAX_FILES - 1),
        ("see 0 61", TOO_MANY),
        ("raise 0", "raised 2"),
        ("name 0", "named 2"),
        ("back 0 2 4096", "1 61"),
        ("bytes 0 2", had_back(day_file(0, 2, places(1, MAX_FILES + 1)))),
    ],
]

# The lines of the steps, and words for them that are right but for one.
FORMS = ["file M PATH BYTES", "back M N PATH", "bytes M N", "flip-place AT BYTES", "flip-aside AT BYTES"]
FORMS += ["flip-day M N AT", "cut-day M N LENGTH"]
WORDS = {"PATH": "a", "BYTES": "61"}


def no_number(word):
    return f"'{word}' is not a number from 0 to 4294967295"


def few_or_many():
    """Too few words or too many, whatever they are."""
    for form in FORMS:
        name, *words = form.split()
        least = len(words) - ("BYTES" in words)
        for count in range(least):
            for word in ("0", "x", "4294967296", "61", "#"):
                yield " ".join([name, *[word] * count]), f"write the line as '{form}'"
        if "BYTES" not in words:
            for word in ("0", "x", "4294967296", "#"):
                yield " ".join([name, *[word] * (least + 1)]), f"write the line as '{form}'"
            yield name + " 0" * 100_000, f"write the line as '{form}'"


# Words that are no number, and how they are shown.
BAD_NUMBERS = [
    ("x", "x"),
    ("-1", "-1"),
    ("+1", "+1"),
    ("0x1", "0x1"),
    ("1.", "1."),
    ("/", "/"),
    (":", ":"),
    ("#", "#"),
    ("0\x00", r"0\x00"),
    ("'0'", r"\x270\x27"),
    ("\xff", r"\xff"),
    ("4294967296", "4294967296"),
    ("18446744073709551616", "18446744073709551616"),
    ("0" * 40 + "4294967296", "0" * 32 + ".."),
    ("9" * 10_000, "9" * 32 + ".."),
]


def bad_numbers():
    """The first word that is to be a number and is none is shown. The bytes are not looked at then."""
    for form in FORMS:
        name, *words = form.split()
        numbers = [at for at, word in enumerate(words) if word not in WORDS]
        for at in numbers:
            for word, shown in BAD_NUMBERS:
                line = [WORDS.get(word, "0") for word in words]
                line[at] = word
                yield " ".join([name, *line]), no_number(shown)
                for later in numbers[numbers.index(at) + 1 :]:
                    line[later] = "y"
                line[-1] = "61 62" if words[-1] == "BYTES" else line[-1]
                yield " ".join([name, *line]), no_number(shown)


# Bytes that are none, and what is said of them.
BAD_BYTES = [
    ("61 62", USAGE),
    ("# no comment", USAGE),
    ("repeat", USAGE),
    ("repeat 61", USAGE),
    ("repeat 61 16777217 1", USAGE),
    ("random 1", USAGE),
    ("random 1 1 1", USAGE),
    ("Repeat 61 1", USAGE),
    ("61g", "'g' is not a hexadecimal digit, at place 3"),
    ("#", "'#' is not a hexadecimal digit, at place 1"),
    ("616", "an odd number of hexadecimal digits, 3"),
    ("61" * 65_537 + "6", "an odd number of hexadecimal digits, 131075"),
    ("repeat 6 1", "'6' is not a byte of two hexadecimal digits"),
    ("repeat 61 x", "'x' is not a number from 0 to 1073741824"),
    ("repeat 61 1073741825", "'1073741825' is not a number from 0 to 1073741824"),
    ("random x 1", "'x' is not a number from 0 to 1073741824"),
    ("random 1073741825 1", "'1073741825' is not a number from 0 to 1073741824"),
    ("random 1 1073741825", "'1073741825' is not a number from 0 to 1073741824"),
]

# Lines that are no step, whatever there is, and what follows `line N: `.
FAULTS = [
    ("File 0 a 61", "no step is called 'File'"),
    ("files 0 a 61", "no step is called 'files'"),
    ("fil 0 a", "no step is called 'fil'"),
    ("file\x0b 0 a", r"no step is called 'file\x0b'"),
    ("added 1, written 1", "no step is called 'added'"),
    ("backs 0 1 a", "no step is called 'backs'"),
    ("bac 0 1 a", "no step is called 'bac'"),
    ("byte 0 1", "no step is called 'byte'"),
    ("bytess 0 1", "no step is called 'bytess'"),
    ("flip 0 61", "no step is called 'flip'"),
    ("flip-", "no step is called 'flip-'"),
    ("flip place 0 61", "no step is called 'flip'"),
    ("flip_place 0 61", "no step is called 'flip_place'"),
    ("flip-places 0 61", "no step is called 'flip-places'"),
    ("flip-asid 0 61", "no step is called 'flip-asid'"),
    ("flip-days 0 1 0", "no step is called 'flip-days'"),
    ("flip-Day 0 1 0", "no step is called 'flip-Day'"),
    ("cut-da 0 1 0", "no step is called 'cut-da'"),
    ("cut-place 0 61", "no step is called 'cut-place'"),
    ("flipped", "no step is called 'flipped'"),
    *few_or_many(),
    *bad_numbers(),
    # The bytes come before all that is refused.
    *[
        (f"{start} {words}", message)
        for start in ("file 0 a", "file 9 a", "file 1 " + "p" * 256, "flip-place 0", "flip-aside 4294967295")
        for words, message in BAD_BYTES
    ],
]


def test():
    pieces = str(len(listed(b"r", generated(1, 30_000))[2]))
    for steps in SCRIPTS:
        steps = [(step[0], *[line.replace("{pieces}", pieces) for line in step[1:]]) for step in steps]
        played(steps)
        check_promise("\n".join(line for line, *_ in steps).encode("latin-1"))
    for steps in LONG_SCRIPTS:
        played(steps)

    # Lines that are no step change nothing.
    faults = [(line, "line: " + message) for line, message in FAULTS]
    played([*faults, ("show", *NOTHING, RESTS)])
    played([
        *ABC_DAY,
        ("begin 1", "begun"),
        *faults,
        *ABC_BACK,
        ("bytes 0 1", answer(ABC_FILE)),
        ("file 1 a", "added 0, written 0"),
        ("look", "to put aside 0"),
    ])
    steps = sum(len(steps) for steps in (*SCRIPTS, *LONG_SCRIPTS))
    print(f"{len(SCRIPTS) + len(LONG_SCRIPTS)} scripts of {steps} steps, and {len(FAULTS)} lines that are no step")


main(test)
