#!/usr/bin/env -S python3 -B
"""The steps of machines: scripts, each step with its answer. What is expected is
written here by hand, from docs/REHEARSE.md and docs/STORE.md."""

from common import USAGE, main, played, sha256, sha256_repeat

# The names of the pieces of the bytes 61, 62, 63 and 74, and of two long ones. In the
# order of their digits: C, B, LONG, A, ZEROS, T.
A = "ca978112ca1bbdcafac231b39a23dc4da786eff8147c4e72b9807785afee48bb"
B = "3e23e8160039594a33894f6564e1b1348bbd7a0088d42c4acb73eeaed59c009d"
C = "2e7d2c03a9507ae265ecf5b5356885a53393a2029d241394997265a1a25aefc6"
T = "e3b98a4da31a127d4bde6e43033f66ba274cab0eb7eb1c70ec41402bf6273dd8"
ZEROS = sha256_repeat(0, 65_536)
LONG = sha256_repeat(0x61, 65_536)
assert [A, B, C, T] == [sha256(piece) for piece in (b"a", b"b", b"c", b"t")]
assert sorted([A, B, C, T, ZEROS, LONG]) == [C, B, LONG, A, ZEROS, T]

# In an answer, `line: ` stands for `line N: ` with the line's number.
ABSENT = "line: refused by 1: there is no such machine, day or path"
EMPTY = "line: refused by 1: a piece has at least one byte"
TOO_LONG = "line: refused by 1: a piece has at most 65536 bytes"
MAKES_ONE = "line: refused by 3: the machine already makes a day"
MAKES_NONE = "line: refused by 3: the machine makes no day"
RAISED = "line: refused by 3: the day has its number already, and is to be named or broken off"
NOT_RAISED = "line: refused by 3: the day has no number yet, which is to be raised first"

NOTHING = ["machine 0 0 none", "machine 1 0 none", "machine 2 0 none", "machine 3 0 none"]

# The last line of what `show` writes, which the table below leaves out: nothing is swept here.
RESTS = "sweeper rests"

# Each script is a list of steps, each with the lines of its answer.
SCRIPTS = [
    # Without steps of machines.
    [("show", *NOTHING), ("show", *NOTHING)],
    [("digest 61", A), ("cut 61", "pieces 1", "1 " + A), ("show", *NOTHING)],
    # A day, and what is there after each step.
    [
        ("begin 0", "begun"),
        ("show", "machine 0 0 makes", *NOTHING[1:]),
        ("see 0 61", "written " + A),
        ("show", f"place {A} 1", f"listed 0 {A}", f"machine 0 0 makes {A}", *NOTHING[1:]),
        ("see 0 62", "written " + B),
        (
            "show",
            f"place {B} 1",
            f"place {A} 1",
            f"listed 0 {B}",
            f"listed 0 {A}",
            f"machine 0 0 makes {A} {B}",
            *NOTHING[1:],
        ),
        ("raise 0", "raised 1"),
        (
            "show",
            f"place {B} 1",
            f"place {A} 1",
            f"listed 0 {B}",
            f"listed 0 {A}",
            f"machine 0 1 names 1 {A} {B}",
            *NOTHING[1:],
        ),
        ("name 0", "named 1"),
        (
            "show",
            f"place {B} 1",
            f"place {A} 1",
            f"listed 0 {B}",
            f"listed 0 {A}",
            f"day 0 1 {A} {B}",
            "machine 0 1 none",
            *NOTHING[1:],
        ),
        # Its pieces stay, and its number is not used again.
        ("go 0 1", "let go"),
        (
            "show",
            f"place {B} 1",
            f"place {A} 1",
            f"listed 0 {B}",
            f"listed 0 {A}",
            "machine 0 1 none",
            *NOTHING[1:],
        ),
        ("go 0 1", ABSENT),
        ("begin 0", "begun"),
        ("see 0 62", "found " + B),
        ("raise 0", "raised 2"),
        ("name 0", "named 2"),
        (
            "show",
            f"place {B} 1",
            f"place {A} 1",
            f"listed 0 {B}",
            f"listed 0 {A}",
            f"day 0 2 {B}",
            "machine 0 2 none",
            *NOTHING[1:],
        ),
    ],
    # Days without pieces; a number that is raised without a day having it.
    [
        ("begin 3", "begun"),
        ("raise 3", "raised 1"),
        ("show", *NOTHING[:3], "machine 3 1 names 1"),
        ("name 3", "named 1"),
        ("show", "day 3 1", *NOTHING[:3], "machine 3 1 none"),
        ("begin 3", "begun"),
        ("show", "day 3 1", *NOTHING[:3], "machine 3 1 makes"),
        ("raise 3", "raised 2"),
        ("break 3", "broken off"),
        ("show", "day 3 1", *NOTHING[:3], "machine 3 2 none"),
        ("begin 3", "begun"),
        ("break 3", "broken off"),
        ("go 3 2", ABSENT),
        ("begin 3", "begun"),
        ("raise 3", "raised 3"),
        ("go 3 3", ABSENT),
        ("name 3", "named 3"),
        ("show", "day 3 1", "day 3 3", *NOTHING[:3], "machine 3 3 none"),
        ("go 3 1", "let go"),
        ("go 3 3", "let go"),
        ("show", *NOTHING[:3], "machine 3 3 none"),
        ("begin 3", "begun"),
        ("raise 3", "raised 4"),
    ],
    # There is no piece of no bytes. It is refused before all else.
    [
        ("see 1", EMPTY),
        ("begin 1", "begun"),
        ("see 1", EMPTY),
        ("see 1 repeat 61 0", EMPTY),
        ("see 1 random 7 0", EMPTY),
        ("see 1 \t\r", EMPTY),
        ("see 4", EMPTY),
        ("show", NOTHING[0], "machine 1 0 makes", *NOTHING[2:]),
        ("raise 1", "raised 1"),
        ("see 1", EMPTY),
    ],
    # The same piece several times in a day stands in it several times.
    [
        ("begin 2", "begun"),
        ("see 2 62", "written " + B),
        ("see 2 61", "written " + A),
        ("see 2 62", "found " + B),
        ("see 2 62", "found " + B),
        ("raise 2", "raised 1"),
        ("name 2", "named 1"),
        (
            "show",
            f"place {B} 1",
            f"place {A} 1",
            f"listed 2 {B}",
            f"listed 2 {A}",
            f"day 2 1 {B} {A} {B} {B}",
            *NOTHING[:2],
            "machine 2 1 none",
            NOTHING[3],
        ),
    ],
    # A piece that a machine finds is not in its list, whoever wrote it. A day that
    # is broken off, or is not there, changes nothing about that.
    [
        ("begin 1", "begun"),
        ("begin 0", "begun"),
        ("see 1 61", "written " + A),
        ("see 0 61", "found " + A),
        ("break 1", "broken off"),
        ("see 0 61", "found " + A),
        (
            "show",
            f"place {A} 1",
            f"listed 1 {A}",
            f"machine 0 0 makes {A} {A}",
            *NOTHING[1:],
        ),
        ("raise 0", "raised 1"),
        ("name 0", "named 1"),
        ("begin 1", "begun"),
        ("see 1 61", "found " + A),
        ("go 0 1", "let go"),
        ("see 1 61", "found " + A),
        (
            "show",
            f"place {A} 1",
            f"listed 1 {A}",
            "machine 0 1 none",
            f"machine 1 0 makes {A} {A}",
            *NOTHING[2:],
        ),
    ],
    # Four machines at once. Places are in the order of names, lists in that of
    # machines and then of names, days in that of machines and then of numbers.
    [
        ("begin 3", "begun"),
        ("see 3 74", "written " + T),
        ("see 3 61", "written " + A),
        ("see 3 63", "written " + C),
        ("begin 1", "begun"),
        ("see 1 repeat 61 65536", "written " + LONG),
        ("see 1 62", "written " + B),
        ("see 1 63", "found " + C),
        ("begin 0", "begun"),
        ("see 0 repeat 00 65536", "written " + ZEROS),
        ("begin 2", "begun"),
        ("raise 1", "raised 1"),
        ("raise 3", "raised 1"),
        ("name 3", "named 1"),
        ("begin 3", "begun"),
        ("raise 3", "raised 2"),
        ("name 3", "named 2"),
        ("raise 0", "raised 1"),
        ("name 0", "named 1"),
        ("begin 3", "begun"),
        ("see 3 61", "found " + A),
        ("see 3 74", "found " + T),
        (
            "show",
            f"place {C} 1",
            f"place {B} 1",
            f"place {LONG} 65536",
            f"place {A} 1",
            f"place {ZEROS} 65536",
            f"place {T} 1",
            f"listed 0 {ZEROS}",
            f"listed 1 {B}",
            f"listed 1 {LONG}",
            f"listed 3 {C}",
            f"listed 3 {A}",
            f"listed 3 {T}",
            f"day 0 1 {ZEROS}",
            f"day 3 1 {T} {A} {C}",
            "day 3 2",
            "machine 0 1 none",
            f"machine 1 1 names 1 {LONG} {B} {C}",
            "machine 2 0 makes",
            f"machine 3 2 makes {A} {T}",
        ),
    ],
    # Numbers are in their own order: 9 comes before 10.
    [
        *[
            step
            for number in range(1, 12)
            for step in [("begin 2", "begun"), ("raise 2", f"raised {number}"), ("name 2", f"named {number}")]
        ],
        ("go 2 03", "let go"),
        (
            "show",
            *[f"day 2 {number}" for number in (1, 2, 4, 5, 6, 7, 8, 9, 10, 11)],
            *NOTHING[:2],
            "machine 2 11 none",
            NOTHING[3],
        ),
    ],
    # A machine that makes a day, with and without a number, and others meanwhile.
    [
        ("see 0 61", MAKES_NONE),
        ("raise 0", MAKES_NONE),
        ("name 0", MAKES_NONE),
        ("break 0", MAKES_NONE),
        ("show", *NOTHING),
        ("begin 0", "begun"),
        ("begin 0", MAKES_ONE),
        ("name 0", NOT_RAISED),
        ("see 1 61", MAKES_NONE),
        ("raise 1", MAKES_NONE),
        ("name 1", MAKES_NONE),
        ("break 1", MAKES_NONE),
        ("show", "machine 0 0 makes", *NOTHING[1:]),
        ("see 0 61", "written " + A),
        ("begin 0", MAKES_ONE),
        ("name 0", NOT_RAISED),
        ("show", f"place {A} 1", f"listed 0 {A}", f"machine 0 0 makes {A}", *NOTHING[1:]),
        ("raise 0", "raised 1"),
        ("begin 0", MAKES_ONE),
        ("raise 0", RAISED),
        # Whether it would be found or not.
        ("see 0 61", RAISED),
        ("see 0 62", RAISED),
        ("see 0", EMPTY),
        ("show", f"place {A} 1", f"listed 0 {A}", f"machine 0 1 names 1 {A}", *NOTHING[1:]),
        ("break 0", "broken off"),
        ("break 0", MAKES_NONE),
        ("name 0", MAKES_NONE),
        ("begin 0", "begun"),
        ("name 0", NOT_RAISED),
        ("raise 0", "raised 2"),
        ("name 0", "named 2"),
        ("name 0", MAKES_NONE),
        ("raise 0", MAKES_NONE),
        ("see 0 61", MAKES_NONE),
        ("break 0", MAKES_NONE),
        ("show", f"place {A} 1", f"listed 0 {A}", "day 0 2", "machine 0 2 none", *NOTHING[1:]),
    ],
    # Machines that are not on the list: also those whose number is none that a
    # machine may have, and those that are on it modulo 64, 256 or 2^16.
    [
        *[
            (f"{step} {machine}{rest}", ABSENT)
            for machine in (4, 5, 10, 63, 64, 65, 255, 256, 65_536, 4_294_967_295)
            for step, rest in [
                ("begin", ""),
                ("see", " 61"),
                ("raise", ""),
                ("name", ""),
                ("break", ""),
                ("part", ""),
            ]
        ],
        ("show", *NOTHING),
    ],
    # Days that are not there.
    [
        ("go 0 0", ABSENT),
        ("go 0 1", ABSENT),
        ("go 0 4294967295", ABSENT),
        ("go 4 0", ABSENT),
        ("go 63 1", ABSENT),
        ("go 64 1", ABSENT),
        ("go 4294967295 4294967295", ABSENT),
        ("begin 0", "begun"),
        ("go 0 0", ABSENT),
        ("go 0 1", ABSENT),
        ("raise 0", "raised 1"),
        ("go 0 1", ABSENT),
        ("name 0", "named 1"),
        ("go 0 0", ABSENT),
        ("go 0 2", ABSENT),
        ("go 1 0", ABSENT),
        ("go 1 1", ABSENT),
        ("go 64 1", ABSENT),
        ("go 256 1", ABSENT),
        ("show", "day 0 1", "machine 0 1 none", *NOTHING[1:]),
        # A day may go while its machine makes the next one.
        ("begin 0", "begun"),
        ("go 0 1", "let go"),
        ("raise 0", "raised 2"),
        ("show", "machine 0 2 names 2", *NOTHING[1:]),
    ],
    # The longest piece, and one byte more, which is refused before all else.
    [
        ("see 0 repeat 61 65536", MAKES_NONE),
        ("see 0 repeat 61 65537", TOO_LONG),
        ("see 4 repeat 61 65536", ABSENT),
        ("see 4 repeat 61 65537", TOO_LONG),
        ("see 4294967295 random 1 1073741824", TOO_LONG),
        ("begin 0", "begun"),
        ("see 0 repeat 61 65537", TOO_LONG),
        ("see 0 repeat 61 1073741824", TOO_LONG),
        ("see 0 random 0 65537", TOO_LONG),
        ("see 0 random 1073741824 1073741824", TOO_LONG),
        ("see 0 " + "61" * 65_537, TOO_LONG),
        ("see 0 " + "61" * 3_000_000, TOO_LONG),
        ("show", "machine 0 0 makes", *NOTHING[1:]),
        ("see 0 " + "61" * 65_536, "written " + LONG),
        ("see 0 repeat 61 65536", "found " + LONG),
        ("raise 0", "raised 1"),
        ("see 0 repeat 61 65536", RAISED),
        ("see 0 repeat 61 65537", TOO_LONG),
        ("name 0", "named 1"),
        ("see 0 repeat 61 65536", MAKES_NONE),
        (
            "show",
            f"place {LONG} 65536",
            f"listed 0 {LONG}",
            f"day 0 1 {LONG} {LONG}",
            "machine 0 1 none",
            *NOTHING[1:],
        ),
    ],
    # Leading zeros; capitals; several spaces and tabs; carriage returns.
    [
        ("begin " + "0" * 100_000, "begun"),
        ("begin 00", MAKES_ONE),
        ("see 000 4A", "written " + sha256(b"J")),
        ("see 0 4a", "found " + sha256(b"J")),
        ("\tsee \t00 \t repeat  4a\t1 \r", "found " + sha256(b"J")),
        ("see 0 random 1 4", "written " + sha256(bytes.fromhex("6c82a562"))),
        ("see 0 6C82a562", "found " + sha256(bytes.fromhex("6c82a562"))),
        ("raise 0\r", "raised 1"),
        ("  name\t0", "named 1"),
        ("go " + "0" * 50 + " " + "0" * 50 + "1", "let go"),
        ("begin\t00000000000000000003", "begun"),
        ("break 03 ", "broken off"),
        ("begin 04", ABSENT),
        ("begin 000000000004294967295", ABSENT),
        ("go 00 004294967295", ABSENT),
    ],
    # Lines that pass count, and the lines of an answer do not.
    [
        ("",),
        ("# begin 0",),
        ("show", *NOTHING),
        ("name 0", MAKES_NONE),
        (" \t",),
        ("begin 0", "begun"),
        ("#begin 0",),
        ("begin 0", MAKES_ONE),
    ],
]

BEGIN = "write the line as 'begin M'"
SEE = "write the line as 'see M BYTES'"
RAISE = "write the line as 'raise M'"
NAME = "write the line as 'name M'"
BREAK = "write the line as 'break M'"
GO = "write the line as 'go M N'"
PART = "write the line as 'part M'"
SHOW = "write the line as 'show'"


def no_number(word):
    return f"'{word}' is not a number from 0 to 4294967295"


# Lines that are no step, whatever the store has, and what follows `line N: `.
FAULTS = [
    ("Begin 0", "no step is called 'Begin'"),
    ("begin0", "no step is called 'begin0'"),
    ("begins 0", "no step is called 'begins'"),
    ("begi 0", "no step is called 'begi'"),
    ("SEE 0 61", "no step is called 'SEE'"),
    ("seen 0", "no step is called 'seen'"),
    ("se 0", "no step is called 'se'"),
    ("raised 1", "no step is called 'raised'"),
    ("named 1", "no step is called 'named'"),
    ("broken off", "no step is called 'broken'"),
    ("g 0 1", "no step is called 'g'"),
    ("let go", "no step is called 'let'"),
    ("par 0", "no step is called 'par'"),
    ("parted", "no step is called 'parted'"),
    ("shows", "no step is called 'shows'"),
    ("show#", "no step is called 'show#'"),
    ("show\x0b", r"no step is called 'show\x0b'"),
    ("show\r\r", r"no step is called 'show\x0d'"),
    ("machine 0 0 none", "no step is called 'machine'"),
    ("0 begin", "no step is called '0'"),
    # Too few words or too many; this is said whatever the words are.
    ("begin", BEGIN),
    ("begin \t\r", BEGIN),
    ("begin 0 0", BEGIN),
    ("begin 0 #", BEGIN),
    ("begin x y", BEGIN),
    ("begin 0 61", BEGIN),
    ("begin 64 0", BEGIN),
    ("begin" + " 0" * 100_000, BEGIN),
    ("see", SEE),
    ("see ", SEE),
    ("see\t\r", SEE),
    ("raise", RAISE),
    ("raise 0 1", RAISE),
    ("raise 0 # no comment", RAISE),
    ("raise 4294967296 1", RAISE),
    ("name", NAME),
    ("name 0 1", NAME),
    ("name x y z", NAME),
    ("break", BREAK),
    ("break 0 1", BREAK),
    ("break 0 off", BREAK),
    ("part", PART),
    ("part \r", PART),
    ("part 0 1", PART),
    ("part 0 #", PART),
    ("part x y", PART),
    ("part" + " 0" * 100_000, PART),
    ("go", GO),
    ("go 0", GO),
    ("go x", GO),
    ("go 0 1 1", GO),
    ("go x y z", GO),
    ("go" + " 0" * 100_000, GO),
    ("show 0", SHOW),
    ("show #", SHOW),
    ("show show", SHOW),
    ("show \x00", SHOW),
    ("show" + " 0" * 100_000, SHOW),
    # The machine is no number, or too large; the bytes are not looked at then.
    *[
        (line, no_number(shown))
        for word, shown in [
            ("x", "x"),
            ("-1", "-1"),
            ("-0", "-0"),
            ("+1", "+1"),
            ("0x1", "0x1"),
            ("1.", "1."),
            ("1,0", "1,0"),
            ("1_0", "1_0"),
            ("/", "/"),
            (":", ":"),
            ("a", "a"),
            ("M", "M"),
            ("#", "#"),
            ("repeat", "repeat"),
            ("'0'", r"\x270\x27"),
            ("\\", r"\x5c"),
            ("0\x00", r"0\x00"),
            ("0\x0b", r"0\x0b"),
            ("0\r0", r"0\x0d0"),
            ("\x7f", r"\x7f"),
            ("4294967296", "4294967296"),
            ("4294967299", "4294967299"),
            ("4294967360", "4294967360"),
            ("10000000000", "10000000000"),
            ("18446744073709551615", "18446744073709551615"),
            ("18446744073709551616", "18446744073709551616"),
            ("18446744073709551617", "18446744073709551617"),
            ("340282366920938463463374607431768211456", "34028236692093846346337460743176.."),
            ("0" * 40 + "4294967296", "0" * 32 + ".."),
            ("9" * 32, "9" * 32),
            ("9" * 33, "9" * 32 + ".."),
            ("9" * 10_000, "9" * 32 + ".."),
        ]
        for line in [
            f"begin {word}",
            f"see {word}",
            f"see {word} 61",
            f"see {word} 6",
            f"see {word} 61 62",
            f"see {word} repeat 61 65537",
            f"raise {word}",
            f"name {word}",
            f"break {word}",
            f"part {word}",
            f"go {word} 1",
            f"go {word} {word}x",
            f"go 0 {word}",
            f"go 64 {word}",
        ]
    ],
    ("see repeat 61 3", no_number("repeat")),
    ("see random 1 3", no_number("random")),
    ("see ff", no_number("ff")),
    ("break off", no_number("off")),
    # The bytes, which come before all that is refused.
    *[
        (f"see {machine} {words}", message)
        for machine in (0, 4, 4_294_967_295)
        for words, message in [
            ("61 62", USAGE),
            ("# no comment", USAGE),
            ("0 61", USAGE),
            ("repeat", USAGE),
            ("repeat 61", USAGE),
            ("repeat 61 65537 1", USAGE),
            ("random", USAGE),
            ("random 1", USAGE),
            ("random x", USAGE),
            ("random 1 1 1", USAGE),
            ("Repeat 61 1", USAGE),
            ("61g", "'g' is not a hexadecimal digit, at place 3"),
            ("#", "'#' is not a hexadecimal digit, at place 1"),
            ("repeats", "'r' is not a hexadecimal digit, at place 1"),
            ("61" * 65_537 + "x", "'x' is not a hexadecimal digit, at place 131075"),
            ("616", "an odd number of hexadecimal digits, 3"),
            ("61" * 65_537 + "6", "an odd number of hexadecimal digits, 131075"),
            ("repeat 6 1", "'6' is not a byte of two hexadecimal digits"),
            ("repeat zz 65537", "'zz' is not a byte of two hexadecimal digits"),
            ("repeat 61 x", "'x' is not a number from 0 to 1073741824"),
            ("repeat 61 1073741825", "'1073741825' is not a number from 0 to 1073741824"),
            ("repeat 61 4294967297", "'4294967297' is not a number from 0 to 1073741824"),
            ("random x 65537", "'x' is not a number from 0 to 1073741824"),
            ("random 1073741825 65537", "'1073741825' is not a number from 0 to 1073741824"),
            ("random 1 1073741825", "'1073741825' is not a number from 0 to 1073741824"),
        ]
    ],
]


def with_sweeper(steps):
    return [(*step, RESTS) if step[0] == "show" else step for step in steps]


def test():
    for steps in SCRIPTS:
        played(with_sweeper(steps))

    # Lines that are no step change nothing, where no machine makes a day and where some do.
    faults = [(line, "line: " + message) for line, message in FAULTS]
    played(with_sweeper([*faults, ("show", *NOTHING)]))
    before = [
        ("begin 0", "begun"),
        ("see 0 61", "written " + A),
        ("begin 1", "begun"),
        ("raise 1", "raised 1"),
        ("begin 3", "begun"),
        ("raise 3", "raised 1"),
        ("name 3", "named 1"),
    ]
    after = [f"place {A} 1", f"listed 0 {A}", "day 3 1", f"machine 0 0 makes {A}", "machine 1 1 names 1"]
    after += ["machine 2 0 none", "machine 3 1 none"]
    played(with_sweeper([*before, *faults, ("show", *after)]))

    # A script begins with an empty store, whatever others did before.
    played(with_sweeper([("show", *NOTHING), ("raise 1", MAKES_NONE)]))


main(test)
