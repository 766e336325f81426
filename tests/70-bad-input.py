#!/usr/bin/env -S python3 -B
"""Lines that are no step, and every way to write one that is. What is expected
is written here by hand, from docs/REHEARSE.md."""

import subprocess
import tempfile
import time

from common import TIME_LIMIT, TOO_LONG_FILE, USAGE, Failure, check, compare, main, programs

EMPTY = "e3b0c44298fc1c149afbf4c8996fb92427ae41e4649b934ca495991b7852b855"
ABC = "ba7816bf8f01cfea414140de5dae2223b00361a396177a9cb410ff61f20015ad"
AAA = "9834876dcfb05cb167a5c24953eba58c4ac89b1adf57f28f2f9d09af107ee8f0"
ONE_FF = "a8100ae6aa1940d0b663bb31cd466142ebbdbd5187131b92d93818987832eb89"
# Of the bytes of `random 1 4`, 6c82a562; of those of `random 1073741824 3`.
RANDOM_1_4 = "4c9dc834ecbb8b2cb70013652d48d92274748cf3ff08cc4d47e809e7cb905757"
RANDOM_LAST_3 = "d2d9f5f90f5eafe81b4c2a958443f3a3100b3ee0163fd8af4d27986ee512f653"
ZEROS_2048 = "e5a00aa9991ac8a5ee3109844d84a55583bd20572ad3ffcd42792f3c36b183ad"
ZEROS_904 = "cc401ce5099578287fd15c062a92893754851bdb7ca3c1fe742bbff85e2281c2"

# Each line, and what follows `line N: ` in its answer.
REFUSED = [
    # The first word is not a step's name.
    (b"x", "no step is called 'x'"),
    (b"Digest 616263", "no step is called 'Digest'"),
    (b"DIGEST", "no step is called 'DIGEST'"),
    (b"diges", "no step is called 'diges'"),
    (b"digests", "no step is called 'digests'"),
    (b"digest616263", "no step is called 'digest616263'"),
    (b"repeat 61 3", "no step is called 'repeat'"),
    (b"random 1 3", "no step is called 'random'"),
    (b"cu", "no step is called 'cu'"),
    (b"cuts", "no step is called 'cuts'"),
    (b"Cut 616263", "no step is called 'Cut'"),
    (b"cut616263", "no step is called 'cut616263'"),
    (b"cut# 616263", "no step is called 'cut#'"),
    (b"cut\x0b", r"no step is called 'cut\x0b'"),
    (b"pieces 1", "no step is called 'pieces'"),
    (b"616263", "no step is called '616263'"),
    (b"look\x0b", r"no step is called 'look\x0b'"),
    (b"Look", "no step is called 'Look'"),
    (b"aside#", "no step is called 'aside#'"),
    (b"note\r\r", r"no step is called 'note\x0d'"),
    (b"decides", "no step is called 'decides'"),
    (b"nex", "no step is called 'nex'"),
    (b"stop\x00", r"no step is called 'stop\x00'"),
    (b"PART 0", "no step is called 'PART'"),
    (b"parts 0", "no step is called 'parts'"),
    # The words of the sweeper's steps, and of a machine that is gone for good.
    *[
        (name + words, f"write the line as '{name.decode()}'")
        for name in (b"look", b"aside", b"note", b"decide", b"next", b"stop")
        for words in (b" 0", b" x", b"\t#", b" # no comment", b" 616263", b" \xff", b" \r\r", b" " + name)
    ],
    (b"part", "write the line as 'part M'"),
    (b"part \t\r", "write the line as 'part M'"),
    (b"part 0 0", "write the line as 'part M'"),
    (b"part x #", "write the line as 'part M'"),
    (b"part x", "'x' is not a number from 0 to 4294967295"),
    (b"part -1", "'-1' is not a number from 0 to 4294967295"),
    (b"part 4294967296", "'4294967296' is not a number from 0 to 4294967295"),
    (b"part \xff'", r"'\xff\x27' is not a number from 0 to 4294967295"),
    (b"part 4", "refused by 1: there is no such machine, day or path"),
    (b"part 64", "refused by 1: there is no such machine, day or path"),
    (b"part 004294967295", "refused by 1: there is no such machine, day or path"),
    # Steps of the sweeper, which rests.
    *[
        (line, "refused by 4: the sweeper is not at that point")
        for line in (b"aside", b" note\r", b"\tdecide ", b"next \t\r")
    ],
    (b" \t x#y \t z", "no step is called 'x#y'"),
    (b"digest#", "no step is called 'digest#'"),
    # What is shown of a word.
    (b"it's", r"no step is called 'it\x27s'"),
    (b"'", r"no step is called '\x27'"),
    (b"a\\b", r"no step is called 'a\x5cb'"),
    (b'!"&()[]~', "no step is called '!\"&()[]~'"),
    (b"\x7f", r"no step is called '\x7f'"),
    (b"\x1f\x01", r"no step is called '\x1f\x01'"),
    (b"\xff\x00", r"no step is called '\xff\x00'"),
    (b"\x00", r"no step is called '\x00'"),
    (b"\x80\xa0", r"no step is called '\x80\xa0'"),
    ("dïgest".encode(), r"no step is called 'd\xc3\xafgest'"),
    (b"\xef\xbb\xbfdigest", r"no step is called '\xef\xbb\xbfdigest'"),
    (b"abcdefghijklmnopqrstuvwxyz01234", "no step is called 'abcdefghijklmnopqrstuvwxyz01234'"),
    (b"abcdefghijklmnopqrstuvwxyz012345", "no step is called 'abcdefghijklmnopqrstuvwxyz012345'"),
    (b"abcdefghijklmnopqrstuvwxyz0123456", "no step is called 'abcdefghijklmnopqrstuvwxyz012345..'"),
    (b"\xfe" * 33, "no step is called '" + r"\xfe" * 32 + "..'"),
    (b"a" * 31 + b"'", "no step is called '" + "a" * 31 + r"\x27'"),
    # Bytes that other programs take for white space are none.
    (b"\x0b", r"no step is called '\x0b'"),
    (b"\x0c", r"no step is called '\x0c'"),
    (b"digest\x0b616263", r"no step is called 'digest\x0b616263'"),
    (b"digest\x0c", r"no step is called 'digest\x0c'"),
    (b"digest\x00", r"no step is called 'digest\x00'"),
    (b"\x00#", r"no step is called '\x00#'"),
    # A carriage return is part of a word, except one at the line's end.
    (b"digest\r616263", r"no step is called 'digest\x0d616263'"),
    (b"digest\r\r", r"no step is called 'digest\x0d'"),
    (b"\r\r", r"no step is called '\x0d'"),
    (b"\r ", r"no step is called '\x0d'"),
    (b"\r#", r"no step is called '\x0d#'"),
    (b"x\r", "no step is called 'x'"),
    (b"digest 61\r ", r"'\x0d' is not a hexadecimal digit, at place 3"),
    (b"digest 616\r", "an odd number of hexadecimal digits, 3"),
    (b"digest \r\r", r"'\x0d' is not a hexadecimal digit, at place 1"),
    (b"digest repeat 61 3\r\r", r"'3\x0d' is not a number from 0 to 1073741824"),
    # Too few words or too many.
    (b"digest repeat", USAGE),
    (b"digest repeat \r", USAGE),
    (b"digest repeat 61", USAGE),
    (b"digest repeat 61 3 3", USAGE),
    (b"digest repeat zz zz zz", USAGE),
    (b"digest repeat 61 3 #", USAGE),
    (b"digest 61 62", USAGE),
    (b"digest 61 62 63", USAGE),
    (b"digest zz zz", USAGE),
    (b"digest 616263 #", USAGE),
    (b"digest # no comment", USAGE),
    (b"digest 616263 \x00", USAGE),
    (b"digest Repeat 61 3", USAGE),
    (b"digest repeats 61 3", USAGE),
    (b"digest 61 repeat 3", USAGE),
    (b"digest digest repeat 61 3", USAGE),
    (b"digest repeat random 1 3", USAGE),
    (b"digest random", USAGE),
    (b"digest random \r", USAGE),
    (b"digest random 1", USAGE),
    (b"digest random x", USAGE),
    (b"digest random 1 3 3", USAGE),
    (b"digest random x x x", USAGE),
    (b"digest random 1 3 #", USAGE),
    (b"digest random repeat 61 3", USAGE),
    (b"digest Random 1 3", USAGE),
    (b"digest randoms 1 3", USAGE),
    (b"digest 61 random 3", USAGE),
    (b"digest cut 616263", USAGE),
    (b"cut digest 616263", USAGE),
    (b"cut 61 62", USAGE),
    (b"cut 61 62 63", USAGE),
    (b"cut # no comment", USAGE),
    (b"cut repeat", USAGE),
    (b"cut repeat 61", USAGE),
    (b"cut repeat 61 3 3", USAGE),
    (b"cut repeat 61 16777217 3", USAGE),
    (b"cut random", USAGE),
    (b"cut random 1", USAGE),
    (b"cut random 1 16777217 3", USAGE),
    # Not a hexadecimal digit: the neighbours of the digits, and others.
    (b"digest /0", "'/' is not a hexadecimal digit, at place 1"),
    (b"digest :0", "':' is not a hexadecimal digit, at place 1"),
    (b"digest @0", "'@' is not a hexadecimal digit, at place 1"),
    (b"digest G0", "'G' is not a hexadecimal digit, at place 1"),
    (b"digest `0", "'`' is not a hexadecimal digit, at place 1"),
    (b"digest g0", "'g' is not a hexadecimal digit, at place 1"),
    (b"digest 0g", "'g' is not a hexadecimal digit, at place 2"),
    (b"digest 6162zy", "'z' is not a hexadecimal digit, at place 5"),
    (b"digest 61z", "'z' is not a hexadecimal digit, at place 3"),
    (b"digest 0x616263", "'x' is not a hexadecimal digit, at place 2"),
    (b"digest #", "'#' is not a hexadecimal digit, at place 1"),
    (b"digest '61'", r"'\x27' is not a hexadecimal digit, at place 1"),
    (b"digest 61\\", r"'\x5c' is not a hexadecimal digit, at place 3"),
    (b"digest \x00", r"'\x00' is not a hexadecimal digit, at place 1"),
    (b"digest 61\xff\x00", r"'\xff' is not a hexadecimal digit, at place 3"),
    (b"digest REPEAT", "'R' is not a hexadecimal digit, at place 1"),
    (b"digest repeats", "'r' is not a hexadecimal digit, at place 1"),
    (b"digest repea", "'r' is not a hexadecimal digit, at place 1"),
    (b"digest randoms", "'r' is not a hexadecimal digit, at place 1"),
    (b"digest RANDOM", "'R' is not a hexadecimal digit, at place 1"),
    (b"digest cut", "'u' is not a hexadecimal digit, at place 2"),
    (b"cut cut", "'u' is not a hexadecimal digit, at place 2"),
    (b"cut 61z", "'z' is not a hexadecimal digit, at place 3"),
    (b"cut #", "'#' is not a hexadecimal digit, at place 1"),
    (b"cut \r\r", r"'\x0d' is not a hexadecimal digit, at place 1"),
    (b"cut rando", "'r' is not a hexadecimal digit, at place 1"),
    (b"digest " + b"0" * 99 + b"-", "'-' is not a hexadecimal digit, at place 100"),
    # An odd number of digits.
    (b"digest 0", "an odd number of hexadecimal digits, 1"),
    (b"digest aBc", "an odd number of hexadecimal digits, 3"),
    (b"cut 616", "an odd number of hexadecimal digits, 3"),
    (b"digest " + b"5" * 12345, "an odd number of hexadecimal digits, 12345"),
    # Not a byte; this is said first if the count is none, either.
    (b"digest repeat 6 3", "'6' is not a byte of two hexadecimal digits"),
    (b"digest repeat 616 3", "'616' is not a byte of two hexadecimal digits"),
    (b"digest repeat 6g 3", "'6g' is not a byte of two hexadecimal digits"),
    (b"digest repeat g6 3", "'g6' is not a byte of two hexadecimal digits"),
    (b"digest repeat // 3", "'//' is not a byte of two hexadecimal digits"),
    (b"digest repeat :: 3", "'::' is not a byte of two hexadecimal digits"),
    (b"digest repeat @@ 3", "'@@' is not a byte of two hexadecimal digits"),
    (b"digest repeat GG 3", "'GG' is not a byte of two hexadecimal digits"),
    (b"digest repeat `` 3", "'``' is not a byte of two hexadecimal digits"),
    (b"digest repeat 0x61 3", "'0x61' is not a byte of two hexadecimal digits"),
    (b"digest repeat zz zz", "'zz' is not a byte of two hexadecimal digits"),
    (b"digest repeat \xff\x00 3", r"'\xff\x00' is not a byte of two hexadecimal digits"),
    (b"digest repeat repeat repeat", "'repeat' is not a byte of two hexadecimal digits"),
    (b"digest repeat random 3", "'random' is not a byte of two hexadecimal digits"),
    (b"cut repeat 6 3", "'6' is not a byte of two hexadecimal digits"),
    (b"cut repeat zz 16777217", "'zz' is not a byte of two hexadecimal digits"),
    (
        b"digest repeat " + b"61" * 20 + b" 3",
        "'" + "61" * 16 + "..' is not a byte of two hexadecimal digits",
    ),
    # Not a number, or too large; sums that wrap at 32 or 64 bits would be small.
    (b"digest repeat 61 x", "'x' is not a number from 0 to 1073741824"),
    (b"digest repeat 61 -1", "'-1' is not a number from 0 to 1073741824"),
    (b"digest repeat 61 -0", "'-0' is not a number from 0 to 1073741824"),
    (b"digest repeat 61 +3", "'+3' is not a number from 0 to 1073741824"),
    (b"digest repeat 61 3.", "'3.' is not a number from 0 to 1073741824"),
    (b"digest repeat 61 3/", "'3/' is not a number from 0 to 1073741824"),
    (b"digest repeat 61 :", "':' is not a number from 0 to 1073741824"),
    (b"digest repeat 61 0x3", "'0x3' is not a number from 0 to 1073741824"),
    (b"digest repeat 61 a", "'a' is not a number from 0 to 1073741824"),
    (b"digest repeat 61 1,000", "'1,000' is not a number from 0 to 1073741824"),
    (b"digest repeat 61 1_000", "'1_000' is not a number from 0 to 1073741824"),
    (b"digest repeat 61 3\x00", r"'3\x00' is not a number from 0 to 1073741824"),
    (b"digest repeat 61 1073741825", "'1073741825' is not a number from 0 to 1073741824"),
    (b"digest repeat 61 2000000000", "'2000000000' is not a number from 0 to 1073741824"),
    (b"digest repeat 61 4294967295", "'4294967295' is not a number from 0 to 1073741824"),
    (b"digest repeat 61 4294967299", "'4294967299' is not a number from 0 to 1073741824"),
    (b"digest repeat 61 10000000000", "'10000000000' is not a number from 0 to 1073741824"),
    (
        b"digest repeat 61 18446744073709551615",
        "'18446744073709551615' is not a number from 0 to 1073741824",
    ),
    (
        b"digest repeat 61 18446744073709551619",
        "'18446744073709551619' is not a number from 0 to 1073741824",
    ),
    (
        b"digest repeat 61 340282366920938463463374607431768211459",
        "'34028236692093846346337460743176..' is not a number from 0 to 1073741824",
    ),
    (
        b"digest repeat 61 " + b"0" * 40 + b"1073741825",
        "'" + "0" * 32 + "..' is not a number from 0 to 1073741824",
    ),
    (
        b"digest repeat 61 " + b"9" * 100_000,
        "'" + "9" * 32 + "..' is not a number from 0 to 1073741824",
    ),
    # The seed, which is said first if the count is no number, either.
    (b"digest random x 3", "'x' is not a number from 0 to 1073741824"),
    (b"digest random x y", "'x' is not a number from 0 to 1073741824"),
    (b"digest random -1 3", "'-1' is not a number from 0 to 1073741824"),
    (b"digest random +1 3", "'+1' is not a number from 0 to 1073741824"),
    (b"digest random 0x1 3", "'0x1' is not a number from 0 to 1073741824"),
    (b"digest random fF 3", "'fF' is not a number from 0 to 1073741824"),
    (b"digest random 1\x00 3", r"'1\x00' is not a number from 0 to 1073741824"),
    (b"digest random 1073741825 3", "'1073741825' is not a number from 0 to 1073741824"),
    (b"digest random 4294967297 3", "'4294967297' is not a number from 0 to 1073741824"),
    (
        b"digest random 18446744073709551617 3",
        "'18446744073709551617' is not a number from 0 to 1073741824",
    ),
    (
        b"digest random " + b"9" * 100_000 + b" 3",
        "'" + "9" * 32 + "..' is not a number from 0 to 1073741824",
    ),
    (b"digest random random random", "'random' is not a number from 0 to 1073741824"),
    (b"cut random x 16777217", "'x' is not a number from 0 to 1073741824"),
    (b"cut random 1073741825 16777217", "'1073741825' is not a number from 0 to 1073741824"),
    # The count after a seed, and that of `cut`.
    (b"digest random 1 x", "'x' is not a number from 0 to 1073741824"),
    (b"digest random 1 -1", "'-1' is not a number from 0 to 1073741824"),
    (b"digest random 1 3\r\r", r"'3\x0d' is not a number from 0 to 1073741824"),
    (b"digest random 1 1073741825", "'1073741825' is not a number from 0 to 1073741824"),
    (b"digest random 1 4294967299", "'4294967299' is not a number from 0 to 1073741824"),
    (
        b"digest random 1 18446744073709551619",
        "'18446744073709551619' is not a number from 0 to 1073741824",
    ),
    (b"cut random 1 x", "'x' is not a number from 0 to 1073741824"),
    (b"cut random 1 1073741825", "'1073741825' is not a number from 0 to 1073741824"),
    (b"cut repeat 61 x", "'x' is not a number from 0 to 1073741824"),
    (b"cut repeat 61 1073741825", "'1073741825' is not a number from 0 to 1073741824"),
    (b"cut repeat 61 4294967299", "'4294967299' is not a number from 0 to 1073741824"),
    # More bytes than a file may have.
    (b"cut repeat 61 16777217", TOO_LONG_FILE),
    (b"cut repeat 00 16777217\r", TOO_LONG_FILE),
    (b"cut repeat 61 " + b"0" * 100 + b"16777217", TOO_LONG_FILE),
    (b"cut repeat 61 1073741824", TOO_LONG_FILE),
    (b"cut random 1 16777217", TOO_LONG_FILE),
    (b"\tcut  random\t1073741824 1073741824 ", TOO_LONG_FILE),
]

# Each line, and its answer's lines.
ANSWERED = [
    (b"digest", EMPTY),
    (b"digest\r", EMPTY),
    (b"digest \t \r", EMPTY),
    (b" digest", EMPTY),
    (b"\tdigest\t", EMPTY),
    (b"digest 616263", ABC),
    (b"digest 616263\r", ABC),
    (b"digest\t616263", ABC),
    (b"  \t digest \t\t  616263 \t \r", ABC),
    (b"digest ff", ONE_FF),
    (b"digest FF", ONE_FF),
    (b"digest fF", ONE_FF),
    (b"digest repeat Ff 1", ONE_FF),
    (b"digest repeat 61 0", EMPTY),
    (b"digest repeat 61 3", AAA),
    (b"digest repeat 61 0003", AAA),
    (b"digest repeat 61 " + b"0" * 100_000 + b"3", AAA),
    (b"digest repeat 61 " + b"0" * 100, EMPTY),
    (b"\tdigest\trepeat \t61 \t 3\t\r", AAA),
    (b"digest 6c82a562", RANDOM_1_4),
    (b"digest random 1 4", RANDOM_1_4),
    (b"digest random 01 0004", RANDOM_1_4),
    (b"digest random " + b"0" * 100_000 + b"1 4", RANDOM_1_4),
    (b"digest random 1 0", EMPTY),
    (b"digest random 1073741824 0", EMPTY),
    (b"digest random 1073741824 3", RANDOM_LAST_3),
    (b" digest\t random\t\t1 \t4\t\r", RANDOM_1_4),
    (b"cut", "pieces 0"),
    (b"cut\r", "pieces 0"),
    (b"\t cut \t \r", "pieces 0"),
    (b"cut repeat 61 0", "pieces 0"),
    (b"cut random 1 0", "pieces 0"),
    (b"cut 616263", "pieces 1", "3 " + ABC),
    (b"cut\t616263 \t\r", "pieces 1", "3 " + ABC),
    (b"cut fF", "pieces 1", "1 " + ONE_FF),
    (b"cut repeat 61 3", "pieces 1", "3 " + AAA),
    (b"cut repeat fF 01", "pieces 1", "1 " + ONE_FF),
    (b"cut random 1 4", "pieces 1", "4 " + RANDOM_1_4),
    (b"cut random 1073741824 3", "pieces 1", "3 " + RANDOM_LAST_3),
    (b"cut repeat 00 2048", "pieces 1", "2048 " + ZEROS_2048),
    (b"cut repeat 00 5000", "pieces 3", "2048 " + ZEROS_2048, "2048 " + ZEROS_2048, "904 " + ZEROS_904),
]

# Lines that pass.
PASSED = [
    b"",
    b"\r",
    b" ",
    b"\t",
    b" \t \r",
    b"#",
    b"# digest 616263",
    b"# cut 616263",
    b"#digest",
    b" \t#",
    b"#\r\r",
    b"##",
    b"#\xff\x00 it's \\ no text",
    b" " * 100_000,
    b"#" * 100_000,
]

# Whole scripts.
SCRIPTS = [
    (b"", []),
    (b"\n", []),
    (b"\r\n", []),
    (b"\n\n\n", []),
    (b"#", []),
    (b"\r", []),
    (b" ", []),
    (b"digest", [EMPTY]),
    (b"digest\r", [EMPTY]),
    (b"digest 616263", [ABC]),
    (b"digest 616263 ", [ABC]),
    (b"digest 616", ["line 1: an odd number of hexadecimal digits, 3"]),
    (b"x", ["line 1: no step is called 'x'"]),
    (b"digest\n\ndigest", [EMPTY, EMPTY]),
    (b"cut", ["pieces 0"]),
    (b"cut 616263", ["pieces 1", "3 " + ABC]),
    (b"cut 616263\n\nx\ncut\n", ["pieces 1", "3 " + ABC, "line 3: no step is called 'x'", "pieces 0"]),
    (b"cut random 1 16777217\ncut random 1 4", ["line 1: " + TOO_LONG_FILE, "pieces 1", "4 " + RANDOM_1_4]),
    (b"cut repeat\n00 5000", ["line 1: " + USAGE, "line 2: no step is called '00'"]),
    (b"\n\r\n#\nx\n\n \ny", ["line 4: no step is called 'x'", "line 7: no step is called 'y'"]),
    (b"digest repeat\n61 3\n", ["line 1: " + USAGE, "line 2: no step is called '61'"]),
    (b"\n" * 99_999 + b"x\ny\n", ["line 100000: no step is called 'x'", "line 100001: no step is called 'y'"]),
    (b"x\n" * 3000, [f"line {number}: no step is called 'x'" for number in range(1, 3001)]),
]


def in_pieces(script, expected):
    """The script comes byte by byte."""
    for name, path in programs():
        with subprocess.Popen([path], stdin=subprocess.PIPE, stdout=subprocess.PIPE) as process:
            for at in range(len(script)):
                process.stdin.write(script[at : at + 1])
                process.stdin.flush()
                time.sleep(0.0005)
            try:
                output, _ = process.communicate(timeout=TIME_LIMIT)
            except subprocess.TimeoutExpired:
                process.kill()
                raise Failure(f"{name}: not done after {TIME_LIMIT} s, a script in pieces") from None
        if process.returncode != 0:
            raise Failure(f"{name}: exit status {process.returncode}, a script in pieces")
        compare(name, output, expected, script)


def from_file(script, expected):
    """Standard input is a file."""
    for name, path in programs():
        with tempfile.TemporaryFile() as file:
            file.write(script)
            file.seek(0)
            done = subprocess.run([path], stdin=file, stdout=subprocess.PIPE, timeout=TIME_LIMIT)
        if done.returncode != 0:
            raise Failure(f"{name}: exit status {done.returncode}, a script in a file")
        compare(name, done.stdout, expected, script)


def test():
    for script, expected in SCRIPTS:
        check(script, expected)

    # Each line alone, with a good line after it.
    for line, message in REFUSED:
        check(line + b"\ndigest 616263\n", ["line 1: " + message, ABC])
    for line, *answer in ANSWERED:
        check(line + b"\ndigest 616263\n", [*answer, ABC])
    for line in PASSED:
        check(line + b"\ndigest 616263\nx\n", [ABC, "line 3: no step is called 'x'"])

    # All of them in one script.
    lines, expected = [], []
    for line, message in REFUSED:
        lines += [line, b"digest 616263"]
        expected += [f"line {len(lines) - 1}: {message}", ABC]
    for line, *answer in ANSWERED:
        lines.append(line)
        expected += answer
    for line in PASSED:
        lines += [line, b"x"]
        expected.append(f"line {len(lines)}: no step is called 'x'")
    script = b"\n".join(lines)
    check(script, expected)
    from_file(script, expected)

    in_pieces(
        b"\n digest \t616263\r\nx\n#\n\r\ndigest repeat 61 3\ncut random 1 4\r\n"
        b"begin 1\r\nsee 1 616263\n see 1  616263\nname 1\ndigest 616",
        [
            ABC,
            "line 3: no step is called 'x'",
            AAA,
            "pieces 1",
            "4 " + RANDOM_1_4,
            "begun",
            "written " + ABC,
            "found " + ABC,
            "line 11: refused by 3: the day has no number yet, which is to be raised first",
            "line 12: an odd number of hexadecimal digits, 3",
        ],
    )


main(test)
