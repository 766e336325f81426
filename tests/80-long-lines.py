#!/usr/bin/env -S python3 -B
"""Lines of megabytes, and the longest line that is allowed. What is expected is
written here by hand, from docs/REHEARSE.md."""

from common import MAX_LINE, TOO_LONG_FILE, USAGE, check, had_back, main, pieces, sha256

ABC = "ba7816bf8f01cfea414140de5dae2223b00361a396177a9cb410ff61f20015ad"
# The SHA-256 of the bytes 6c82a562.
RANDOM_1_4 = "4c9dc834ecbb8b2cb70013652d48d92274748cf3ff08cc4d47e809e7cb905757"
TOO_LONG = "longer than 67108864 bytes"
ABSENT = "refused by 1: there is no such machine, day or path"
NO_NUMBER = "'" + "0" * 32 + "..' is not a number from 0 to 4294967295"
MAKES_NONE = "refused by 3: the machine makes no day"
TOO_LONG_PIECE = "refused by 1: a piece has at most 65536 bytes"


def followed(line, *expected):
    """The line, and a good one after it."""
    check(line + b"\ndigest 616263\n", [*expected, ABC])


def added_and_had_back(digits):
    """The answers where a file of these bytes is added to the day of a machine, and is had back."""
    file = bytes.fromhex(digits.decode())
    cut = pieces(file)
    added = f"added {len(cut)}, written {len(set(cut))}"
    return ["begun", added, "raised 1", "named 1", had_back(file)]


def test():
    digits = b"0123456789aBcDeFfEdC" * 500_000
    followed(b"digest " + digits, sha256(bytes.fromhex(digits.decode())))
    followed(b"digest " + digits + b"5", "line 1: an odd number of hexadecimal digits, 10000001")
    followed(b"digest " + digits + b"g", "line 1: 'g' is not a hexadecimal digit, at place 10000001")
    followed(b"digest " + digits + b" 61", "line 1: " + USAGE)
    followed(b"digest" + b" 61" * 3_000_000, "line 1: " + USAGE)
    followed(b"digest repeat" + b" 61" * 3_000_000, "line 1: " + USAGE)
    followed(b"cut" + b" 61" * 3_000_000, "line 1: " + USAGE)
    followed(b"cut random" + b" 61" * 3_000_000, "line 1: " + USAGE)
    zeros = b"0" * 5_000_000
    followed(b"digest random " + zeros + b"1 " + zeros + b"4", RANDOM_1_4)
    followed(b"cut random " + zeros + b"1 " + zeros + b"4", "pieces 1", "4 " + RANDOM_1_4)
    followed(b"begin " + zeros + b"1", "begun")
    followed(b"go " + zeros + b"1 " + zeros + b"4", "line 1: " + ABSENT)
    followed(b"raise " + zeros + b"4294967296", "line 1: " + NO_NUMBER)
    followed(b"see 0 " + digits, "line 1: " + TOO_LONG_PIECE)
    followed(b"see 0 " + digits + b"g", "line 1: 'g' is not a hexadecimal digit, at place 10000001")
    followed(b"see 0" + b" 61" * 3_000_000, "line 1: " + USAGE)
    followed(b"begin" + b" 0" * 3_000_000, "line 1: write the line as 'begin M'")
    followed(b"go" + b" 0" * 3_000_000, "line 1: write the line as 'go M N'")
    followed(b"show" + b" 0" * 3_000_000, "line 1: write the line as 'show'")
    followed(b"file 0 a " + digits + b"g", "line 1: 'g' is not a hexadecimal digit, at place 10000001")
    followed(b"file 0 a " + digits, "line 1: " + MAKES_NONE)
    followed(b"file 0 " + digits + b" 61", "line 1: refused by 1: a path has from 1 to 255 bytes")
    followed(b"file 0 a" + b" 61" * 3_000_000, "line 1: " + USAGE)
    followed(b"begin 1\nfile 1 a " + digits + b"\nraise 1\nname 1\nback 1 1 a", *added_and_had_back(digits))
    followed(b"back " + zeros + b"1 " + zeros + b"4 " + zeros, "line 1: " + ABSENT)
    followed(b"back" + b" 0" * 3_000_000, "line 1: write the line as 'back M N PATH'")
    followed(b"flip-place " + zeros + b"1 " + digits, "line 1: " + ABSENT)
    followed(b"cut-day 0 1 " + zeros + b"4294967296", "line 1: " + NO_NUMBER)
    followed(b"Wx" * 5_000_000, "line 1: no step is called '" + "Wx" * 16 + "..'")
    followed(b"\0" * 10_000_000, "line 1: no step is called '" + r"\x00" * 32 + "..'")
    followed(b"#" + b" digest" * 1_500_000)
    followed(b" \t" * 5_000_000)
    followed(b" \t" * 5_000_000 + b"digest" + b"\t " * 5_000_000 + b"616263", ABC)

    # The longest line, and one byte more. The carriage return counts.
    digits = b"61" * ((MAX_LINE - 8) // 2)
    longest = b"digest  " + digits
    assert len(longest) == MAX_LINE
    followed(longest, sha256(b"a" * (len(digits) // 2)))
    followed(longest[:-1] + b"\r", "line 1: an odd number of hexadecimal digits, 67108855")
    followed(b"cut     " + digits, "line 1: " + TOO_LONG_FILE)
    followed(b"cut     " + digits[:-1] + b"\r", "line 1: an odd number of hexadecimal digits, 67108855")
    followed(b"cut     " + digits[:-1] + b"z", "line 1: 'z' is not a hexadecimal digit, at place 67108856")
    followed(b"cut     " + digits + b"6", "line 1: " + TOO_LONG)
    followed(b"see 0   " + digits, "line 1: " + TOO_LONG_PIECE)
    followed(b"see 0   " + digits[:-1] + b"\r", "line 1: an odd number of hexadecimal digits, 67108855")
    followed(b"see 0   " + digits + b"6", "line 1: " + TOO_LONG)
    followed(b"file 0  " + digits, "line 1: refused by 1: a path has from 1 to 255 bytes")
    followed(b"file 0 a " + digits[2:], "line 1: " + TOO_LONG_FILE)
    followed(longest + b"6", "line 1: " + TOO_LONG)
    followed(longest + b"\r", "line 1: " + TOO_LONG)
    followed(b"#" * MAX_LINE)
    followed(b"#" * (MAX_LINE + 1), "line 1: " + TOO_LONG)
    followed(b" " * MAX_LINE)
    followed(b" " * (MAX_LINE + 1), "line 1: " + TOO_LONG)
    followed(b"x" * MAX_LINE, "line 1: no step is called '" + "x" * 32 + "..'")
    followed(b"x" * (2 * MAX_LINE + 1), "line 1: " + TOO_LONG)

    # The last line of a script, without a newline.
    check(b"x" * MAX_LINE, ["line 1: no step is called '" + "x" * 32 + "..'"])
    check(b"x" * (MAX_LINE + 1), ["line 1: " + TOO_LONG])

    # Two in a row, between good lines.
    long = b"y" * (MAX_LINE + 1) + b"\n"
    check(
        b"digest 616263\n" + long + long + b"digest 616263\n" + longest + b"\nz\n",
        [
            ABC,
            "line 2: " + TOO_LONG,
            "line 3: " + TOO_LONG,
            ABC,
            sha256(b"a" * (len(digits) // 2)),
            "line 6: no step is called 'z'",
        ],
    )


main(test)
