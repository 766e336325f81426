#!/usr/bin/env -S python3 -B
"""Scripts of mutated lines: both programs must write the same bytes."""

import random
import re

from common import Failure, agreed_lines, main

SEED = 90
SCRIPTS = 240
LINES = 250

# Lines to mutate. Some are several in a row.
STARTS = [
    b"digest",
    b"digest 616263",
    b"digest 00",
    b"digest 5AbC9f00ffEE",
    b"digest " + b"a7" * 64,
    b"digest repeat 61 3",
    b"digest repeat 00 0064",
    b"digest repeat fF 99",
    b"digest repeat 61 99999999999999999999",
    b"digest repeat 61 1073741825000000",
    b"digest repeat",
    b"digest repeat 6",
    b"digest repeat 616 1",
    b"digest random 1 4",
    b"digest random 00 0064",
    b"digest random 1073741824 99",
    b"digest random 7 9000",
    b"digest random 1073741825 3",
    b"digest random 61 99999999999999999999",
    b"digest random",
    b"digest random 1",
    b"cut",
    b"cut repeat 61 0",
    b"cut random 1 0",
    b"cut 616263",
    b"cut " + b"00" * 2050,
    b"cut repeat 00 5000",
    b"cut repeat 61 3",
    b"cut repeat 5a 70000",
    b"cut random 3 40000",
    b"cut random 12 9000",
    b"cut repeat 00 20000000",
    b"cut random 3 1073741824",
    b"cut random 5 99999999",
    b"cut random x 20000000",
    b"cut 61 62",
    b"digest 61 62",
    b"digest 6",
    b"digest zz",
    b"begin 0",
    b"begin 1",
    b"begin 0003",
    b"begin 4294967295",
    b"see",
    b"see 0",
    b"see 0 616263",
    b"see 1 5AbC9f00",
    b"see 1 repeat 61 3",
    b"see 0 random 1 4",
    b"see 3 repeat 61 65537",
    b"see 63 61",
    b"file 0 a",
    b"file 0 a/b 616263",
    b"file 1 z repeat 00 5000",
    b"file 2 \xff random 1 9000",
    b"file 0 " + b"p" * 255 + b" 61",
    b"file 0 " + b"p" * 256 + b" 61",
    b"file 3 a repeat 61 16777217",
    b"file 0",
    b"back 0 1 a",
    b"back 4 1 a",
    b"back 0 1",
    b"bytes 0 1",
    b"bytes 0",
    b"flip-place 0 61",
    b"flip-place 0",
    b"flip-aside 0 61",
    b"flip-aside 1 616263",
    b"flip-day 0 1 3",
    b"flip-day 0 1",
    b"cut-day 0 1 40",
    b"cut-day 0 1",
    b"raise 0",
    b"raise 1",
    b"name 0",
    b"name 1",
    b"name 64",
    b"break 0",
    b"break 1",
    b"go 0",
    b"go 0 1",
    b"go 1 2",
    b"go 4294967295 4294967295",
    b"part 3",
    b"part 003",
    b"part 64",
    b"part",
    b"part 0 0",
    b"look",
    b"aside",
    b"note",
    b"decide",
    b"next",
    b"stop",
    b"look 0",
    b"aside 0",
    b"note 0",
    b"decide 0",
    b"next 0",
    b"stop 0",
    b"show",
    b"show 0",
    b"begin 0\nsee 0 61\nsee 0 repeat 61 1\nraise 0\nname 0\ngo 0 2",
    b"begin 1\nsee 1 61\nsee 1 62\nraise 1\nraise 1\nbegin 1\nshow\nname 1",
    b"break 2\nbegin 2\nsee 2 61\nname 2\nsee 2\nshow\nraise 2\nsee 2\nbreak 2",
    b"begin 3\nsee 3 61\nsee 3 62\npart 3\nbegin 3\nstop\nlook\naside\naside\naside\nshow\nnote\nnote\nstop",
    b"part 0\npart 1\npart 2\npart 3\ndecide\nshow\nnext\nstop\nshow\ndecide\nnext\nnext\nnext\nlook",
    b"break 0\nbegin 0\nsee 0 61\nsee 0 63\nbreak 0\nstop\nlook\naside\nbegin 0\nsee 0 61\nsee 0 63\nnote",
    b"break 0\nbegin 0\nfile 0 a\nfile 0 b 6162\nsee 0 61\nfile 0 a 61\nraise 0\nfile 0 d 61\nname 0\nbytes 0 1",
    b"break 1\nbegin 1\nfile 1 a 6162\nraise 1\nname 1\nback 1 1 a\nback 1 2 a\nback 1 3 a\ngo 1 1\ngo 1 2",
    b"break 1\nbegin 1\nfile 1 e\nraise 1\nname 1\nback 1 1 e\nback 1 2 e\nback 1 3 e\nback 1 4 e\nback 1 5 e",
    b"break 2\nbegin 2\nfile 2 a 6162\nraise 2\nname 2\nbytes 2 1\nflip-day 2 1 9\nback 2 1 a\nshow\nlook\ngo 2 1",
    b"break 3\nbegin 3\nfile 3 a 63\nraise 3\nname 3\ncut-day 3 1 30\nbytes 3 1\nback 3 1 a\ndecide\ngo 3 1",
    b"break 0\nbegin 0\nfile 0 z 6162\nraise 0\nname 0\nflip-place 1 6162\nback 0 1 z\nback 0 2 z\nflip-place 1 6162",
    b"stop\nlook\naside\naside\nflip-aside 0 61\nflip-aside 0 6162\nflip-aside 0 6162\nstop",
    b"# comment",
    b"",
    b" \t\r",
    b"digset 61",
    b"a word of five",
    b"abcdefghijklmnopqrstuvwxyz0123456",
]

# What is put into lines: the bytes that a script can tell apart.
PIECES = [b" ", b"\t", b"\r", b"\n", b"#", b"'", b"\\", b"\0", b"0", b"9", b"a", b"F", b"g", b"G"]
PIECES += [b"\x0b", b"\x1f", b"~", b"\x7f", b"\x80", b"\xff", b"digest", b"repeat", b" 61", b"\r\n"]
PIECES += [b"cut", b"random", b" 1 ", b"begin", b"see", b"raise", b"name", b"break", b"go", b"show"]
PIECES += [b" 0", b"1", b"\nbegin 0\n", b"\nraise 1\n", b"part", b"look", b"aside", b"note", b"decide"]
PIECES += [b"next", b"stop", b"\nlook\n", b"\naside\n", b"\nstop\n"]
PIECES += [b"file", b"back", b"bytes", b"flip-place", b"flip-aside", b"flip-day", b"cut-day", b" a ", b"-"]

# A count that takes both programs long; there are other tests for those. `cut` and
# `file` refuse 20,000,000 bytes and more, which takes no time.
FORM = rb"[ \t]+(?:repeat[ \t]+[0-9a-fA-F]{2}|random[ \t]+[0-9]+)[ \t]+0*"
SLOW = re.compile(
    rb"digest" + FORM + rb"[1-9][0-9]{6,9}(?![0-9])"
    rb"|(?:cut|file[ \t]+[^ \t]+[ \t]+[^ \t]+)" + FORM + rb"(?:[1-9][0-9]{6}|1[0-9]{7})(?![0-9])"
)

# What must be among the answers, for the scripts to be worth something.
KINDS = {
    "a digest": rb"^[0-9a-f]{64}$",
    "a word that is no step": rb"^line [0-9]+: no step is called '",
    "a word that is shown in part": rb"\.\.'",
    "a byte that is shown by its number": rb"'.*\\x[0-9a-f]{2}.*'",
    "the usage": rb"^line [0-9]+: write bytes as HEX, as 'repeat BYTE COUNT' or as 'random SEED COUNT'$",
    "a byte that is no digit": rb"is not a hexadecimal digit, at place [0-9]+$",
    "an odd number of digits": rb": an odd number of hexadecimal digits, [0-9]+$",
    "a word that is no byte": rb"is not a byte of two hexadecimal digits$",
    "a word that is no number": rb"is not a number from 0 to 1073741824$",
    "a number of pieces": rb"^pieces [1-9][0-9]*$",
    "no pieces": rb"^pieces 0$",
    "a piece": rb"^[1-9][0-9]* [0-9a-f]{64}$",
    "a file that is too long": rb"^line [0-9]+: refused by 1: a file has at most 16777216 bytes$",
    "a step's line": rb"^line [0-9]+: write the line as '(begin|raise|name|break|part) M'$",
    "the line of see": rb"^line [0-9]+: write the line as 'see M BYTES'$",
    "the line of go": rb"^line [0-9]+: write the line as 'go M N'$",
    "the line of show": rb"^line [0-9]+: write the line as 'show'$",
    "the line of a step of the sweeper": rb"^line [0-9]+: write the line as '(look|aside|note|decide|next|stop)'$",
    "a word that is no machine or number of a day": rb"is not a number from 0 to 4294967295$",
    "a piece that is too long": rb"^line [0-9]+: refused by 1: a piece has at most 65536 bytes$",
    "no such machine or day": rb"^line [0-9]+: refused by 1: there is no such machine, day or path$",
    "a machine that makes a day already": rb"^line [0-9]+: refused by 3: the machine already makes a day$",
    "a machine that makes none": rb"^line [0-9]+: refused by 3: the machine makes no day$",
    "a number that is raised": rb"^line [0-9]+: refused by 3: the day has its number already",
    "a number that is not raised": rb"^line [0-9]+: refused by 3: the day has no number yet",
    "the line of a step of files": rb"^line [0-9]+: write the line as '(file|back|bytes) M ",
    "the line of a step that damages": rb"^line [0-9]+: write the line as '(flip-(place|aside|day)|cut-day) ",
    "a path that is too long": rb"^line [0-9]+: refused by 1: a path has from 1 to 255 bytes$",
    "a path that is not above": rb"^line [0-9]+: refused by 1: a path must be above the one before it$",
    "a piece of no bytes": rb"^line [0-9]+: refused by 1: a piece has at least one byte$",
    "a day that is damaged": rb"^line [0-9]+: refused by 2: a day is damaged or incomplete$",
    "a file that is added": rb"^added [0-9]+, written [0-9]+$",
    "bytes of a file or a day": rb"^[1-9][0-9]* (?:[0-9a-f]{2})+$",
    "no bytes": rb"^0$",
    "that a byte is turned round": rb"^flipped$",
    "that a day is cut": rb"^cut$",
    "a day that is shown as damaged": rb"^day [0-3] [0-9]+ damaged$",
    "a day that is begun": rb"^begun$",
    "a piece that is found": rb"^found [0-9a-f]{64}$",
    "a piece that is written": rb"^written [0-9a-f]{64}$",
    "a day that has its name": rb"^named [0-9]+$",
    "a day that is broken off": rb"^broken off$",
    "a day that is let go": rb"^let go$",
    "a day that is shown": rb"^day [0-3] [0-9]+",
    "a machine that makes a day": rb"^machine [0-3] [0-9]+ makes",
    "a machine that names one": rb"^machine [0-3] [0-9]+ names",
    "a machine that is gone": rb"^machine [0-3] [0-9]+ parted$",
    "that a machine is gone": rb"^parted$",
    "another point of the sweep": rb"^line [0-9]+: refused by 4: the sweeper is not at that point$",
    "a look": rb"^to put aside [0-9]+$",
    "a piece that is put aside": rb"^put aside [0-9a-f]{64}$",
    "that it is noted": rb"^noted$",
    "a decision": rb"^to put back [0-9]+, to throw away [0-9]+$",
    "a piece that is put back or thrown away": rb"^(put back|thrown away) [0-9a-f]{64}$",
    "that the sweeper has stopped": rb"^stopped$",
    "a piece aside": rb"^aside [0-9a-f]{64} [0-9]+$",
    "a name in the list of the sweeper": rb"^listed sweeper [0-9a-f]{64}$",
    "what the sweeper does": rb"^sweeper (rests|puts aside|waits|ends|is to decide anew)",
}


def mutated(line, source):
    line = bytearray(line)
    for _ in range(source.choice((0, 1, 1, 1, 2, 2, 3, 5))):
        at = source.randrange(len(line) + 1)
        match source.randrange(7):
            case 0:
                line[at:at] = source.choice(PIECES)
            case 1:
                line[at : at + 1] = source.choice(PIECES)
            case 2:
                line[at:at] = source.randbytes(source.choice((1, 1, 2, 40)))
            case 3:
                line[at : at + 1] = source.randbytes(1)
            case 4:
                del line[at : at + source.choice((1, 1, 1, 4))]
            case 5:
                line[at : at + 3] = line[at : at + 3].swapcase()
            case 6:
                end = at + source.randrange(12)
                line[at:at] = line[at:end]
    return bytes(line)


def script(source):
    lines = []
    while len(lines) < LINES:
        line = mutated(source.choice(STARTS), source)
        if not SLOW.search(line):
            lines.append(line + source.choice((b"\n", b"\n", b"\n", b"\r\n", b" \n")))
    # The last line may lack its newline.
    return b"".join(lines)[: source.choice((None, -1))]


def test():
    source = random.Random(SEED)
    answers = []
    for number in range(SCRIPTS):
        answers += agreed_lines(script(source), f"script {number} of seed {SEED}")

    for kind, pattern in KINDS.items():
        found = sum(1 for line in answers if re.search(pattern, line))
        if found < 50:
            raise Failure(f"only {found} answers are {kind}")


main(test)
