"""What the tests share: the two programs, and checks of what they answer."""

import functools
import hashlib
import os
import subprocess
import sys
from pathlib import Path

TOP = Path(__file__).resolve().parent.parent

# Seconds that a program may take for one script.
TIME_LIMIT = 60

# The longest line that a script may have, its newline not counted.
MAX_LINE = 67_108_864

# The largest count, and the largest seed.
MAX_COUNT = 1_073_741_824

# The longest file that is cut, the longest piece, the longest path, and the most files of a day.
MAX_FILE = 16_777_216
MAX_PIECE = 65_536
MAX_PATH = 255
MAX_FILES = 4_096

# What follows `line N: ` where the words after a step's name are no form of
# bytes, and where `cut` is given too many bytes.
USAGE = "write bytes as HEX, as 'repeat BYTE COUNT' or as 'random SEED COUNT'"
TOO_LONG_FILE = "refused by 1: a file has at most 16777216 bytes"


class Failure(Exception):
    """A test's reason to fail, in one line."""


@functools.cache
def programs():
    """The two programs, each as its name and its path."""
    rehearse = Path(os.environ.get("REHEARSE") or TOP / "target/bin/rehearse")
    if not os.access(rehearse, os.X_OK):
        raise Failure(f"no program at {rehearse}: run tools/build first")
    if os.environ.get("REFERENCE"):
        reference = Path(os.environ["REFERENCE"])
        if not os.access(reference, os.X_OK):
            raise Failure(f"no program at {reference}")
    else:
        reference = build_reference()
    # A path without a slash would be searched for in PATH.
    return [("rehearse", rehearse.absolute()), ("reference", reference.absolute())]


def readers():
    """The two programs that read strings as day files, each as its name and its command."""
    readdays = Path(os.environ.get("READDAYS") or TOP / "target/bin/readdays")
    if not os.access(readdays, os.X_OK):
        raise Failure(f"no program at {readdays}: run tools/build first")
    _, (name, reference) = programs()
    return [("readdays", [readdays.absolute()]), (name, [reference, "--read-days"])]


@functools.cache
def folder_programs():
    """Ours and the plain Rust programs on a store in a folder, each as a name and the folder they are in."""
    ours = Path(os.environ.get("PROGRAMS") or TOP / "target/bin")
    plain = Path(os.environ.get("REFERENCE_PROGRAMS") or TOP / "target/reference-bin")
    if not os.environ.get("REFERENCE_PROGRAMS"):
        if subprocess.run([TOP / "tools/reference-programs"], stdin=subprocess.DEVNULL).returncode != 0:
            raise Failure("the plain programs do not build")
    for folder in (ours, plain):
        for program in ("init", "day", "list", "back", "go", "sweep"):
            if not os.access(folder / program, os.X_OK):
                raise Failure(f"no program at {folder / program}: run tools/build first")
    return [("ours", ours.absolute()), ("the plain ones", plain.absolute())]


def build_reference():
    target = TOP / "target/cargo"
    command = ["cargo", "build", "--quiet", "--release", "--offline", "--locked"]
    command += ["--manifest-path", TOP / "reference/Cargo.toml", "--target-dir", target]
    if subprocess.run(command, stdin=subprocess.DEVNULL).returncode != 0:
        raise Failure("the reference does not build")
    return target / "release/reference"


def run(name, path, script, *options):
    """What the program writes for a script; it must succeed and say nothing else."""
    try:
        done = subprocess.run([path, *options], input=script, capture_output=True, timeout=TIME_LIMIT)
    except subprocess.TimeoutExpired:
        raise Failure(f"{name}: not done after {TIME_LIMIT} s, script {short(script)}") from None
    if done.returncode != 0:
        raise Failure(f"{name}: exit status {done.returncode}, script {short(script)}")
    if done.stderr:
        raise Failure(f"{name}: wrote {short(done.stderr)} to standard error, script {short(script)}")
    return done.stdout


def check(script, expected):
    """Both programs must answer the script by exactly the expected lines."""
    for name, path in programs():
        compare(name, run(name, path, script), expected, script)


def check_promise(script):
    """The second program must find that the promise is kept after every line."""
    _, (name, path) = programs()
    if run(name, path, script, "--check") != run(name, path, script):
        raise Failure(f"{name}: other answers where the promise is checked, script {short(script)}")


def compare(name, output, expected, script):
    wanted = b"".join(line.encode("ascii") + b"\n" for line in expected)
    if output == wanted:
        return
    of = f"script {short(script)}"
    got = output.split(b"\n")
    for at, (one, other) in enumerate(zip(got, wanted.split(b"\n")), 1):
        if one != other:
            raise Failure(f"{name}: answer {at} is {short(one)}, not {short(other)}, {of}")
    raise Failure(f"{name}: {len(got) - 1} answers, not {len(expected)}, {of}")


def played(steps):
    """Both programs must give each step its answer, in one script. A step is its line
    and the lines of its answer, where `line: ` stands for `line N: ` with its number."""
    expected = [
        line.replace("line:", f"line {number}:", 1) if line.startswith("line:") else line
        for number, (_, *answer) in enumerate(steps, 1)
        for line in answer
    ]
    script = "\n".join(step for step, *_ in steps).encode("latin-1")
    check(script, expected)
    check(script + b"\n", expected)


def agreed_lines(script, what):
    """The lines that both programs write for a script; they must write the same."""
    (one, one_path), (other, other_path) = programs()
    lines = run(one, one_path, script).split(b"\n")
    others = run(other, other_path, script).split(b"\n")
    for at, (line, wanted) in enumerate(zip(lines, others), 1):
        if line != wanted:
            raise Failure(f"{what}: answer {at} is {short(line)} of {one}, {short(wanted)} of {other}")
    if len(lines) != len(others):
        raise Failure(f"{what}: {len(lines) - 1} answers of {one}, {len(others) - 1} of {other}")
    if lines.pop():
        raise Failure(f"{what}: the last answer has no newline")
    return lines


def check_digests(messages):
    """Both programs must give the digests that hashlib gives."""
    script = b"".join(b"digest " + message.hex().encode() + b"\n" for message in messages)
    check(script, [sha256(message) for message in messages])


def check_repeats(repeats):
    """The same for messages given as a byte and a count."""
    script = "".join(f"digest repeat {byte:02x} {count}\n" for byte, count in repeats)
    check(script.encode(), [sha256_repeat(byte, count) for byte, count in repeats])


def generated(seed, count):
    """The bytes that `random SEED COUNT` stands for."""
    made = bytearray()
    for _ in range(count):
        seed = (6_364_136_223_846_793_005 * seed + 1_442_695_040_888_963_407) % 2**64
        made.append(seed >> 56)
    return bytes(made)


def pieces(file):
    """The pieces of a file, byte by byte by the rule of docs/CUTTING.md."""
    found, start, number = [], 0, 0
    for end, byte in enumerate(file, 1):
        number = (2 * number + 2_654_435_761 * byte) % 2**32
        length = end - start
        if end == len(file) or length == 65_536 or length >= 2_048 and number >> 19 == 0:
            found.append(file[start:end])
            start = end
    return found


def listed(path, file):
    """A file as a day lists it: its path, its length, and the names of its pieces."""
    return path, len(file), [hashlib.sha256(piece).digest() for piece in pieces(file)]


def day_file(machine, number, files):
    """The day file of docs/DAYS.md with these files, as `listed` gives them."""
    parts = [bytes([68, machine]), number.to_bytes(4, "big"), len(files).to_bytes(2, "big")]
    for path, length, names in files:
        parts += [bytes([len(path)]), path, length.to_bytes(4, "big"), len(names).to_bytes(2, "big"), *names]
    day = b"".join(parts)
    return day + hashlib.sha256(day).digest()


def had_back(file):
    """The answer to `back` and to `bytes`."""
    return f"{len(file)} {file.hex()}".rstrip()


def cut_answer(cut):
    """The lines that answer `cut`, for pieces that are known."""
    return [f"pieces {len(cut)}", *(f"{len(piece)} {sha256(piece)}" for piece in cut)]


def check_cuts(files):
    """Both programs must cut each file, given as the words for its bytes and its
    pieces, into these pieces."""
    script = "".join(f"cut {words}\n" for words, _ in files)
    check(script.encode(), [line for _, cut in files for line in cut_answer(cut)])


def sha256(message):
    return hashlib.sha256(message).hexdigest()


def sha256_repeat(byte, count):
    piece = bytes([byte]) * (1 << 20)
    hasher = hashlib.sha256()
    for _ in range(count // len(piece)):
        hasher.update(piece)
    hasher.update(piece[: count % len(piece)])
    return hasher.hexdigest()


def short(data):
    """A few bytes of the data, for a message of one line."""
    if len(data) <= 160:
        return repr(data)
    return f"{data[:120]!r}.. of {len(data)} bytes"


def main(test):
    try:
        test()
    except Failure as failure:
        print(failure, file=sys.stderr)
        sys.exit(1)
