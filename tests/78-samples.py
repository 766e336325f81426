#!/usr/bin/env -S python3 -B
"""The sample scripts, each alone and all one after the other: both programs must write
the same bytes, and the second one must find that the promise is kept after every line,
up to the first one that damages something."""

from common import TOP, Failure, agreed_lines, check_promise, main


def test():
    samples = sorted((TOP / "samples").glob("*.script"))
    scripts = [(sample.name, sample.read_bytes()) for sample in samples]
    for wanted in "sweeper.script", "days.script":
        if not any(name == wanted for name, _ in scripts):
            raise Failure(f"there is no sample {wanted}")
    for name, script in [*scripts, ("all samples", b"".join(script for _, script in scripts))]:
        agreed_lines(script, name)
        check_promise(script)


main(test)
