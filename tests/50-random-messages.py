#!/usr/bin/env -S python3 -B
"""4,000 random messages, most of them short, and 500 random repeats: the digests
are those of hashlib."""

import random

from common import check, check_digests, check_repeats, main, sha256

SEED = 1804


def length(source):
    """A length below 10, 100, 1,000 or 10,000, each bound as likely."""
    return source.randrange(10 ** source.randrange(1, 5))


def test():
    source = random.Random(SEED)
    messages = [source.randbytes(length(source)) for _ in range(4000)]
    for at in range(0, len(messages), 500):
        check_digests(messages[at : at + 500])

    # The same digits as capitals, and each digit as either.
    some = [message for message in messages if message][:300]
    capitals = "".join(f"digest {message.hex().upper()}\n" for message in some)
    check(capitals.encode(), [sha256(message) for message in some])
    mixed = "".join(
        "digest " + "".join(source.choice((d.lower(), d.upper())) for d in message.hex()) + "\n"
        for message in some
    )
    check(mixed.encode(), [sha256(message) for message in some])

    check_repeats([(source.randrange(256), length(source)) for _ in range(500)])


main(test)
