#!/usr/bin/env python3
"""Respells this repository's own definitions and lemmas, and the names that Rattle makes of the code's,
as Rattle spells them now: words in snake case. Run once, at the top, after the kit's own script.

    python3 tools/respell.py [FOLDER]

Definitions are respelled in specs/, proofs/ and the ghost text of src/; lemmas in proofs/ alone.
Functions of src/, exported C names, strings, inputs and outputs keep their names. The letters of
FIPS 180-4 (Ch, Maj, K, Wt, T1, T2, SHR, SHL, ROTR and those in Greek) are kept where the standard has them.
"""

import re
import sys
from pathlib import Path

# Definitions and fields that a contract may cite. None of these words is a name of the code.
DEFINITIONS = {
    "answerText": "answer_text",
    "bigEndian": "big_endian",
    "cutFrom": "cut_from",
    "cutStep": "cut_step",
    "decimalValue": "decimal_value",
    "digestOf": "digest_of",
    "digestOfEach": "digest_of_each",
    "digestStep": "digest_step",
    "faultText": "fault_text",
    "hexValue": "hex_value",
    "joinedWords": "joined_words",
    "leastInPiece": "least_in_piece",
    "linesText": "lines_text",
    "listedText": "listed_text",
    "mostInFile": "most_in_file",
    "mostInPiece": "most_in_piece",
    "mostNumber": "most_number",
    "mostRepeated": "most_repeated",
    # number_after is a function of src/
    "numberAfter": "number_after_all",
    "ofKind": "of_kind",
    "refusalText": "refusal_text",
    "shownByte": "shown_byte",
    "shownBytes": "shown_bytes",
}

# Names with a dash, in .antt files alone. A dash stays between names, as in length-append; before a plain word stands `_`.
LEMMAS = {
    "absorbed-padded": "absorbed_padded",
    "absorbed-whole": "absorbed_whole",
    "absorbs-few": "absorbs_few",
    "absorbs-many": "absorbs_many",
    "advanced-add": "advanced_add",
    "advanced-more": "advanced_more",
    "after-end": "after_end",
    "after-false": "after_false",
    "after-true": "after_true",
    "all-reached": "all_reached",
    "at-error": "at_error",
    "becomes-long": "becomes_long",
    "begins-same": "begins_same",
    "blamed-at": "blamed_at",
    "block-left": "block_left",
    "block-right": "block_right",
    "chunk-is-block": "chunk_is_block",
    "contents-push": "contents-push",
    "count-blamed": "count_blamed",
    "count-exits": "count_exits",
    "decimal-front": "decimal_front",
    "decimal-more": "decimal_more",
    "decimals-more": "decimals_more",
    "digest-order": "digest_order",
    "digit-same": "digit_same",
    "digits-at": "digits_at",
    "each-push": "each-push",
    "eight-bytes": "eight_bytes",
    "end-found": "end_found",
    "ended-push": "ended-push",
    "ends-false": "ends_false",
    "ends-short": "ends_short",
    "ends-true": "ends_true",
    "escaped-parts": "escaped_parts",
    "first-cut": "first_cut",
    "first-none": "first_none",
    "first-zeros": "first_zeros",
    "folded-append": "folded-append",
    "folded-join": "folded_join",
    "generated-add": "generated_add",
    "generated-more": "generated_more",
    "has-bytes": "has_bytes",
    "hashed-append": "hashed-append",
    "hashed-first": "hashed_first",
    "hashed-front": "hashed_front",
    "hashed-left": "hashed_left",
    "hashed-more": "hashed_more",
    "hashed-now": "hashed_now",
    "hex-exit": "hex_exit",
    "hex-high": "hex_high",
    "hex-length": "length-hex",
    "hex-low": "hex_low",
    "hex-more": "hex_more",
    "hex-push": "hex-push",
    "joined-cut": "joined_cut",
    "joined-ended": "joined-ended",
    "joined-more": "joined_more",
    "joined-push": "joined-push",
    "kind-other": "kind_other",
    "kind-same": "kind_same",
    "last-32": "last_32",
    "last-bytes": "last_bytes",
    "length-bigEndian": "length-big_endian",
    "lex-is-order": "lex_is_order",
    "lines-push": "lines-push",
    "listed-push": "listed-push",
    "message-blamed": "message_blamed",
    "message-exits": "message_exits",
    "named-plays": "named_plays",
    "newline-first": "newline_first",
    "next-bytes": "next_bytes",
    "no-memory": "no_memory",
    "no-random": "no_random",
    "no-repeat": "no_repeat",
    "none-on": "none_on",
    "number-exits": "number_exits",
    "number-on": "number_on",
    "number-wrong": "number_wrong",
    "order-is-lex": "order_is_lex",
    "others-are": "others_are",
    "padded-whole": "padded_whole",
    "paired-more": "paired_more",
    "paired-push": "paired-push",
    "reached-at": "reached_at",
    "reached-more": "reached_more",
    "reached-none": "reached_none",
    "regroup-end": "regroup_end",
    "run-all": "run_all",
    "run-stops": "run_stops",
    "same-begin": "same_begin",
    "schedule-at": "schedule_at",
    "schedule-length": "length-schedule",
    "shown-more": "shown_more",
    "shown-push": "shown-push",
    "size-all": "size_all",
    "size-front": "size_front",
    "size-held": "size_held",
    "size-more": "size_more",
    "size-now": "size_now",
    "size-parts": "size_parts",
    "size-split": "size_split",
    "sizes-cons": "sizes-cons",
    "sizes-cut": "sizes_cut",
    "sizes-ended": "sizes-ended",
    "sizes-none": "sizes_none",
    "some-cut": "some_cut",
    "stays-lost": "stays_lost",
    "stays-so": "stays_so",
    "take-two": "take_two",
    "text-fits": "text_fits",
    "word-written": "word_written",
    "wordBytes-push": "word_bytes-push",
    "written-more": "written_more",
    "zeros-ascii": "zeros_ascii",
}

# Words of Rattle's own in the names of goals and steps; a name of the code keeps its `_` in them.
STEPS = {"in-ok": "in_ok", "in-err": "in_err", "in-default": "in_default"}
OF_STD = ["as_ref", "deref_mut", "from_residual", "into_iter", "into_result"]

# What may stand in a name of antt.
LETTER = r"[\w'\-]"


def renamed(text, table):
    """The text with whole names replaced."""
    names = "|".join(re.escape(name) for name in sorted(table, key=len, reverse=True))
    return re.sub(rf"(?<!{LETTER})({names})(?!{LETTER})", lambda found: table[found.group(1)], text)


def parts_renamed(text, table):
    """The text with whole parts of names, between dashes, replaced."""
    names = "|".join(re.escape(name) for name in sorted(table, key=len, reverse=True))
    return re.sub(rf"(?<![\w'])({names})(?![\w'])", lambda found: table[found.group(1)], text)


def ghost_renamed(text):
    """Source with the definitions in its ghost text respelled. They are the only words of that shape in it."""
    return renamed(text, DEFINITIONS)


def main():
    top = Path(sys.argv[1] if len(sys.argv) > 1 else ".")
    sources = sorted(top.glob("crates/*/src/**/*.rt"))
    code = "\n".join(path.read_text() for path in sources)
    of_code = set(re.findall(r"\b[A-Za-z][A-Za-z0-9]*(?:_[A-Za-z0-9]+)+\b", code)) | set(OF_STD)
    steps = dict(STEPS) | {name.replace("_", "-"): name for name in of_code}
    for path in sources:
        path.write_text(ghost_renamed(path.read_text()))
    for path in sorted(top.glob("crates/*/specs/**/*.antt")) + sorted(top.glob("crates/*/proofs/**/*.antt")):
        text = renamed(path.read_text(), DEFINITIONS | LEMMAS)
        if path.name in ("Answers.antt", "Invariants.antt", "Proof.antt"):
            text = parts_renamed(text, steps)
        path.write_text(text)


main()
