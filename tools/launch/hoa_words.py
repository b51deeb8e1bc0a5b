"""The answer to a text in the Hanoi format in plain words: what its code means and where in the text to look. Used by the launchers; not a command by itself.

What the words rest on is the printed answer. The text is only looked at to be helpful, by tools/hoa_reader.py; where that would refuse it otherwise than the program
did, only what the program said is told.
"""

import answers
import hoa_reader
from answers import shown
from hoa_reader import LIMIT, LONGEST, SUBSET, SYNTAX
from manners import FIRST

CAUSES = {SYNTAX: "not of the Hanoi format, version 1", SUBSET: "outside of what is read", LIMIT: "above the limits"}
MOST_LINES = 12  # that are named of a prefix or a cycle
MOST_LOOKED = 131_072  # bytes that are looked at to be helpful: the answer must not wait for its words


def begins(first):
    """Whether a text with these first bytes is taken for one in the Hanoi format: blanks and comments aside it begins with `HOA:`."""
    token = hoa_reader.token_at(first[:FIRST], 0)
    return (token.kind, token.value) == ("HEADER", b"HOA")


def read_answer(text, output):
    """The exit status and the sentence; None if the output is no printed answer."""
    return answers.read_answer(output, lambda prefix, cycle: where(text, prefix, cycle), lambda code, place, column: refused(text, code, place))


# ---- where the edges of a run stand ------------------------------------------------------------------------------------------------------


def line_of(text, place):
    return text.count(b"\n", 0, place) + 1


def lines_of(text, places, edges):
    named = [str(line_of(text, places[edge])) for edge in edges[:MOST_LINES]]
    return ", ".join(named) + (", .." if len(edges) > MOST_LINES else "")


def where(text, prefix, cycle):
    if len(text) > MOST_LOOKED:
        return ""
    try:
        places = hoa_reader.read_tokens(hoa_reader.tokens(text)).edge_places()
    except hoa_reader.Refused:
        return ""
    listed = [numbers for numbers in map(answers.edges_of, (prefix, cycle)) if numbers]
    parts = [lines_of(text, places, numbers) for numbers in listed]
    one = sum(map(len, listed)) == 1
    return f" (line{'' if one else 's'} {'; then '.join(parts)} of the text)" if listed else ""


# ---- where a text is refused -------------------------------------------------------------------------------------------------------------


def refused(text, code, place):
    if (code, place) == (LIMIT, LONGEST) and len(text) > LONGEST:
        return "the text is longer than 1,048,576 bytes"
    token = hoa_reader.token_at(text, place)
    column = place - text.rfind(b"\n", 0, place)
    at = "the text's end" if token.kind == "FINISH" else shown(text[place : token.next])
    return f"line {line_of(text, place)}, column {column} (byte {place}), at {at}: {CAUSES[code]}{reason(text, code, place)}"


def reason(text, code, place):
    if place > MOST_LOOKED:
        return ""
    try:
        hoa_reader.read(text)
    except hoa_reader.Refused as refusal:
        number, own_place, words = refusal.args
        return f": {words}" if (number, own_place) == (code, place) else ""
    return ""
