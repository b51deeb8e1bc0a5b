"""The printed answer of the judges in plain words, whatever the text was written in. Used by the launchers; not a command by itself."""

import re

from manners import EMPTY, REFUSED, RUN

STATUS = {b"empty": EMPTY, b"run": RUN, b"refused": REFUSED}
STOP = 65_535  # the waiting edge of a state that no edge leaves; printed `stop`
EDGES = rb"(-|(?:\d+|stop)(?:,(?:\d+|stop))*)"
ANSWER = re.compile(rb"verdict=(run|empty|refused)\ncode=(\d+)\nplace=(\d+)\ncolumn=(\d+)\npair=(-|\d+)\ndepth=(\d+)\nprefix=" + EDGES + rb"\ncycle=" + EDGES + rb"\n")


def read_answer(output, where, refused):
    """The exit status and the sentence; None if the output is no printed answer. `where` says for a prefix and a cycle where their edges stand, `refused` for a code,
    a place and a column what is wrong there."""
    found = ANSWER.fullmatch(output)
    if not found:
        return None
    verdict, prefix, cycle = found[1], found[7], found[8]
    code, place, column, depth = (int(found[group]) for group in (2, 3, 4, 6))
    if (verdict == b"refused") != (code != 0) or (verdict == b"run") != (cycle != b"-") or depth and verdict != b"empty" or column and verdict != b"refused":
        return None
    if verdict == b"empty":
        sentence = "empty: no endless run meets the condition"
    elif verdict == b"run":
        first = "" if prefix == b"-" else f"{counted(prefix)} first, then "
        last = "a halt for ever" if STOP in numbers_of(cycle) else f"{counted(cycle)} round and round"
        sentence = f"run: an endless run meets the condition: {first}{last}{told(where, prefix, cycle)}"
    else:
        sentence = "refused: " + (told(refused, code, place, column) or f"code {code}, place {place}, column {column}")
    return STATUS[verdict], sentence


def told(words, *about):
    """Words are a courtesy: no surprise in a text may cost the answer."""
    try:
        return words(*about)
    except (ValueError, LookupError):
        return ""


def numbers_of(listed):
    return [] if listed == b"-" else [STOP if number == b"stop" else int(number) for number in listed.split(b",")]


def edges_of(listed):
    """The edges that stand in the text: of a waiting edge there is nothing to look at."""
    return [edge for edge in numbers_of(listed) if edge != STOP]


def fields_of(output):
    """The values of a printed answer by their keys."""
    return dict(line.split(b"=", 1) for line in output.splitlines())


def counted(numbers):
    count = len(edges_of(numbers))
    return f"{count} edge{'s' if count > 1 else ''}"


def shown(some):
    """Some bytes of a text, fit for a terminal."""
    text = some[:24].decode("ascii", "backslashreplace") + (".." if len(some) > 24 else "")
    return "`" + "".join(c if c.isprintable() else f"\\x{ord(c):02x}" for c in text) + "`"
