"""The names of states for a picture: from a file of lines `state=NUMBER,words`, or from a text in the Hanoi format. Used by tools/launch/picture.py; not a command by itself."""

import re

import manners

LINE = re.compile(r"state=(0|[1-9][0-9]{0,4}),(.*)")
FILE = manners.Form(None, 65_536, None)  # is read as an input is, and goes to no program


def plain(words):
    """Words fit for a picture: single blanks, and nothing that can't be seen."""
    return "".join(c if c.isprintable() else "?" for c in " ".join(words.split()))


def unquoted(name):
    """The name that stands between quotes in a text in the Hanoi format."""
    return plain(re.sub(rb"\\(.)", rb"\1", name, flags=re.DOTALL).decode("utf-8", "replace"))


def read(file, states):
    """The names in a file, by state."""
    text, _ = manners.read_input(file, lambda first: FILE)
    if len(text) > FILE.longest:
        raise manners.NoAnswer(f"{file} is longer than {FILE.longest:,} bytes")
    try:
        lines = text.decode().removesuffix("\n").split("\n") if text else []
    except UnicodeDecodeError:
        raise manners.NoAnswer(f"{file} is not UTF-8") from None
    names = {}
    for number, line in enumerate(lines, 1):
        found = LINE.fullmatch(line.strip())
        fault = fault_of(found, names, states)
        if fault:
            raise manners.NoAnswer(f"{file}, line {number}: {fault}")
        names[int(found[1])] = plain(found[2])
    return names


def fault_of(found, names, states):
    """What is wrong with a line; None if nothing is."""
    if not found or not plain(found[2]):
        return "a line is `state=NUMBER,words`"
    if int(found[1]) >= states:
        return f"no such state: the states are 0 to {states - 1}"
    return f"state {found[1]} has a name already" if int(found[1]) in names else None
