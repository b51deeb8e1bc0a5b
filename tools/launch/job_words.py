"""A job's answer in plain words: what its code means and where in the job to look. Used by the launchers; not a command by itself.

What the words rest on is the printed answer; the job text is only looked at to be helpful, and everything in front of the place that is named was found in order.
"""

import re

import answers
from answers import shown

LONGEST = 12_288
LIMITS = {"states": "256 states", "edges": "512 edges"}
COUNTS = {"buchi": "32 marks", "streett": "16 pairs", "rabin": "8 pairs"}


def read_answer(text, output):
    """The exit status and the sentence; None if the output is no printed answer."""
    job = Job(text)
    return answers.read_answer(output, lambda prefix, cycle: where(job, prefix, cycle), lambda code, place, column: refused(job, code, place, column))


def where(job, prefix, cycle):
    some = answers.edges_of(prefix) + answers.edges_of(cycle)
    return f" (edge 0 is line {job.first_edge} of the job)" if some else ""


class Job:
    """A job text as far as it is in order."""

    def __init__(self, text):
        self.text = text
        *self.lines, self.rest = text.split(b"\n")  # rest: what stands behind the last newline
        self.has_form = self.begins(1, b"form=")
        self.kind_place = 3 + self.has_form
        self.has_kind = self.begins(self.kind_place, b"kind=")
        self.keys = ["form"] * self.has_form + ["states", "start"] + ["kind"] * self.has_kind + ["count", "need", "edges"]
        self.first_edge = len(self.keys) + 1

    def begins(self, number, key):
        """Whether the line is there and has this key."""
        return number <= len(self.lines) and self.lines[number - 1].startswith(key)

    def place(self, key):
        """The number of the first line with this key."""
        return self.keys.index(key) + 1

    def line(self, number):
        """The line, without its newline."""
        return self.lines[number - 1] if number <= len(self.lines) else self.rest

    def value(self, key):
        """The value in the first line with this key."""
        return self.line(self.place(key)).partition(b"=")[2]

    def number(self, key):
        return int(self.value(key))

    def kind(self):
        return self.value("kind").decode() if self.has_kind else "streett" if self.has_form else "buchi"

    def expected(self, number):
        """The key that the line must have: None behind the end."""
        if number < self.first_edge:
            return self.keys[number - 1]
        edge = number - self.first_edge
        return "edge" if edge < self.number("edges") else "end" if edge == self.number("edges") else None

    def needs(self):
        return [] if self.value("need") == b"-" else [int(need) for need in self.value("need").split(b",")]

    def edge(self, edge):
        """From, to and marks of an edge."""
        start, end, marks = self.line(self.first_edge + edge).partition(b"=")[2].split(b",")
        return int(start), int(end), int(marks, 16)

    def table(self):
        """The table of a job that is in order all through, under the keys that tools/hoa_reader.py has."""
        numbers = {key: self.number(key) for key in ("states", "start", "count")}
        return numbers | {"kind": self.kind(), "needs": self.needs(), "edges": [self.edge(edge) for edge in range(self.number("edges"))]}


def refused(job, code, place, column):
    if code in (5, 6, 7):
        return f"edge {place} (line {job.first_edge + place}): {EDGE[code](job, place)}"
    if code in (21, 22, 23):
        return f"line {place}, byte {column}: {LINE[code](job, place, column)}"
    return WHOLE[code](job) if code in WHOLE else f"code {code}, place {place}, column {column}"


# ---- codes of the whole job ----------------------------------------------------------------------------------------------------------


def bad_condition(job):
    return f"line {job.place('need')}: too many marks: each pair takes one forbidden mark and its needed ones, 32 in all at most"


WHOLE = {
    1: lambda job: f"line {job.place('states')}: there are no states, a table has at least one",
    3: lambda job: f"line {job.place('start')}: the start is no state: the states are {states(job)}",
    4: bad_condition,
    20: lambda job: "the job text is longer than 12,288 bytes",
}


def states(job):
    return f"0 to {job.number('states') - 1}"


# ---- codes with an edge --------------------------------------------------------------------------------------------------------------


def no_state(job, place):
    start, end, _ = job.edge(place)
    wrong = f"leaves state {start}" if start >= job.number("states") else f"arrives at state {end}"
    return f"it leaves or arrives at no state: it {wrong}, and the states are {states(job)}"


def unsorted(job, place):
    return f"the edges are not sorted by the states that they leave: it leaves {job.edge(place)[0]}, the edge before it {job.edge(place - 1)[0]}"


def used_marks(job):
    if job.kind() == "rabin":
        return sum(1 + need for need in job.needs())
    return job.number("count") * (2 if job.kind() == "streett" else 1)


def unused_mark(job, place):
    used = used_marks(job)
    mark = used + (job.edge(place)[2] >> used).bit_length() - 1
    uses = "uses no marks" if used == 0 else "uses mark 0 only" if used == 1 else f"uses marks 0 to {used - 1}"
    return f"it bears a mark that the condition does not use: mark {mark}, and {job.kind()} {job.number('count')} {uses}"


EDGE = {5: no_state, 6: unsorted, 7: unused_mark}


# ---- codes with a line ---------------------------------------------------------------------------------------------------------------


def wrong_key(job, place, column):
    expected, line = job.expected(place), job.line(place)
    key, equals, _ = line.partition(b"=")
    if expected is None:
        return "a line follows the end: " + ("it is blank" if not line.strip() else f"it holds {shown(line)}")
    wanted = "`kind=` or `count=`" if place == job.kind_place and not job.has_kind else f"`{expected}=`"
    if place > len(job.lines):
        if not job.text:
            return "the line is missing: the text is empty"
        if b"\r" in job.text and not job.lines:
            return "the line is missing: its lines end in CR, they must end in a newline"
        if key == expected.encode():
            return "the line is missing: it has no newline at its end"
        return f"the line is missing: the text ends, and {wanted} should follow" if not line else f"the line is missing: {wanted} and a newline at its end"
    return f"the line has the wrong key: {key_hint(job, place, line, key, equals, expected) or f'{wanted} should stand here, not {shown(line)}'}"


def key_hint(job, place, line, key, equals, expected):
    if place == 1 and line.startswith((b"\xef\xbb\xbf", b"\xff\xfe", b"\xfe\xff")):
        return "the text begins with a byte order mark, save it without"
    if not line.strip():
        return "it is blank"
    if line.startswith((b" ", b"\t")):
        return "it begins with a blank"
    if line.startswith(b"#"):
        return "there are no comments in a job"
    if key == b"form" and equals:
        return "the form's line stands once, before all others"
    if key.strip().lower() == expected.encode() and equals:
        return f"it must begin `{expected}=`, in lower case and without blanks"
    if expected == "edge" and key == b"end":
        return f"{place - job.first_edge} edge lines stand there, and line {job.first_edge - 1} says {job.number('edges')}"
    if expected == "end" and key == b"edge":
        return f"more edge lines stand there than line {job.first_edge - 1} says"
    return None


def number_hint(value):
    """What is wrong with a number; None if it is one."""
    if not value:
        return "a number is missing"
    if not value.isdigit():
        return f"{shown(value)} is no decimal number"
    if value[:1] == b"0" and len(value) > 1:
        return "a number has no leading zeros"
    return None if len(value) < 6 and int(value) <= 65_535 else "a number is at most 65535"


# What is wrong with a value whose first wrong byte stands at `at` in it, from 0; its end is the newline.


def kind_hint(job, value, at):
    return "kinds are written in lower case" if value.lower().decode("ascii", "replace") in COUNTS else "the kinds are buchi, streett and rabin"


def field_at(value, at):
    """The field in which a byte stands, or which it ends, and how many fields stand before it."""
    before = value[:at].count(b",")
    return value.split(b",")[before], before


def need_hint(job, value, at):
    count = job.number("count") if job.kind() == "rabin" else 0
    if count == 0:
        return "it must be `-`; only rabin with a count above 0 has needs"
    takes = f"rabin {count} takes {count} number{'s' if count > 1 else ''}" + (" with commas between" if count > 1 else "")
    return takes if value == b"-" else number_hint(field_at(value, at)[0]) or takes


def edge_hint(job, value, at):
    field, before = field_at(value, at)
    return (number_hint(field) if before < 2 else marks_hint(field, value[at : at + 1])) or "an edge is from,to,marks"


def marks_hint(marks, wrong):
    """What is wrong with marks, of which this is the first wrong byte or none; None if they are in order."""
    if marks[:2].lower() == b"0x":
        return "the marks are hex digits without 0x"
    if wrong in (b"A", b"B", b"C", b"D", b"E", b"F"):
        return "capital hex digits, they are lower-case"
    if wrong and wrong not in b"0123456789abcdef,":
        return f"the marks are hex digits, not {shown(marks)}"
    return f"the marks are eight hex digits, here are {len(marks)}" if len(marks) != 8 else None


def wrong_value(job, place, column):
    expected = job.expected(place)
    value = job.line(place).partition(b"=")[2]
    return f"a value is not of its form: {value_hint(job, expected, value, column - len(expected) - 2)}"


def value_hint(job, key, value, at):
    wrong = value[at:]
    if wrong == b"\r":
        return "the line ends in CR LF, it must end in a newline alone"
    if not value:
        return "nothing stands behind the `=`"
    if wrong and not wrong.strip(b" \t"):
        return "a blank stands at its end"
    if wrong[:1] in (b" ", b"\t"):
        return "there is a blank in it"
    if key == "end":
        return "the last line is `end=job`"
    if key == "form":
        return "the line is `form=2`, or it is left out"
    hint = {"kind": kind_hint, "need": need_hint, "edge": edge_hint}.get(key, lambda job, value, at: number_hint(value))(job, value, at)
    return hint or shown(value)


def above_limits(job, place, column):
    key = job.expected(place)
    return f"above the program's limits: {LIMITS[key] if key in LIMITS else f'{job.kind()} takes {COUNTS[job.kind()]}'} at most"


LINE = {21: wrong_key, 22: wrong_value, 23: above_limits}
