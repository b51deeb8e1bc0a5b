"""What checking an answer gave, in plain words: where the answer goes wrong. Used by the launchers; not a command by itself.

What the words rest on are the six printed lines; job and answer are only looked at to be helpful.
"""

import re

import answers
import job_words
from manners import ACCEPTED, REFUSED, REJECTED

LONGEST_ANSWER = 65_536
LONGEST = job_words.LONGEST + LONGEST_ANSWER
STATUS = {b"accepted": ACCEPTED, b"rejected": REJECTED, b"refused": REFUSED}
CHECKED = re.compile(rb"verdict=(accepted|rejected|refused)\ncode=(\d+)\nplace=(\d+)\ncolumn=(\d+)\nfault=(prefix|empty|cycle|condition|-)\nposition=(\d+|-)\n")


def read_answer(text, output):
    """The exit status and the sentence; None if the output is not what checking prints."""
    found = CHECKED.fullmatch(output)
    if not found:
        return None
    verdict, code, place, column, fault, position = found[1], int(found[2]), int(found[3]), int(found[4]), found[5].decode(), found[6]
    if (verdict == b"refused") != (code != 0) or column and verdict != b"refused" or (verdict == b"rejected") != (fault != "-") or (fault == "-") != (position == b"-"):
        return None
    job, answer = cut(text)
    if verdict == b"accepted":
        sentence = "accepted: the answer names an endless run of this job that meets its condition"
    elif verdict == b"rejected":
        sentence = f"rejected: {fault}, position {int(position)}" + answers.told(lambda: f": {FAULTS[fault](Walk(job, answer), int(position))}")
    else:
        sentence = "refused: " + (answers.told(refused, job, answer, code, place, column) or f"code {code}, place {place}, column {column}")
    return STATUS[verdict], sentence


def cut(text):
    """The job text and the answer text."""
    size = 0
    for line in re.findall(rb"[^\n]*\n", text):
        size += len(line)
        if line == b"end=job\n":
            return text[:size], text[size:]
    return text, b""


# ---- a run that is rejected ------------------------------------------------------------------------------------------------------------


class Walk:
    """A job with the run that an answer names."""

    def __init__(self, job, answer):
        self.job, fields = job_words.Job(job), answers.fields_of(answer)
        self.prefix, self.cycle = (answers.numbers_of(fields[key]) for key in (b"prefix", b"cycle"))
        self.pair = fields[b"pair"].decode()

    def state(self, steps):
        """Where the steps lead, as far as they are in order."""
        edges = [step for step in steps if step != answers.STOP]
        return self.job.edge(edges[-1])[1] if edges else self.job.number("start")

    def stuck(self, before, step):
        """Why a step can't follow those before it."""
        state, edges = self.state(before), self.job.number("edges")
        if step == answers.STOP:
            return f"`stop` stands there, and an edge leaves state {state}, where the run is"
        if step >= edges:
            return f"there is no edge {step}, " + (f"the edges are 0 to {edges - 1}" if edges else "the job has no edges")
        return f"edge {step} leaves state {self.job.edge(step)[0]}, and the run is at state {state}"


def bad_cycle(walk, position):
    if position < len(walk.cycle):
        return walk.stuck(walk.prefix + walk.cycle[:position], walk.cycle[position])
    return f"the cycle begins at state {walk.state(walk.prefix)} and ends at state {walk.state(walk.prefix + walk.cycle)}"


def unmet(walk, position):
    if walk.job.kind() != "rabin":
        return f"the marks of the cycle do not meet {walk.job.kind()} {walk.job.number('count')}"
    pairs = walk.job.number("count")
    return f"there is no pair {walk.pair}, the job has {pairs}" if int(walk.pair) >= pairs else f"the marks of the cycle do not meet pair {walk.pair}"


FAULTS = {
    "prefix": lambda walk, position: walk.stuck(walk.prefix[:position], walk.prefix[position]),
    "empty": lambda walk, position: "the cycle has no edges",
    "cycle": bad_cycle,
    "condition": unmet,
}


# ---- refusals --------------------------------------------------------------------------------------------------------------------------


def refused(job, answer, code, place, column):
    if code == 50:
        return f"the answer is malformed: {malformed(job_words.Job(job), answer)}"
    if code == 51:
        return f"the answer is `{answers.fields_of(answer)[b'verdict'].decode()}`: it names no run that could be checked"
    return f"the job: {job_words.refused(job_words.Job(job), code, place, column)}"


def malformed(job, answer):
    if not answer:
        return "nothing stands behind the job"
    if len(answer) > LONGEST_ANSWER:
        return "it is longer than 65,536 bytes"
    if answer.startswith(b"\n"):
        return "a blank line stands between the job and the answer"
    if b"\r" in answer:
        return "its lines end in CR LF, they must end in a newline alone"
    if not answer.endswith(b"\n"):
        return "it has no newline at its end"
    if not answers.ANSWER.fullmatch(answer):
        return "it is not of the form that tools/judge prints"
    return pair_hint(job, answers.fields_of(answer)) or "no answer to a job of this kind is printed so"


def pair_hint(job, fields):
    if fields[b"verdict"] != b"run" or (fields[b"pair"] == b"-") != (job.kind() == "rabin"):
        return None
    return "a run of a rabin job names its pair" if job.kind() == "rabin" else f"a run of a {job.kind()} job has no pair"
