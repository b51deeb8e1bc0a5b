"""tools/translate: writes the one-mark translation of a job of the kind buchi as a job. The program (crate `translate`) reads and writes; this is its door, and
decides nothing."""

import os
import sys

sys.path.insert(0, os.path.dirname(os.path.realpath(__file__)))
import job_words
import manners

USE = """\
use: tools/translate [--quiet] [FILE]    translates the job text in FILE, or on standard input, of the kind buchi, into a job with one mark
     tools/translate --help | --version

Standard output: the translated job text; if the job is refused, the lines of the refusal. Standard error: one sentence on what was done and, if the job is
refused, where to look; not with --quiet. Exit status: 0 written, 2 refused, 3 no answer (also for wrong use). README.md has the job text and the codes.
"""

# What only this program refuses, and where nothing of the job is at fault.
CAUSES = {
    b"4": "the job is not of the kind buchi, which is the one that is translated",
    b"10": "the translated table would have more than 4096 states",
    b"23": "the translated table would be above the limits of a job: 256 states and 512 edges",
}
REFUSAL = b"verdict=refused\ncode=%s\nplace=0\ncolumn=0\npair=-\ndepth=0\nprefix=-\ncycle=-\n"


def counted(count, thing):
    return f"{count} {thing}{'s' if count != 1 else ''}"


def read_answer(text, output):
    """The status and the sentence; None if the output is neither a whole text nor a refusal."""
    if output.startswith(b"form=2\n") and output.endswith(b"\nend=job\n"):
        states, edges = int(output.split(b"\n")[1].removeprefix(b"states=")), output.count(b"\nedge=")
        return manners.WRITTEN, f"written: {counted(states, 'state')}, {counted(edges, 'edge')}"
    for code, cause in CAUSES.items():
        if output == REFUSAL % code:
            return manners.REFUSED, f"refused: {cause}"
    answer = job_words.read_answer(text, output)
    return answer if answer and answer[0] == manners.REFUSED else None


manners.main("translate", USE, "a job", lambda first: manners.Form("translate", job_words.LONGEST, read_answer))
