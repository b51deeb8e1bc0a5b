"""tools/job_to_hoa: writes a job as a text in the Hanoi format. The program (crate `job_to_hoa`) reads and writes; this is its door, and decides nothing."""

import os
import sys

sys.path.insert(0, os.path.dirname(os.path.realpath(__file__)))
import job_words
import manners

USE = """\
use: tools/job_to_hoa [--quiet] [FILE]    writes the job text in FILE, or on standard input, as a text in the Hanoi format (HOA, version 1)
     tools/job_to_hoa --help | --version

Standard output: the text; if the job is refused, the lines of the refusal. Standard error: one sentence on what was done and, if the job is refused, where to
look; not with --quiet. Exit status: 0 written, 2 refused, 3 no answer (also for wrong use). README.md has the job text and the codes.
"""


def counted(count, thing):
    return f"{count} {thing}{'s' if count != 1 else ''}"


def read_answer(text, output):
    """The status and the sentence; None if the output is neither a whole text nor a refusal."""
    if output.startswith(b"HOA: v1\n") and output.endswith(b"\n--END--\n"):
        states, edges = output.count(b"\nState: "), output.count(b"\n[t] ")
        return manners.WRITTEN, f"written: {counted(states, 'state')}, {counted(edges, 'edge')}"
    answer = job_words.read_answer(text, output)
    return answer if answer and answer[0] == manners.REFUSED else None


manners.main("job_to_hoa", USE, "a job", lambda first: manners.Form("job_to_hoa", job_words.LONGEST, read_answer))
