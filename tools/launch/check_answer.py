"""tools/check_answer: checks an answer to a job, from whatever tool. The program (crate `check_answer`) reads, checks and prints; this is its door, and decides nothing."""

import os
import sys

sys.path.insert(0, os.path.dirname(os.path.realpath(__file__)))
import checked_words
import manners

USE = """\
use: tools/check_answer [--quiet] [FILE]    checks the answer that stands behind a job in FILE, or on standard input: cat JOB ANSWER | tools/check_answer
     tools/check_answer --help | --version

The job goes to its line `end=job`; all that follows is the answer, as tools/judge prints it, from whatever tool. Nothing is searched: the answer is walked edge by edge.
Standard output: six lines, verdict, code, place, column, fault and position. Standard error: one sentence on what they mean and where to look; not with --quiet.
Exit status: 0 accepted, 1 rejected, 2 refused, 3 no answer (also for wrong use). README.md has the faults and the codes.
"""

manners.main("check_answer", USE, "a job and an answer", lambda first: manners.Form("check_answer", checked_words.LONGEST, checked_words.read_answer))
