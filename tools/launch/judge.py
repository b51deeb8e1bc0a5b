"""tools/judge: judges a job text or a text in the Hanoi format. The programs (crates `judge` and `judge_hoa`) read, judge and print; this is their door, and decides
nothing but which of the two is asked."""

import os
import sys

HERE = os.path.dirname(os.path.realpath(__file__))
sys.path[:0] = [HERE, os.path.dirname(HERE)]
import hoa_words
import job_words
import manners

USE = """\
use: tools/judge [--quiet] [FILE]    judges the job text in FILE, or on standard input
     tools/judge --help | --version

A text that begins with `HOA:`, blanks and comments aside, is taken for one in the Hanoi format and judged as tools/judge_hoa does; every other text is a job text.
Standard output: the answer, eight lines. Standard error: one sentence on what it means and, if the job is refused, where to look; not with --quiet.
Exit status: 0 empty, 1 run, 2 refused, 3 no answer (also for wrong use). README.md has the job text, the answer and the codes.
"""

JOB = manners.Form("judge", job_words.LONGEST, job_words.read_answer)
HOA = manners.Form("judge_hoa", hoa_words.LONGEST, hoa_words.read_answer)

manners.main("judge", USE, "a job", lambda first: HOA if hoa_words.begins(first) else JOB)
