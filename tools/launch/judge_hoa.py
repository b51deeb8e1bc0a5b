"""tools/judge_hoa: judges a text in the Hanoi format. The program (crate `judge_hoa`) reads, judges and prints; this is its door, and decides nothing."""

import os
import sys

HERE = os.path.dirname(os.path.realpath(__file__))
sys.path[:0] = [HERE, os.path.dirname(HERE)]
import hoa_words
import manners

USE = """\
use: tools/judge_hoa [--quiet] [FILE]    judges the text in the Hanoi format (HOA, version 1) in FILE, or on standard input
     tools/judge_hoa --help | --version

Standard output: the answer, eight lines. Standard error: one sentence on what it means and where in the text to look; not with --quiet.
Exit status: 0 empty, 1 run, 2 refused, 3 no answer (also for wrong use). examples/hoa/README.md shows texts and answers, docs/RULES.md has all that is read.
"""

manners.main("judge_hoa", USE, "a text in the Hanoi format", lambda first: manners.Form("judge_hoa", hoa_words.LONGEST, hoa_words.read_answer))
