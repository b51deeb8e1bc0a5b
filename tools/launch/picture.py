"""tools/picture: draws the table of a job text, or of a text in the Hanoi format, with the run that was found in it. The programs (crates `judge` and `judge_hoa`) read and
judge; this draws what they printed, and decides nothing."""

import errno
import os
import shutil
import subprocess
import sys

HERE = os.path.dirname(os.path.realpath(__file__))
sys.path[:0] = [HERE, os.path.dirname(HERE)]
import answers
import drawing
import hoa_reader
import hoa_words
import job_words
import manners
import state_names

USE = """\
use: tools/picture [--dot] [--names NAMES] [--quiet] [FILE] > out.svg    draws the job text in FILE, or on standard input, with its run
     tools/picture --help | --version

A text that begins with `HOA:`, blanks and comments aside, is taken for one in the Hanoi format; every other text is a job text. The same program as for tools/judge judges.
--names: a file of lines `state=NUMBER,words`, the words that stand in a state. Without it the states of a text in the Hanoi format have the names of the text.
--dot: DOT, the text from which Graphviz draws. Without it `dot` of Graphviz (the Debian package graphviz) makes SVG of it.
Standard output: the picture; if the job is refused, nothing. Standard error: one sentence on what is drawn and, if the job is refused, where to look; not with --quiet.
Exit status: 0 drawn, 2 refused, 3 no answer (also for wrong use, and without `dot`). README.md has the job text and the codes.
"""
NO_DOT = "`dot` of Graphviz draws, and it can't be run ({}): install the Debian package graphviz, or take the DOT text with --dot"


def job_table(text):
    """The table, and the names that the text itself gives to states."""
    return job_words.Job(text).table(), {}


def hoa_table(text):
    reader = hoa_reader.read_tokens(hoa_reader.tokens(text))
    return reader.table(), {state: state_names.unquoted(name) for state, name in reader.state_names.items()}


def dot_text(read_table, names, text, output):
    try:
        table, own_names = read_table(text)
        given = state_names.read(names, table["states"]) if names else {}
        return drawing.dot_text(table, answers.fields_of(output), own_names | given).encode()
    except (hoa_reader.Refused, LookupError, ValueError):
        raise manners.NoAnswer("what the program wrote is no answer to this text") from None


def svg_of(dot):
    if shutil.which("dot") is None:  # a folder of the path that is closed to this user would be the fault that is told, else
        raise manners.NoAnswer(NO_DOT.format(os.strerror(errno.ENOENT)))
    try:
        drawn = subprocess.run(["dot", "-Tsvg"], input=dot, stdout=subprocess.PIPE, stderr=subprocess.PIPE)
    except OSError as error:
        raise manners.NoAnswer(NO_DOT.format(error.strerror)) from None
    if drawn.returncode != 0 or not drawn.stdout:
        raise manners.NoAnswer(f"`dot` did not draw (status {drawn.returncode}): {answers.shown(drawn.stderr)}")
    return drawn.stdout


def form_of(first, dot=False, names=None):
    program, words, read_table = ("judge_hoa", hoa_words, hoa_table) if hoa_words.begins(first) else ("judge", job_words, job_table)

    def read_answer(text, output):
        answer = words.read_answer(text, output)
        return answer and (manners.REFUSED if answer[0] == manners.REFUSED else manners.DRAWN, answer[1])

    def made(text, output):
        if answers.fields_of(output)[b"verdict"] == b"refused":
            return b""
        drawn = dot_text(read_table, names, text, output)
        return drawn if dot else svg_of(drawn)

    return manners.Form(program, words.LONGEST, read_answer, made)


manners.main("picture", USE, "a job", form_of, dot=False, names=True)
