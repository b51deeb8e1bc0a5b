#!/usr/bin/env python3
"""Jobs with answers behind them and what check_answer must print for each, worked out from docs/RULES.md ("An answer that is checked") alone.

  tools/answer_vectors.py write                  writes tests/answers, and stdin and stdout of crates/check_answer
  tools/answer_vectors.py same                   fails if the files there are not what `write` would write
  tools/answer_vectors.py show NAME              prints one input, a job and then an answer
  tools/answer_vectors.py run PROGRAM JUDGE      runs the program check_answer on those inputs, on long ones, on damaged ones, on random lassos and on what the judge program answers to the
                                                 examples, the large jobs and random jobs, also with the cycle repeated and with a step changed, and checks all
                                                 that is printed

tests/answers/inputs: for each input its name, its length and a newline, then exactly that many bytes. tests/answers/results: for each its name and the values of the
six lines that are printed for it.
"""

import random
import re
import subprocess
import sys
from pathlib import Path

sys.dont_write_bytecode = True
sys.path.insert(0, str(Path(__file__).resolve().parent))
import job_vectors
import stored
from job_vectors import form2, job

ROOT = Path(__file__).resolve().parent.parent
STORED, CRATE, EXAMPLES = ROOT / "tests" / "answers", ROOT / "crates" / "check_answer", ROOT / "examples" / "jobs"

# ---- the printed answer, in this one place: each line's key, and what stands there in a run, in an empty answer and in a refusal -----------

NUMBER, PAIR, LIST = "number", "pair", "list"
FORM = (
    ("verdict", "run", "empty", "refused"),
    ("code", "0", "0", NUMBER),
    ("place", "0", "0", NUMBER),
    ("column", "0", "0", NUMBER),
    ("pair", PAIR, "-", "-"),
    ("depth", "0", NUMBER, "0"),
    ("prefix", LIST, "-", "-"),
    ("cycle", LIST, "-", "-"),
)
VERDICTS = ("run", "empty", "refused")
KEYS = [key for key, *_ in FORM]
STOP = 65_535  # printed `stop`


def printed(verdict="run", **values):
    """A text of this form: for each line the value that is given, else a usual one."""
    usual = {NUMBER: "7", PAIR: "-", LIST: "-"}
    shapes = {key: shape[VERDICTS.index(verdict)] for key, *shape in FORM}
    return "".join(f"{key}={values.get(key, usual.get(shape, shape))}\n" for key, shape in shapes.items())


def number_of(value, most=65_535):
    return int(value) if re.fullmatch("0|[1-9][0-9]{0,4}", value) and int(value) <= most else None


def list_of(value):
    """The steps of a printed list; None if it is none."""
    if value == "-":
        return []
    steps = [STOP if step == "stop" else number_of(step, STOP - 1) for step in value.split(",")]
    return None if None in steps else steps


def value_of(shape, value, kind):
    """What a value says, in a line where this is to stand; None if it can't stand there."""
    if shape == NUMBER or shape == PAIR and kind == "rabin":
        return number_of(value)
    if shape == LIST:
        return list_of(value)
    return value if value == ("-" if shape == PAIR else shape) else None


def said(text, kind):
    """The values of an answer by their keys; None if it is malformed."""
    lines = text.decode("latin-1").split("\n")
    if len(lines) != len(FORM) + 1 or lines[-1] != "" or lines[0].removeprefix("verdict=") not in VERDICTS:
        return None
    answers = VERDICTS.index(lines[0].removeprefix("verdict="))
    found = {}
    for (key, *shapes), line in zip(FORM, lines):
        if not line.startswith(key + "="):
            return None
        found[key] = value_of(shapes[answers], line[len(key) + 1 :], kind)
    return None if None in found.values() else found


# ---- what is due ---------------------------------------------------------------------------------------------------------------------

MOST_ANSWER = 65_536


def result(verdict, code=0, place=0, column=0, fault="-", position="-"):
    return f"verdict={verdict}\ncode={code}\nplace={place}\ncolumn={column}\nfault={fault}\nposition={position}\n".encode()


ACCEPTED = result("accepted")


def refused(code, place=0, column=0):
    return result("refused", code, place, column)


def rejected(fault, position):
    return result("rejected", fault=fault, position=position)


def cut(text):
    """The job text, to the newline of its first line `end=job`, and the answer text."""
    size = 0
    for line in text.split(b"\n")[:-1]:
        size += len(line) + 1
        if line == b"end=job":
            return text[:size], text[size:]
    return text, b""


def walk(table, state, steps):
    """Where the steps lead, and the position at which they break."""
    for position, step in enumerate(steps):
        if step == STOP and all(leaves != state for leaves, _, _ in table["edges"]):
            continue
        if step >= len(table["edges"]) or table["edges"][step][0] != state:
            return state, position
        state = table["edges"][step][1]
    return state, None


def met(table, marks, pair):
    """Whether the condition is met by a cycle with these marks, for Rabin through the named pair."""
    count = table["count"]
    if table["kind"] == "buchi":
        return marks >= set(range(count))
    if table["kind"] == "streett":
        return all(2 * i not in marks or 2 * i + 1 in marks for i in range(count))
    if pair >= count:
        return False
    first = sum(table["needs"][:pair]) + pair
    return first not in marks and marks >= set(range(first + 1, first + 1 + table["needs"][pair]))


def judged(table, pair, prefix, cycle):
    """What becomes of a run: its first fault."""
    knot, position = walk(table, table["start"], prefix)
    if position is not None:
        return rejected("prefix", position)
    if not cycle:
        return rejected("empty", 0)
    end, position = walk(table, knot, cycle)
    if position is not None:
        return rejected("cycle", position)
    if end != knot:
        return rejected("cycle", len(cycle))
    marks = {mark for step in cycle if step != STOP for mark in range(32) if table["edges"][step][2] >> mark & 1}
    return ACCEPTED if met(table, marks, pair) else rejected("condition", 0)


def due(text):
    """What is printed for an input."""
    job_text, answer = cut(text)
    try:
        table = job_vectors.read(job_text)
    except job_vectors.Refused as why:
        return refused(*why.args)
    row = job_vectors.refusal(table)
    if row is not None:
        return refused(*row)
    values = said(answer, table["kind"]) if len(answer) <= MOST_ANSWER else None
    if values is None:
        return refused(50)
    if values["verdict"] != "run":
        return refused(51)
    return judged(table, values["pair"], values["prefix"], values["cycle"])


# ---- the inputs ----------------------------------------------------------------------------------------------------------------------

TABLE_A = job()  # 0>1{}, 1>2{0}, 2>1{1} under Büchi 2
STREETT = job(2, 0, "streett", 1, "-", ["0,0,00000000", "0,1,00000001", "1,0,00000000"])
RABIN = job(2, 0, "rabin", 2, "1,0", ["0,1,00000001", "1,1,00000002", "1,1,00000004"])
HALTS = job(2, 0, "streett", 0, "-", ["0,1,00000000"])
GOOD = printed(prefix="0", cycle="1,2")


def runs():
    """Name, job, prefix, cycle, pair, and what is due by hand: each fault at the first, a middle and the last place."""
    yield "accepted", TABLE_A, "0", "1,2", "-", ACCEPTED
    yield "accepted-longer", TABLE_A, "0,1,2,1", "2,1,2,1,2,1", "-", ACCEPTED
    yield "accepted-round-in-the-prefix", TABLE_A, ",".join(["0"] + ["1,2"] * 50), ",".join(["1,2"] * 100), "-", ACCEPTED
    for place, name in ((0, "first"), (2, "middle"), (3, "last")):
        for step, what in (("0", "another-edge"), ("3", "m"), ("65534", "65534"), ("stop", "stop")):
            wrong = "2" if (place, step) == (0, "0") else step
            prefix, cycle = ["0", "1", "2", "1"], ["2", "1", "2", "1"]
            prefix[place] = cycle[place] = wrong
            yield f"prefix-{name}-{what}", TABLE_A, ",".join(prefix), "2,1", "-", rejected("prefix", place)
            if (place, wrong) != (0, "2"):
                yield f"cycle-{name}-{what}", TABLE_A, "0,1,2,1", ",".join(cycle), "-", rejected("cycle", place)
    yield "prefix-does-not-leave-the-start", TABLE_A, "1", "2,1", "-", rejected("prefix", 0)
    yield "prefix-alone", TABLE_A, "-", "1,2", "-", rejected("cycle", 0)
    yield "prefix-before-empty", TABLE_A, "0,0", "-", "-", rejected("prefix", 1)
    yield "prefix-before-a-large-number", TABLE_A, "0,0,65534", "65534", "-", rejected("prefix", 1)
    yield "empty", TABLE_A, "0", "-", "-", rejected("empty", 0)
    yield "empty-both", TABLE_A, "-", "-", "-", rejected("empty", 0)
    yield "cycle-open-1", TABLE_A, "0", "1", "-", rejected("cycle", 1)
    yield "cycle-open-3", TABLE_A, "0", "1,2,1", "-", rejected("cycle", 3)
    yield "cycle-breaks-before-it-is-open", TABLE_A, "0", "1,1", "-", rejected("cycle", 1)
    yield "condition-buchi", job(count=3), "0", "1,2", "-", rejected("condition", 0)
    yield "condition-marks-of-the-prefix", job(2, 0, "buchi", 1, "-", ["0,1,00000001", "1,1,00000000"]), "0", "1", "-", rejected("condition", 0)
    yield "condition-buchi-0", job(1, 0, "buchi", 0, "-", ["0,0,00000000"]), "-", "0", "-", ACCEPTED
    yield "condition-streett", STREETT, "-", "1,2", "-", rejected("condition", 0)
    yield "condition-streett-met", STREETT, "1,2", "0", "-", ACCEPTED
    yield "condition-form-2", form2(job(1, 0, None, 1, "-", ["0,0,00000001"])), "-", "0", "-", rejected("condition", 0)
    yield "rabin-first-pair", RABIN, "0", "1", "0", ACCEPTED
    yield "rabin-forbidden-on-the-prefix", RABIN, "0", "1,1", "0", ACCEPTED
    yield "rabin-need-not-met", RABIN, "0", "2", "0", rejected("condition", 0)
    yield "rabin-forbidden-on-the-cycle", RABIN, "0", "2", "1", rejected("condition", 0)
    yield "rabin-second-pair", RABIN, "0", "1", "1", ACCEPTED
    yield "rabin-pair-p", RABIN, "0", "1", "2", rejected("condition", 0)
    yield "rabin-pair-65535", RABIN, "0", "1", "65535", rejected("condition", 0)
    yield "rabin-pair-after-the-walk", RABIN, "0", "1,0", "2", rejected("cycle", 1)
    yield "rabin-0", job(1, 0, "rabin", 0, "-", ["0,0,00000000"]), "-", "0", "0", rejected("condition", 0)
    for prefix, cycle, by_hand in (
        ("0", "stop", ACCEPTED),
        ("0", "stop,stop,stop", ACCEPTED),
        ("0,stop,stop", "stop", ACCEPTED),
        ("stop", "0", rejected("prefix", 0)),
        ("stop,0", "stop", rejected("prefix", 0)),
        ("0,stop,0", "stop", rejected("prefix", 2)),
        ("0,stop,1", "stop", rejected("prefix", 2)),
        ("-", "stop", rejected("cycle", 0)),
        ("0", "stop,0", rejected("cycle", 1)),
        ("0", "stop,stop,65534", rejected("cycle", 2)),
        ("0", "0,stop", rejected("cycle", 0)),
        ("-", "0,stop", rejected("cycle", 2)),
    ):
        yield f"stop-prefix-{prefix.replace(',', '.')}-cycle-{cycle.replace(',', '.')}", HALTS, prefix, cycle, "-", by_hand
    yield "stop-under-buchi-1", job(1, 0, "buchi", 1, "-", []), "-", "stop", "-", rejected("condition", 0)
    yield "stop-under-rabin", job(1, 0, "rabin", 1, "0", []), "-", "stop", "0", ACCEPTED


def malformed():
    """Name and answer text, each of them no printed answer to a job that is not of the kind rabin."""
    for place, key in enumerate(KEYS):
        lines = GOOD.splitlines(keepends=True)
        yield f"without-{key}", "".join(lines[:place] + lines[place + 1 :])
        yield f"{key}-twice", "".join(lines[: place + 1] + lines[place:])
        yield f"{key}-blank", GOOD.replace(lines[place], f"{key}=\n")
        yield f"{key}-with-a-blank", GOOD.replace(lines[place], lines[place][:-1] + " \n")
        yield f"{key}-key-in-capitals", GOOD.replace(lines[place], lines[place].replace(key, key.upper()))
        yield f"{key}-stop", GOOD if key in ("prefix", "cycle") else GOOD.replace(lines[place], f"{key}=stop\n")
        if place + 1 < len(lines):
            yield f"{key}-after-the-next", "".join(lines[:place] + [lines[place + 1], lines[place]] + lines[place + 2 :])
    yield "nothing", ""
    yield "blank-line-between", "\n" + GOOD
    yield "blank-line-behind", GOOD + "\n"
    yield "byte-behind", GOOD + "x"
    yield "no-last-newline", GOOD[:-1]
    yield "cr-lf", GOOD.replace("\n", "\r\n")
    yield "twice", GOOD + GOOD
    yield "another-job", TABLE_A
    yield "sentence-behind", GOOD + "judge: run: an endless run meets the condition\n"
    yield "verdict-in-capitals", GOOD.replace("=run", "=Run")
    yield "run-with-a-code", printed(code="5", prefix="0", cycle="1,2")
    yield "run-with-a-place", printed(place="1", prefix="0", cycle="1,2")
    yield "run-with-a-column", printed(column="1", prefix="0", cycle="1,2")
    yield "run-with-a-depth", printed(depth="1", prefix="0", cycle="1,2")
    yield "run-with-a-pair", printed(pair="0", prefix="0", cycle="1,2")
    yield "empty-with-a-code", printed("empty", code="1")
    yield "empty-with-a-column", printed("empty", column="8")
    yield "empty-with-a-pair", printed("empty", pair="0")
    yield "empty-depth-65536", printed("empty", depth="65536")
    yield "empty-without-column", printed("empty").replace("column=0\n", "")
    yield "refused-without-column", printed("refused").replace("column=7\n", "")
    yield "refused-column-before-place", printed("refused").replace("place=7\ncolumn=7\n", "column=7\nplace=7\n")
    yield "refused-column-dash", printed("refused", column="-")
    yield "refused-column-07", printed("refused", column="07")
    yield "refused-column-65536", printed("refused", column="65536")
    yield "refused-with-a-depth", printed("refused", depth="1")
    yield "empty-with-edges", printed("empty", cycle="1,2")
    yield "refused-with-edges", printed("refused", prefix="0")
    yield "refused-with-a-pair", printed("refused", pair="0")
    yield "refused-code-65536", printed("refused", code="65536")
    yield "refused-place-65536", printed("refused", place="65536")
    yield "refused-code-07", printed("refused", code="07")
    for value in ("65535", "65536", "70000", "100000", "00", "01", "+1", "-1", "1,", ",1", "1,,2", "1,-", "-,1", "--", "1 ,2", "1;2", "Stop", "stops", "0x1", "1.0", "4294967296"):
        yield f"list-{value.replace(',', '.').replace(' ', '_').replace(';', '_')}", printed(prefix="0", cycle=value)
        yield f"list-behind-{value.replace(',', '.').replace(' ', '_').replace(';', '_')}", printed(prefix="0,1,2", cycle=f"1,2,{value}")


def refusals():
    """Name, input and what is told, number, place and perhaps column: the job's own first, then 50 and 51."""
    for name, text, *told in (
        ("1", job(states=0, edges=[]), 1, 0),
        ("3", job(start=3), 3, 0),
        ("4", job(kind="rabin", count=1, need="32"), 4, 0),
        ("5", job(edges=["0,1,00000000", "1,3,00000000"]), 5, 1),
        ("6", job(edges=["0,1,00000000", "2,1,00000000", "1,2,00000000"]), 6, 2),
        ("7", job(edges=["0,1,00000003", "1,2,00000004"]), 7, 1),
        ("21", job().replace("need", "needs"), 21, 5, 1),
        ("22", job().replace("edges=3", "edges=03"), 22, 6, 8),
        ("22-newline", job().replace("1,2,00000001", "1,2,0000001"), 22, 8, 17),
        ("23", job(states=257), 23, 1, 8),
    ):
        yield f"job-{name}", text + GOOD, *told
        yield f"job-{name}-before-50", text + "?", *told
        yield f"job-{name}-before-51", text + printed("empty"), *told
    yield "job-20", "x" * 12_280 + "\nend=job\n" + GOOD, 20, 0
    yield "job-of-12288-bytes", "x" * 12_279 + "\nend=job\n" + GOOD, 21, 1, 1
    yield "nothing-at-all", "", 21, 1, 1
    yield "answer-alone", GOOD, 21, 1, 1
    yield "no-end", TABLE_A.replace("end=job\n", "") + GOOD, 21, 10, 1
    yield "end-without-newline", TABLE_A[:-1], 21, 10, 1
    yield "end-cr", TABLE_A.replace("end=job", "end=job\r") + GOOD, 22, 10, 8
    yield "end-with-a-blank", TABLE_A.replace("end=job", "end=job ") + GOOD, 22, 10, 8
    yield "end-behind-a-blank", TABLE_A.replace("end=job", " end=job") + GOOD, 21, 10, 1
    yield "end-longer", TABLE_A.replace("end=job", "end=jobs") + GOOD + "end=job\n", 22, 10, 8
    yield "end-first", "end=job\n" + TABLE_A + GOOD, 21, 1, 1
    yield "end-in-the-middle", TABLE_A.replace("kind", "end=job\nkind") + GOOD, 21, 3, 1
    yield "end-twice", TABLE_A + "end=job\n" + GOOD, 50, 0
    yield "50-rabin-without-pair", RABIN + printed(prefix="0", cycle="1"), 50, 0
    yield "50-rabin-pair-stop", RABIN + printed(pair="stop", prefix="0", cycle="1"), 50, 0
    yield "50-rabin-pair-65536", RABIN + printed(pair="65536", prefix="0", cycle="1"), 50, 0
    yield "50-streett-with-pair", STREETT + printed(pair="0", cycle="0"), 50, 0
    yield "50-before-51", TABLE_A + printed("empty") + "x", 50, 0
    for name, values in (
        ("empty", {}),
        ("empty", {"depth": "0"}),
        ("empty", {"depth": "65535"}),
        ("refused", {}),
        ("refused", {"code": "0", "place": "0", "column": "0"}),
        ("refused", {"code": "65535", "place": "65535", "column": "65535"}),
        ("refused", {"code": "50"}),
    ):
        yield "-".join(["51", name, *values.values()]), TABLE_A + printed(name, **values), 51, 0
        yield "-".join(["51-rabin", name, *values.values()]), RABIN + printed(name, **values), 51, 0


def cases():
    """Name, input, and what is due, by hand."""
    for name, text, prefix, cycle, pair, by_hand in runs():
        yield f"run-{name}", text + printed(pair=pair, prefix=prefix, cycle=cycle), by_hand
    for name, answer in malformed():
        if answer != GOOD:
            yield f"50-{name}", TABLE_A + answer, refused(50)
    for name, text, *told in refusals():
        yield f"refused-{name}", text, refused(*told)


def long_inputs():
    """Too long to be stored: at both sides of the limits, and far above them."""
    many = job(1, 0, "buchi", 0, "-", ["0,0,00000000"] * 101)
    around = len(printed(prefix="", cycle="0"))

    def lasso(size):
        """An accepted answer of this length."""
        left = size - around
        steps = ["0"] * ((left + 1) // 2) if left % 2 else ["0"] * (left // 2 - 1) + ["10"]
        return printed(prefix=",".join(steps), cycle="0")

    for size, by_hand in ((65_535, ACCEPTED), (65_536, ACCEPTED), (65_537, refused(50)), (65_538, refused(50)), (200_000, refused(50))):
        answer = lasso(size)
        assert len(answer) == size, (len(answer), size)
        yield f"an answer of {size} bytes", many + answer, by_hand
    yield "an answer that breaks late", many + printed(prefix=",".join(["0"] * 30_000), cycle="0,101"), rejected("cycle", 1)
    yield "a cycle that breaks late", many + printed(cycle=",".join(["100"] * 16_000 + ["101"])), rejected("cycle", 16_000)
    yield "a prefix that breaks late", many + printed(prefix=",".join(["99"] * 21_000 + ["101"]), cycle="0"), rejected("prefix", 21_000)
    yield "an answer of newlines", many + "\n" * 65_536, refused(50)
    yield "a job that is too long, in order otherwise", "x" * 12_288 + "\nend=job\n" + GOOD, refused(20)
    yield "no end in 12,288 bytes, and then one", "\n" * 12_288 + "end=job\n", refused(20)
    yield "the end behind all that is read", "\n" * 77_820 + "end=job\n", refused(20)
    yield "no end in 100,000 bytes", "x" * 100_000, refused(20)
    yield "a job in order and 100,000 jobs behind it", TABLE_A * 2_000, refused(50)


def damaged(count=400):
    """One byte of a good answer changed, left out or put in."""
    dice = random.Random(103)
    wholes = [(TABLE_A, printed(prefix="0,1,2,1", cycle="2,1,2,1")), (RABIN, printed(pair="0", prefix="0", cycle="1,1,1")), (HALTS, printed(prefix="0,stop", cycle="stop,stop"))]
    for number in range(count):
        text, answer = dice.choice(wholes)
        at = dice.randrange(len(answer))
        new = dice.choice("0123456789,-=\n stop")
        how = dice.randrange(3)
        yield f"damaged {number}", text + answer[:at] + ("" if how == 1 else new) + answer[at + (how < 2) :], None


def random_job(dice):
    """A small job of any kind, half of them with stop states, some at fault."""
    kind = dice.choice(["buchi", "streett", "rabin", None])
    count = dice.randint(0, 3)
    needs = [dice.randint(0, 2) for _ in range(count)]
    used = count + sum(needs) if kind == "rabin" else 2 * count if kind == "streett" else count
    states = dice.randint(1, 8)
    leaves = sorted(dice.randrange(states) for _ in range(dice.randint(states // 2, 3 * states)))
    edges = [f"{s},{dice.randrange(states)},{dice.getrandbits(used) & dice.getrandbits(used) if used else 0:08x}" for s in leaves]
    text = job(states, dice.randrange(states), kind, count, ",".join(map(str, needs)) if kind == "rabin" and count else "-", edges)
    if dice.random() < 0.05:
        at = dice.randrange(len(text))
        text = text[:at] + dice.choice("0,\n=9f") + text[at + 1 :]
    return text


def strolls(count=400):
    """Random lassos of random jobs: accepted or not by their condition alone."""
    dice = random.Random(13)
    for number in range(count):
        text = random_job(dice)
        try:
            table = job_vectors.read(text.encode())
        except job_vectors.Refused:
            continue
        if job_vectors.refusal(table) is None:
            prefix, cycle = stroll(table, dice)
            pair = str(dice.randrange(table["count"] + 1)) if table["kind"] == "rabin" else "-"
            yield f"stroll {number}", text + printed(pair=pair, prefix=",".join(prefix) or "-", cycle=",".join(cycle)), None


def stroll(table, dice):
    """Steps at random, until a state is met once more."""
    met_at, state, steps = {}, table["start"], []
    while state not in met_at or dice.random() < 0.3:
        met_at.setdefault(state, len(steps))
        ways = [(str(edge), arrives) for edge, (leaves, arrives, _) in enumerate(table["edges"]) if leaves == state]
        step, state = dice.choice(ways) if ways else ("stop", state)
        steps.append(step)
    return steps[: met_at[state]], steps[met_at[state] :]


def inputs():
    """All that the program is run on without the judge: name, input, what is due by hand."""
    return [(name, text.encode(), by_hand) for part in (cases, long_inputs, damaged, strolls) for name, text, by_hand in part()]


# ---- what the judge answers ------------------------------------------------------------------------------------------------------------


def judged_jobs():
    """Jobs for the judge, whose answers are then checked."""
    dice = random.Random(1003)
    for path in sorted(EXAMPLES.glob("*.job")):
        yield path.name, path.read_bytes()
    for name, text, _ in job_vectors.large_jobs():
        yield name, text.encode()
    for number in range(400):
        yield f"random job {number}", random_job(dice).encode()


def lists(answer):
    """The steps of the prefix and of the cycle, as they are printed."""
    found = [re.search(rf"^{key}=(.*)$", answer, re.M)[1] for key in ("prefix", "cycle")]
    return [[] if value == "-" else value.split(",") for value in found]


def with_lists(answer, prefix, cycle):
    """The answer with other steps."""
    lines = {"prefix": ",".join(prefix) or "-", "cycle": ",".join(cycle) or "-"}
    return "".join(f"{key}={lines.get(key, value)}\n" for key, value in (line.split("=", 1) for line in answer.splitlines()))


def repeated(answer, times):
    """The answer with its cycle gone round as often, and once more in the prefix: it is a run if the answer is."""
    prefix, cycle = lists(answer)
    return with_lists(answer, prefix + cycle, cycle * times)


def changed(answer, dice):
    """The answer with a step of it changed, left out or put in."""
    both = lists(answer)
    steps = both[dice.randrange(2)]
    at = dice.randrange(len(steps) + 1)
    steps[at : at + dice.randrange(2)] = dice.choice([[], [str(dice.randrange(12))], [str(dice.randrange(6))], ["stop"], ["65534"]])
    return with_lists(answer, *both)


# ---- the files and the program ---------------------------------------------------------------------------------------------------------


def files():
    """Each file's name and contents."""
    inputs = results = b""
    found = {}
    for name, text, by_hand in cases():
        text = text.encode()
        assert due(text) == by_hand, f"{name}: by hand {by_hand}, worked out {due(text)}"
        assert name not in found, name
        found[name] = text, by_hand
        inputs += b"%s %d\n" % (name.encode(), len(text)) + text
        results += b" ".join([name.encode()] + [line.partition(b"=")[2] for line in by_hand.splitlines()]) + b"\n"
    stdin, stdout = found["run-rabin-second-pair"]
    return {STORED / "inputs": inputs, STORED / "results": results, CRATE / "stdin": stdin, CRATE / "stdout": stdout}


class Tally:
    def __init__(self, program):
        self.program, self.passed, self.failed = program, 0, 0

    def check(self, name, text, by_hand=None):
        """Runs the program, and compares with what is worked out and with what is due by hand."""
        awaited = due(text)
        assert by_hand in (None, awaited), f"{name}: by hand {by_hand}, worked out {awaited}"
        done = subprocess.run([self.program], input=text, stdout=subprocess.PIPE)
        right = (done.returncode, done.stdout) == (0, awaited)
        self.passed, self.failed = self.passed + right, self.failed + (not right)
        if not right:
            print(f"{name!r}: status {done.returncode}, not {awaited}\n{done.stdout[:400].decode(errors='replace')}")


def run(program, judge):
    tally = Tally(program)
    for name, text, by_hand in inputs():
        tally.check(name, text, by_hand)
    dice = random.Random(10_003)
    for name, text in judged_jobs():
        answer = subprocess.run([judge], input=text, stdout=subprocess.PIPE, check=True).stdout.decode()
        runs = answer.startswith("verdict=run\n")
        tally.check(f"{name}, judged", text + answer.encode(), ACCEPTED if runs else None)
        if runs and len(answer) < 20_000:
            tally.check(f"{name}, judged, gone round three times", text + repeated(answer, 3).encode(), ACCEPTED)
            for number in range(3):
                tally.check(f"{name}, judged, a step changed, {number}", text + changed(repeated(answer, 2), dice).encode())
    print(f"{tally.passed} passed, {tally.failed} failed")
    return tally.failed == 0


def main(words):
    if words == ["write"]:
        stored.write(files())
        return True
    if words == ["same"]:
        return stored.told(stored.unlike(files()))
    if len(words) == 2 and words[0] == "show":
        sys.stdout.write({name: text for name, text, _ in cases()}[words[1]])
        return True
    if len(words) == 3 and words[0] == "run":
        return run(*words[1:])
    sys.exit(__doc__)


if __name__ == "__main__":
    sys.exit(0 if main(sys.argv[1:]) else 1)
