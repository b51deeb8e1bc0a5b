#!/usr/bin/env python3
"""Texts in the Hanoi format and what must come back for each, worked out from docs/RULES.md ("The Hanoi format") alone, in two ways (tools/hoa_compare.py).

  tools/hoa_vectors.py write                writes the files under tests/hoa
  tools/hoa_vectors.py same                 fails if they are not what `write` would write, or if what was worked out by hand or by the grammar differs
  tools/hoa_vectors.py list                 prints number, name and result of each text
  tools/hoa_vectors.py show NUMBER          prints one text
  tools/hoa_vectors.py run PROGRAM          runs judge_hoa on every stored text and variant, and on large texts besides, and checks the whole printed answer
  tools/hoa_vectors.py random PROGRAM       runs judge_hoa on random texts, most of them with a few tokens changed, in the same way
  tools/hoa_vectors.py written PROGRAM      runs job_to_hoa on the example jobs and on those of tools/job_vectors.py, and checks all that is written

tests/hoa/texts: for each text its length as a decimal number and a newline, then exactly that many bytes.
tests/hoa/results: for each text one line, either
  refused NUMBER PLACE
  table N START KIND COUNT NEED0,..,NEED7 M CHECKSUM
where the checksum is that of tools/job_vectors.py. tests/hoa/NAME.hoa: a sample; tests/hoa/NAME.variants: for each change of it one line, AT LENGTH BYTES RESULT: from
byte AT on so many bytes are taken out, and these (in hex, - for none) put in their place. tests/hoa/written/NAME.hoa: what job_to_hoa writes for examples/jobs/NAME.job.
"""

import subprocess
import sys
from functools import lru_cache
from itertools import chain
from pathlib import Path

sys.dont_write_bytecode = True
ROOT = Path(__file__).resolve().parent.parent
sys.path.insert(0, str(ROOT / "tools"))
import hoa_compare
import hoa_grammar
import hoa_reader
import hoa_texts
import job_vectors
import stored

STORED = ROOT / "tests" / "hoa"
EXAMPLES = ROOT / "examples"
SECONDS = 20  # that a program may take for one text
RANDOM = 3000  # texts

# ---- results -----------------------------------------------------------------------------------------------------------------------


def line_of(table):
    needs = ",".join(map(str, table["needs"]))
    return f"table {table['states']} {table['start']} {table['kind']} {table['count']} {needs} {hoa_texts.checksum(table['edges'])}"


@lru_cache(maxsize=2)
def table_of(text):
    """The table that a text stands for; raises hoa_reader.Refused."""
    return hoa_reader.read(text)


def result(text):
    if len(text) > hoa_reader.LONGEST:
        return f"refused {hoa_reader.LIMIT} {hoa_reader.LONGEST}"
    try:
        return line_of(table_of(text))
    except hoa_reader.Refused as refused:
        return "refused %d %d" % refused.args[:2]


def by_grammar(text, line):
    """Whether the reading by the grammar agrees, as far as it goes: with the place of 40, with what is accepted, and with its table."""
    tokens = hoa_grammar.tokens(text)
    fault, meant = hoa_grammar.syntax_fault(tokens), hoa_grammar.meaning(tokens)
    if line.startswith("table"):
        return fault is None and meant is not None and line_of(meant[0]) == line
    number, place = map(int, line.split()[1:])
    if number == hoa_reader.SYNTAX:
        return meant is None and fault is not None and tokens[fault][2] == place
    return (meant is None or number == hoa_reader.LIMIT) and (fault is None or tokens[fault][2] > place)


# ---- samples and their variants ----------------------------------------------------------------------------------------------------

RABIN = b"""\
HOA: v1
Start: 1
AP: 2 "a" "b\\""
Acceptance: 3 (Fin(0))|Fin(1)&Inf(2)
note: "x" 0/* y */
--BODY--
State: 1 "q" {0}
[!0&(1|t)] 0 {1 2}
[f] 1
State: 0
[t] 1
--END--
"""
STREETT = hoa_texts.SPOT_STREETT.encode()
HAND = hoa_texts.HAND.encode()
MANY = b'\0 \xff"\\/09At:-)&|!'
FEW = b' "/9:'
PUT = [
    b"0", b"3", b"300", b"x", b"t", b"x:", b"State:", b"HOA:", b"AP:", b'"s"', b"@a", b"(", b")", b"[", b"]", b"{", b"}", b"&", b"|", b"!", b"--BODY--",
    b"--END--", b"--ABORT--", b"?",
]
SAMPLES = {"rabin": (RABIN, MANY, PUT), "streett": (STREETT, FEW, PUT[::3]), "hand": (HAND, b"", PUT[::6])}


def spliced(sample, at, length, put):
    return sample[:at] + put + sample[at + length :]


def changes(sample, bytes_, tokens):
    """Cut at every byte; every byte left out, doubled, and replaced; every token left out, doubled, replaced, and another put in front of it: (at, length, bytes)."""
    size = len(sample)
    yield from ((at, size - at, b"") for at in range(size))
    if bytes_:
        yield from ((at, 1, b"") for at in range(size))
        yield from ((at, 0, sample[at : at + 1]) for at in range(size))
        yield from ((at, 1, bytes([byte])) for at in range(size) for byte in bytes_)
    for token in hoa_reader.tokens(sample):
        own = sample[token.place : token.next]
        yield token.place, len(own), b""
        yield token.place, 0, own + b" "
        yield from ((token.place, len(own), b" " + put + b" ") for put in tokens)
        yield from ((token.place, 0, b" " + put + b" ") for put in tokens[::4])


def variants(sample, bytes_, tokens):
    """The changes that give a new text each, with their results."""
    seen = {sample}
    for at, length, put in changes(sample, bytes_, tokens):
        text = spliced(sample, at, length, put)
        if text not in seen:
            seen.add(text)
            yield at, length, put, text, result(text)


def stored_variants(name):
    """The variants as they are stored: name, text and result."""
    sample = (STORED / f"{name}.hoa").read_bytes()
    for line in (STORED / f"{name}.variants").read_text().splitlines():
        at, length, put, line_result = line.split(" ", 3)
        text = spliced(sample, int(at), int(length), b"" if put == "-" else bytes.fromhex(put))
        yield f"{name}: {at} {length} {put}", text, line_result


def stored_texts():
    texts, at = (STORED / "texts").read_bytes(), 0
    names = [name for name, *_ in hoa_texts.all_texts()]
    for number, line in enumerate((STORED / "results").read_text().splitlines()):
        newline = texts.index(b"\n", at)
        end = newline + 1 + int(texts[at:newline])
        yield names[number] if number < len(names) else str(number), texts[newline + 1 : end], line
        at = end


def large_texts():
    for name, text, refusal in hoa_texts.large_texts():
        yield name, text, "refused %d %d" % refusal if refusal else result(text)


# ---- the programs --------------------------------------------------------------------------------------------------------------------


def fault_of_answer(text, line, answer):
    """What is wrong with judge_hoa's answer to a text with this result, or None."""
    if line.startswith("refused"):
        return job_vectors.fault_of_lines(None, tuple(map(int, line.split()[1:])), answer)
    table = table_of(text)
    if line_of(table) != line:
        return f"the stored result is {line}, not {line_of(table)}"
    return job_vectors.fault_of_lines(table, None, answer)


def answer_of(program, text):
    done = subprocess.run(program, input=text, stdout=subprocess.PIPE, timeout=SECONDS)
    return done.stdout, f"exit status {done.returncode}" if done.returncode else None


def tallied(cases, program, fault_of):
    """Runs the program on each case (name, text, what is due); prints what is wrong and the tally."""
    passed = failed = 0
    for name, text, due in cases:
        answer, fault = answer_of(program, text)
        fault = fault or fault_of(text, due, answer)
        passed, failed = passed + (not fault), failed + bool(fault)
        if fault:
            print(f"{name!r}: {fault}\n{answer[:400].decode(errors='replace')}")
    print(f"{passed} passed, {failed} failed")
    return failed == 0


def run(program):
    return tallied(chain(stored_texts(), *map(stored_variants, SAMPLES), large_texts()), program, fault_of_answer)


def run_random(program):
    texts = hoa_compare.random_texts(RANDOM)
    return tallied(((f"random text {number}: {text!r}", text, result(text)) for number, text in enumerate(texts)), program, fault_of_answer)


def written(job_text):
    """What job_to_hoa writes for a job text."""
    try:
        job = job_vectors.read(job_text)
        refusal = job_vectors.refusal(job)
    except job_vectors.Refused as refused:
        refusal = refused.args
    if refusal is not None:
        return job_vectors.refused_text(*refusal)
    text = hoa_reader.written(job)
    back = job | {"kind": "buchi"} if (job["kind"], job["count"]) == ("streett", 0) else job
    assert hoa_reader.read(text) == back, "what is written does not read back"
    return text


def example_jobs():
    return {path.stem: path.read_bytes() for path in sorted((EXAMPLES / "jobs").glob("*.job"))}


def fault_of_written(text, due, output):
    return None if output == due else "not what is to be written"


def run_writer(program):
    jobs = list(example_jobs().items()) + job_vectors.all_jobs() + [(name, text.encode()) for name, text, _ in job_vectors.large_jobs()]
    jobs.append(("the longest text that is written", LONGEST_JOB))
    assert len(written(LONGEST_JOB)) == 52_205
    return tallied([(name, text, written(text)) for name, text in jobs], program, fault_of_written)


LONGEST_JOB = job_vectors.job(256, 255, "streett", 16, "-", [f"{i // 2},255,ffffffff" for i in range(512)]).encode()

# ---- the files -----------------------------------------------------------------------------------------------------------------------


def files():
    """Each file's name and contents."""
    texts = hoa_texts.all_texts()
    found = {
        STORED / "texts": b"".join(b"%d\n" % len(text) + text for _, text, *_ in texts),
        STORED / "results": "".join(result(text) + "\n" for _, text, *_ in texts).encode(),
    }
    for name, (sample, *how) in SAMPLES.items():
        lines = (f"{at} {length} {put.hex() or '-'} {line}\n" for at, length, put, _, line in variants(sample, *how))
        found[STORED / f"{name}.hoa"], found[STORED / f"{name}.variants"] = sample, "".join(lines).encode()
    for name, text in example_jobs().items():
        found[STORED / "written" / f"{name}.hoa"] = written(text)
    return found


def differing():
    """What differs between the files, what was worked out by hand, and the two readings."""
    yield from stored.unlike(files())
    for name, text, _, by_hand in hoa_texts.all_texts():
        if not result(text).startswith(by_hand):
            yield f"{name!r}: {result(text)}, by hand {by_hand}"
        if len(text) < 1000 and not by_grammar(text, result(text)):
            yield f"{name!r}: {result(text)}, by the grammar something else"
    for name, sample in SAMPLES.items():
        for number, (*_, text, line) in enumerate(variants(*sample)):
            if number % 10 == 0 and not by_grammar(text, line):
                yield f"{name}: {text!r}: {line}, by the grammar something else"


def main(arguments):
    match arguments:
        case ["write"]:
            stored.write(files())
        case ["same"]:
            return stored.told(differing())
        case ["list"]:
            for number, (name, text, *_) in enumerate(hoa_texts.all_texts()):
                print(number, name.encode("unicode_escape").decode(), result(text), sep="\t")
        case ["show", number]:
            sys.stdout.buffer.write(hoa_texts.all_texts()[int(number)][1])
        case ["run", *program] if program:
            return run(program)
        case ["random", *program] if program:
            return run_random(program)
        case ["written", *program] if program:
            return run_writer(program)
        case _:
            print(__doc__)
            return False
    return True


if __name__ == "__main__":
    sys.exit(0 if main(sys.argv[1:]) else 1)
