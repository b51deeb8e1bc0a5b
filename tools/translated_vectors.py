#!/usr/bin/env python3
"""Job texts and what tools/translate must write for each, worked out from docs/RULES.md ("One-mark translation", "The job text and the printed answer") alone.

  tools/translated_vectors.py write          writes tests/translated
  tools/translated_vectors.py same           fails if the files there are not what `write` would write, or a text that is written does not read back
  tools/translated_vectors.py run PROGRAM    runs the program translate on those jobs, on those of tools/job_vectors.py and on random ones, and checks all that is written

tests/translated/NAME.job: a job; NAME.out: what is written for it.
"""

import random
import subprocess
import sys
from pathlib import Path

sys.dont_write_bytecode = True
sys.path.insert(0, str(Path(__file__).resolve().parent))
import job_vectors
import stored
from job_vectors import form2, job

STORED = Path(__file__).resolve().parent.parent / "tests" / "translated"
EXAMPLES = Path(__file__).resolve().parent.parent / "examples" / "jobs"
MADE_STATES, MADE_EDGES = 4096, 32768  # row 10
JOB_STATES, JOB_EDGES, JOB_BYTES = 256, 512, 11_336  # row 23, and the longest text

# ---- what is due ---------------------------------------------------------------------------------------------------------------------


def edges_with_loops(job):
    """The edges; with k = 0 a state without edges gets a loop."""
    if job["count"] > 0:
        return job["edges"]
    stops = set(range(job["states"])) - {leaves for leaves, _, _ in job["edges"]}
    return sorted(job["edges"] + [(state, state, 0) for state in stops], key=lambda edge: edge[0])


def translate(job):
    """States, start and edges of the translated table."""
    k = job["count"]
    levels = max(k, 1)
    edges = edges_with_loops(job)
    made = []
    for state in range(job["states"]):
        row = [edge for edge in edges if edge[0] == state]
        for level in range(levels):
            for _, arrives, marks in row:
                reached = level
                while reached < k and marks >> reached & 1:
                    reached += 1
                top = reached == k or k == 0
                made.append((state * levels + level, arrives * levels + (0 if top else reached), int(top)))
    return job["states"] * levels, job["start"] * levels, made


def refusal_of(text):
    """The job, or number, place and perhaps column of its refusal."""
    try:
        read = job_vectors.read(text)
    except job_vectors.Refused as refused:
        return None, refused.args
    if read["kind"] != "buchi":
        return None, (4, 0)
    return read, job_vectors.refusal(read)


def due(text):
    """What is written for a text."""
    read, refusal = refusal_of(text)
    if refusal is None:
        states, start, edges = translate(read)
        if states > MADE_STATES or len(edges) > MADE_EDGES:
            refusal = 10, 0
        elif states > JOB_STATES or len(edges) > JOB_EDGES:
            refusal = 23, 0
    if refusal is not None:
        return job_vectors.refused_text(*refusal)
    lines = ["form=2", f"states={states}", f"start={start}", "kind=buchi", "count=1", "need=-", f"edges={len(edges)}"]
    lines += ["edge=%d,%d,%08x" % edge for edge in edges] + ["end=job"]
    return "".join(line + "\n" for line in lines).encode()


# ---- the jobs ------------------------------------------------------------------------------------------------------------------------


def ring(states, count, doubled=1):
    return [f"{s},{(s + 1) % states},{1 << s % count if count else 0:08x}" for s in range(states) for _ in range(doubled)]


def cases():
    """Name, text, and the beginning of what is due, by hand."""
    yield "two-marks", job(), b"form=2\nstates=6\nstart=0\nkind=buchi\ncount=1\nneed=-\nedges=6\nedge=0,2,00000000\nedge=1,3,00000000\nedge=2,5,00000000\nedge=3,5,"
    yield "no-marks-and-stop-states", job(4, 1, "buchi", 0, "-", ["0,1,00000000", "2,2,00000000"]), (
        b"form=2\nstates=4\nstart=1\nkind=buchi\ncount=1\nneed=-\nedges=4\n"
        b"edge=0,1,00000001\nedge=1,1,00000001\nedge=2,2,00000001\nedge=3,3,00000001\nend=job\n"
    )
    yield "stop-states-with-marks", job(2, 0, "buchi", 2, "-", ["0,1,00000003"]), b"form=2\nstates=4\nstart=0\nkind=buchi\ncount=1\nneed=-\nedges=2\nedge=0,2,00000001\nedge=1,2,"
    yield "form-2", form2(job(1, 0, "buchi", 1, "-", ["0,0,00000001"])), b"form=2\nstates=1\n"
    yield "no-edges", job(3, 2, "buchi", 2, "-", []), b"form=2\nstates=6\nstart=4\nkind=buchi\ncount=1\nneed=-\nedges=0\nend=job\n"
    yield "largest", job(256, 255, "buchi", 1, "-", ["255,255,00000001"] * 512), b"form=2\nstates=256\nstart=255\nkind=buchi\ncount=1\nneed=-\nedges=512\n"
    yield "largest-of-eight-marks", job(32, 31, "buchi", 8, "-", ring(32, 8, 2)), b"form=2\nstates=256\nstart=248\n"
    for name, text, *refusal in (
        ("refused-1", job(states=0, edges=[]), 1, 0),
        ("refused-3", job(start=3), 3, 0),
        ("refused-4-streett", job(kind="streett", count=1), 4, 0),
        ("refused-4-rabin", job(kind="rabin", count=1, need="1"), 4, 0),
        ("refused-4-before-1", job(states=0, kind="rabin", count=0, edges=[]), 4, 0),
        ("refused-4-form-2", form2(job(kind=None, count=1)), 4, 0),
        ("refused-5", job(edges=["0,1,00000000", "1,3,00000000"]), 5, 1),
        ("refused-6", job(edges=["0,1,00000000", "2,1,00000000", "1,2,00000000"]), 6, 2),
        ("refused-7", job(edges=["0,1,00000003", "1,2,00000004"]), 7, 1),
        ("refused-10", job(129, 0, "buchi", 32, "-", []), 10, 0),
        ("refused-20", job() + "#" * 12_288, 20, 0),
        ("refused-21", job().replace("need", "needs"), 21, 5, 1),
        ("refused-22", job().replace("edges=3", "edges=03"), 22, 6, 8),
        ("refused-22-newline", job().replace("1,2,00000001", "1,2,0000001"), 22, 8, 17),
        ("refused-23-line", job(states=257), 23, 1, 8),
        ("refused-23-states", job(129, 0, "buchi", 2, "-", []), 23, 0),
        ("refused-23-states-at-row-10", job(128, 0, "buchi", 32, "-", []), 23, 0),
        ("refused-23-edges", job(1, 0, "buchi", 2, "-", ["0,0,00000003"] * 257), 23, 0),
        ("refused-23-loops", job(256, 0, "buchi", 0, "-", ["0,0,00000000"] * 258), 23, 0),
    ):
        yield name, text, job_vectors.refused_text(*refusal)
    yield "loops-at-the-limit", job(256, 0, "buchi", 0, "-", ["0,0,00000000"] * 257), b"form=2\nstates=256\nstart=0\nkind=buchi\ncount=1\nneed=-\nedges=512\n"
    for path in sorted(EXAMPLES.glob("*.job")):
        yield f"example-{path.stem}", path.read_text(), b""


def random_job(dice):
    """A job of the kind buchi, most of them small enough to be written, some at fault."""
    k = dice.choice([0, 0, 1, 2, 3, 4, 8, 17, 32])
    states = dice.randint(1, max(1, dice.choice([3, 8, 256 // max(k, 1), 4200 // max(k, 1)])) % 257 or 1)
    leaves = sorted(dice.randrange(states) for _ in range(dice.randint(0, min(512, dice.choice([4, 16, 600 // max(k, 1)])))))
    edges = [f"{s},{dice.randrange(states)},{dice.getrandbits(k) | dice.getrandbits(k) if k else 0:08x}" for s in leaves]
    text = job(states, dice.randrange(states), dice.choice(["buchi", "buchi", None]), k, "-", edges)
    if dice.random() < 0.1:
        at = dice.randrange(len(text))
        text = text[:at] + dice.choice("0,\n=9f") + text[at + 1 :]
    return text


def random_jobs(count=600):
    dice = random.Random(104)
    return [(f"random job {number}", random_job(dice)) for number in range(count)]


# ---- the files and the program ---------------------------------------------------------------------------------------------------------


def files():
    """Each file's name and contents."""
    found = {}
    for name, text, begins in cases():
        text = text.encode()
        assert due(text).startswith(begins), f"{name}: by hand {begins}, worked out {due(text)[:200]}"
        found[STORED / f"{name}.job"], found[STORED / f"{name}.out"] = text, due(text)
    return found


def differing():
    yield from stored.unlike(files())
    for path in STORED.glob("*.*"):
        if path.suffix in (".job", ".out") and path not in files():
            yield f"{path.name} belongs to no case"
    longest = 0
    for name, text in [(name, text) for name, text, _ in cases()] + random_jobs():
        written = due(text.encode())
        if written.startswith(b"form=2"):
            states, start, edges = translate(job_vectors.read(text.encode()))
            back = {"states": states, "start": start, "kind": "buchi", "count": 1, "needs": [0] * 8, "edges": edges}
            longest = max(longest, len(written))
            if job_vectors.read(written) != back:
                yield f"{name}: what is written does not read back"
    if longest != JOB_BYTES:
        yield f"the longest text has {longest} bytes"


def run(program):
    passed = failed = 0
    jobs = [(name, text.encode()) for name, text, _ in cases()] + job_vectors.all_jobs() + [(name, text.encode()) for name, text in random_jobs()]
    jobs += [(name, text.encode()) for name, text, _ in job_vectors.large_jobs()]
    for name, text in jobs:
        done = subprocess.run([program], input=text, stdout=subprocess.PIPE)
        right = done.returncode == 0 and done.stdout == due(text)
        passed, failed = passed + right, failed + (not right)
        if not right:
            print(f"{name!r}: status {done.returncode}, not what is to be written\n{done.stdout[:400].decode(errors='replace')}")
    print(f"{passed} passed, {failed} failed")
    return failed == 0


def main(words):
    if words == ["write"]:
        stored.write(files())
        return True
    if words == ["same"]:
        return stored.told(differing())
    if len(words) == 2 and words[0] == "run":
        return run(words[1])
    sys.exit(__doc__)


if __name__ == "__main__":
    sys.exit(0 if main(sys.argv[1:]) else 1)
