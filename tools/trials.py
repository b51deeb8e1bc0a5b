"""What the trials share (tools/try-judge, tools/try-hoa, tools/try-translate, tools/try-answer, tools/try-picture, tools/try-release, tools/walk); not a command by itself."""

import os
import shutil
import stat
import subprocess
import sys
import time
from pathlib import Path

ROOT = Path(__file__).resolve().parent.parent
SECOND = 1.0
LINES = 8  # of a printed answer

passed = failed = 0


def check(name, holds, *seen):
    global passed, failed
    if holds:
        passed += 1
    else:
        failed += 1
        print(f"{Path(sys.argv[0]).name}: {name}: FAILED", *seen)


def tally():
    """The last line of a trial; whether all is well."""
    print(f"{passed} passed, {failed} failed")
    return failed == 0


def link(source, target):
    """The same file under a second name, or a copy if that can't be."""
    try:
        os.link(source, target)
    except OSError:
        shutil.copy2(source, target)


def launched(launcher, *words, text=None, **more):
    """Runs a launcher; text is what its standard input holds."""
    if text is not None:
        more["input"] = text
    return subprocess.run([launcher, *words], **({"stdout": subprocess.PIPE, "stderr": subprocess.PIPE, "timeout": 60} | more))


def seen(done):
    return done.returncode, done.stdout, done.stderr


def no_answer(name, done, words):
    """Status 3, nothing on standard output, and these words on standard error."""
    holds = done.returncode == 3 and not done.stdout and b"no answer: " in done.stderr and words.encode() in done.stderr
    check(name, holds, *seen(done))


def answered(name, done, status, first_line):
    check(name, done.returncode == status and (done.stdout or b"").startswith(first_line + b"\n") and (done.stdout or b"").count(b"\n") == LINES, *seen(done))


def quickest(start):
    """The time of the best of three tries, as a machine may be busy, and what came out."""
    best = float("inf")
    for _ in range(3):
        begin = time.monotonic()
        done = start()
        best = min(best, time.monotonic() - begin)
        if best < SECOND:
            break
    return best, done


# ---- a tree of its own -----------------------------------------------------------------------------------------------------------------

RT = """#!/bin/sh
# stands in for rt: notes that it was called and in which crate, and puts the program that is given to it in place
name=$(basename "$PWD")
echo "$@" "$name" >> "$CALLS"
sh "$WHILE_BUILDING"
[ -e "$PROGRAM" ] || { echo "$name: NOT PROVED"; exit 1; }
mkdir -p out && cp "$PROGRAM" "out/$name.new" && mv "out/$name.new" "out/$name"
"""


class Tree:
    """A small copy of the tree, with an rt of its own. `launcher`: its name; `program`: the file that rt builds; `given`: the file that the launcher is called with."""

    def __init__(self, folder, launcher, program, given):
        self.root, self.calls, self.program, self.step, self.given = folder / "a tree", folder / "calls", folder / "program", folder / "step", given
        shutil.copytree(ROOT / "tools", self.root / "tools")
        self.launcher = self.root / "tools" / launcher
        (self.root / "crates.txt").write_text(f"# crates\n{launcher}: job_text io\njob_text: marks\nmarks:\nother: marks\n")
        for file in (f"{launcher}/src/main.rt", f"{launcher}/stdout", "job_text/src/lib.rt", "job_text/must-fail/one.edit", "job_text/out/kept", "marks/proofs/Lib.antt", "other/src/lib.rt"):
            (self.root / "crates" / file).parent.mkdir(parents=True, exist_ok=True)
            (self.root / "crates" / file).write_text("some text\n")
        bin_ = folder / "bin"
        bin_.mkdir()
        self.script(bin_ / "rt", RT)
        shutil.copy(program, self.program)
        self.step.write_text("")
        self.calls.write_text("")
        self.environment = os.environ | {"PATH": f"{bin_}:{os.environ['PATH']}", "CALLS": str(self.calls), "PROGRAM": str(self.program), "WHILE_BUILDING": str(self.step)}

    @staticmethod
    def script(path, text):
        path.write_text(text)
        path.chmod(path.stat().st_mode | stat.S_IXUSR)

    def call(self, *words):
        """The answer, and how often rt was called for it."""
        self.calls.write_text("")
        done = launched(self.launcher, *words, self.given, env=self.environment)
        return done, self.calls.read_text().splitlines()

    def touch(self, file):
        path = self.root / "crates" / file
        os.utime(path, ns=(path.stat().st_atime_ns, path.stat().st_mtime_ns + 1))


def writes_no_answer(folder, launcher, program, given, outputs):
    """What is no answer is never handed on as one: neither these outputs, nor the first of them (which is one) if the program does not come to its end."""
    tree = Tree(folder, launcher, program, given)
    good, *wrong = outputs.items()
    for name, text in wrong:
        (folder / "text").write_text(text)
        tree.script(tree.program, f"#!/bin/sh\ncat > /dev/null\ncat '{folder}/text'\n")
        tree.touch(f"{launcher}/src/main.rt")
        no_answer(f"the program writes {name}", tree.call()[0], "what the program wrote is no answer")
    (folder / "text").write_text(good[1])
    for name, end in (("a signal", "kill -9 $$"), ("a status", "exit 1")):
        tree.script(tree.program, f"#!/bin/sh\ncat > /dev/null\ncat '{folder}/text'\n{end}\n")
        tree.touch(f"{launcher}/src/main.rt")
        no_answer(f"the program ends with {name}", tree.call()[0], "did not come to its end")
    return tree
