"""The manners that the launchers share; not a command by itself.

A launcher takes a file name or standard input, `--help`, `--version` and `--quiet`. It builds its program where sources changed (a release has none), hands it the input,
writes the program's lines, or what is made of them, to standard output and nothing else, says on standard error in one sentence what they mean, and ends with an exit status.
Whatever goes wrong on the way (input, building, output) is told on standard error and ends with NO_ANSWER: it never looks like an empty text or like a good answer.
"""

import fcntl
import hashlib
import os
import re
import signal
import subprocess
import sys
from collections import namedtuple
from pathlib import Path

EMPTY, RUN, REFUSED, NO_ANSWER = 0, 1, 2, 3
WRITTEN = DRAWN = 0  # of a launcher that writes a text, or draws
ACCEPTED, REJECTED = 0, 1  # of the launcher that checks
SAID = 40  # tools/launch/run takes a status from here on for what was said, and all others for an accident
INPUT = 9  # standard input, as tools/launch/run hands it on

ROOT = Path(__file__).resolve().parent.parent.parent
RELEASED = (ROOT / "PROOF.txt").exists()  # a release has its programs with it and no sources: nothing is built
PATIENCE = 2  # seconds after which it is said that a build goes on
BUILDS = "The first call proves and builds the program, which takes some minutes; so does the first call after a change of its sources.\n"
NAMES = "A file whose name begins with - is given as ./-NAME.\n"

ARCHIVE = "mukhadero"  # the crate that is built as an archive, and not as a program
OWN = ("must-fail", "out")  # of a crate's folder: what no program is made from

FIRST = 12_288  # the bytes of an input by which its form is told

# A form of input. `program`: the crate that takes it; `longest`: the most bytes that the program takes; `read_answer` takes the input and what the program wrote, and
# gives the status and the sentence, or None if what was written is no answer; `made` takes the same two, and gives what goes to standard output.
Form = namedtuple("Form", "program longest read_answer made", defaults=[lambda text, output: output])


class NoAnswer(Exception):
    """Why there is no answer, in plain words."""


# ---- standard input, output and error --------------------------------------------------------------------------------------------


def is_open(descriptor):
    try:
        os.fstat(descriptor)
        return True
    except OSError:
        return False


def settle_descriptors():
    """Whether standard output is open. Standard input gets its own number back, for file names such as /dev/stdin; if it is closed, a directory stands there, which
    can't be read. Where output or error are closed, /dev/null holds their numbers: no file that is opened later takes them."""
    was_open = is_open(1)
    os.dup2(INPUT if is_open(INPUT) else os.open("/", os.O_RDONLY), 0)
    for descriptor in (1, 2):
        if not is_open(descriptor):
            os.set_inheritable(os.open(os.devnull, os.O_RDWR), True)  # takes the lowest free number: this one
    return was_open


def tell(name, sentence):
    try:
        os.write(2, f"{name}: {sentence}\n".encode(errors="backslashreplace"))
    except OSError:
        pass  # nobody listens; the exit status says it too


def read_until(descriptor, text, longest):
    """Reads on, until the text is longer than `longest` or the input ends; whether it ended."""
    while len(text) <= longest:
        part = os.read(descriptor, longest + 1 - len(text))
        if not part:
            return True
        text += part
    return False


def read_input(file, form_of):
    """The input, or as much of it as shows that it is longer than its form may be: endless input is not read to its end. And its form."""
    name = "standard input" if file is None else file
    text = bytearray()
    try:
        descriptor = INPUT if file is None else os.open(file, os.O_RDONLY)
        ended = read_until(descriptor, text, FIRST)
        form = form_of(bytes(text))
        if not ended:
            read_until(descriptor, text, form.longest)
    except BlockingIOError:
        raise NoAnswer(f"{name} does not wait for its writer (it is non-blocking) and had nothing more to give: try `cat |`") from None
    except (OSError, ValueError) as error:
        raise NoAnswer(f"{name} can't be read: {getattr(error, 'strerror', error)}") from None
    return bytes(text), form


def write_output(output):
    try:
        while output:
            output = output[os.write(1, output) :]
        os.close(1)  # a full disk may be told as late as here
    except OSError as error:
        raise NoAnswer(f"standard output can't be written, what stands there is no answer: {error.strerror}") from None


# ---- the program -------------------------------------------------------------------------------------------------------------------


def crates_of(program):
    """The program's crate and all of this repository that it stands on."""
    listed = dict(re.findall(r"^(\w+)(?: staticlib)?:([^#\n]*)", (ROOT / "crates.txt").read_text(), re.M))
    found, left = set(), [program]
    while left:
        crate = left.pop()
        if crate in listed and crate not in found:
            found.add(crate)
            left += listed[crate].split()
    return sorted(found)


def files_under(folder):
    for entry in sorted(os.scandir(folder), key=lambda entry: entry.name):
        if entry.is_dir(follow_symlinks=False):
            if entry.name not in OWN:
                yield from files_under(entry.path)
        else:
            yield entry.path


def state_of(files):
    """Name, size and time of change of each file, as one short text."""
    digest = hashlib.sha256()
    for file in files:
        status = os.lstat(file)
        digest.update(f"{os.path.relpath(file, ROOT)} {status.st_size} {status.st_mtime_ns}\n".encode())
    return digest.hexdigest()


def state_of_sources(program):
    return state_of([str(ROOT / "crates.txt")] + [file for crate in crates_of(program) for file in files_under(ROOT / "crates" / crate)])


def paths(program):
    """The program (or the archive), and the note of what it was built from: the state of the sources, then its own."""
    built = f"staticlib/lib{program}.a" if program == ARCHIVE else f"bin/{program}"
    return ROOT / "target" / built, ROOT / "target" / "launch" / program


def is_fresh(program, sources):
    built, note = paths(program)
    try:
        return note.read_text() == f"{sources} {state_of([built])}\n"
    except OSError:
        return False


def write_note(program, sources):
    built, note = paths(program)
    try:
        note.parent.mkdir(parents=True, exist_ok=True)
        new = note.with_name(f"{program}.{os.getpid()}")
        new.write_text(f"{sources} {state_of([built])}\n")
        new.replace(note)
    except OSError:
        pass  # another user's tree: rt is asked again next time


def built_program(program, say):
    """The program, built anew (`rt run`) unless it was built from the sources as they are. Rt itself goes by what the files hold: it proves nothing twice."""
    if RELEASED or is_fresh(program, state_of_sources(program)):
        return paths(program)[0]
    with open(ROOT / "crates.txt") as lock:  # one build at a time, whoever starts it
        try:
            fcntl.flock(lock, fcntl.LOCK_EX | fcntl.LOCK_NB)
        except BlockingIOError:
            say("another build goes on; waiting for it ..")
            fcntl.flock(lock, fcntl.LOCK_EX)
        sources = state_of_sources(program)  # before the build: what changes while it goes on is seen next time
        if not is_fresh(program, sources):
            build(program, say)
            write_note(program, sources)
    return paths(program)[0]


def build(program, say):
    """Has rt prove and build the program in its crate's folder (`rt run` then runs it too, on an empty input), and puts what was built where it is looked for."""
    command, folder = ["rt", "lib" if program == ARCHIVE else "run"], ROOT / "crates" / program
    place = paths(program)[0]
    made = folder / "out" / place.name
    try:
        rt = subprocess.Popen(command, cwd=folder, stdin=subprocess.DEVNULL, stdout=subprocess.PIPE, stderr=subprocess.STDOUT)
    except OSError as error:
        raise NoAnswer(f"{program} must be built from its sources, and `rt` of the Rattle kit can't be run: {error.strerror}") from None
    try:
        said = rt.communicate(timeout=PATIENCE)[0]
    except subprocess.TimeoutExpired:
        say("proving and building the program; this takes some minutes ..")
        said = rt.communicate()[0]
    if rt.returncode != 0 or not made.exists():
        try:
            os.write(2, said)
        except OSError:
            pass
        raise NoAnswer(f"{program} is not built: `{' '.join(command)}` in crates/{program} failed with the lines above")
    place.parent.mkdir(parents=True, exist_ok=True)
    new = place.with_name(f"{place.name}.{os.getpid()}")
    new.write_bytes(made.read_bytes())
    new.chmod(made.stat().st_mode)
    new.replace(place)


def run(path, text):
    try:
        done = subprocess.run([path], input=text, stdout=subprocess.PIPE)
    except OSError as error:
        raise NoAnswer(f"{path} can't be run: {error.strerror}") from None
    if done.returncode != 0:
        raise NoAnswer(f"{path} did not come to its end (status {done.returncode})")
    return done.stdout


# ---- a launcher --------------------------------------------------------------------------------------------------------------------


def parsed(words, use, own):
    """What the command line asks for: a text to print and nothing else, whether to be quiet, the file, and the launcher's own options with their values."""
    quiet, files, options, words = False, [], {}, iter(words)
    for word in words:
        if word == "--help":
            return use, quiet, None, options
        if word == "--version":
            return f"mukhadero {(ROOT / 'VERSION').read_text()}", quiet, None, options
        if word == "--quiet":
            quiet = True
        elif word.startswith("--") and word[2:] in own:
            options[word[2:]] = value_of(word, words, use) if own[word[2:]] else True
        elif word.startswith("-"):
            raise NoAnswer(f"{word} is no option\n{use.rstrip()}")
        else:
            files.append(word)
    if len(files) > 1:
        raise NoAnswer(f"one file at a time, not {len(files)}\n{use.rstrip()}")
    return None, quiet, files[0] if files else None, options


def value_of(option, words, use):
    """The word behind an option."""
    word = next(words, None)
    if word is None:
        raise NoAnswer(f"{option} takes a word behind it\n{use.rstrip()}")
    return word


def answer_to(words, name, use, awaited, form_of, own):
    """The launcher's work, and its status."""
    output_open = settle_descriptors()
    print_only, quiet, file, options = parsed(words, use, own)
    if not output_open:
        raise NoAnswer("standard output is closed, there is no place for an answer")
    if print_only is not None:
        write_output(print_only.encode())
        return 0
    say = (lambda sentence: None) if quiet else (lambda sentence: tell(name, sentence))
    if file is None and not is_open(INPUT):
        raise NoAnswer("standard input is closed, there is nothing to read")
    if file is None and os.isatty(INPUT):
        say(f"waiting for {awaited} on standard input; Ctrl-D on a line of its own ends it")
    text, form = read_input(file, lambda first: form_of(first, **options))
    output = run(built_program(form.program, say), text)
    answer = form.read_answer(text, output)
    if answer is None:
        raise NoAnswer("what the program wrote is no answer")
    write_output(form.made(text, output))
    status, sentence = answer
    say(sentence)
    return status


def main(name, use, awaited, form_of, **own):
    """A launcher. `name`: its own; `use`: what --help says of it alone; `awaited`: what it reads, in words; `form_of` takes the first bytes of the input and the launcher's own
    options that are given, and gives its form; `own`: these options without their dashes, each with whether a word follows it."""
    signal.signal(signal.SIGINT, signal.SIG_DFL)
    try:
        status = answer_to(sys.argv[1:], name, use + ("" if RELEASED else BUILDS) + NAMES, awaited, form_of, own)
    except (NoAnswer, OSError) as why:
        tell(name, f"no answer: {why}")
        status = NO_ANSWER
    sys.exit(SAID + status)
