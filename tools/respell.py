#!/usr/bin/env python3
"""Respells this repository's own names of specs/ and proofs/ in the words of today's Rattle: functions, lemmas, fields and constructors in snake case, facts
in camel case.

usage: tools/respell.py [FOLDER]        once, at the top of a checkout that port.py has just turned; it says which names fall together, and then writes nothing

Turned are the files of crates/*/specs, crates/*/proofs and the clauses and comments of crates/*/src; a name in a comment only where it stands between
backticks. Names of src/, exported names, strings and what Rattle makes (goals, steps) keep their spelling.
"""

import collections
import os
import re
import sys

# A fact is spelled as a type.
FACTS = {
    "has": "Has", "acceptanceNeeds": "AcceptanceNeeds", "aheadWithin": "AheadWithin", "commentLow": "CommentLow", "foundNeeds": "FoundNeeds", "hasEdge": "HasEdge",
    "hasOne": "HasOne", "hopLow": "HopLow", "isJob": "IsJob", "isNil": "IsNil", "isStandard": "IsStandard", "pastWithin": "PastWithin", "regionIn": "RegionIn",
    "stageWithin": "StageWithin",
}
# The same for names that are facts in one file alone.
FACTS_OF = {
    "hoa_label/proofs/Examples.antt": {"gives": "Gives"}, "hoa_rows/proofs/Examples.antt": {"gives": "Gives"},
    "hoa_grammar/proofs/FormulaTexts.antt": {"goes": "Goes"}, "hoa_formula/proofs/Admitted.antt": {"only": "Only"},
    "hoa_formula/proofs/Examples.antt": {"reads": "Reads"}, "hoa_tokens/proofs/Examples.antt": {"says": "Says"},
}
# Names that would fall together with another: of a lemma and of its function the lemma gets `_lem`.
APART_OF = {
    "hoa_round/proofs/Trees.antt": {"pair_end": "pair_end_lem"}, "hoa_written/proofs/Ints.antt": {"is_digit": "is_digit_lem"},
    "job_writer/proofs/Size.antt": {"most_bytes": "most_bytes_lem"}, "job_writer/proofs/Round.antt": {"most_bytes": "most_bytes_lem"},
    "hoa_writer/proofs/Size.antt": {"most_bytes": "most_bytes_lem"}, "hoa_text/proofs/Turning.antt": {"most_bytes": "most_bytes_lem"},
    "job_writer/specs/Writing.antt": {"most_bytes": "most_bytes_lem"}, "hoa_written/specs/Writing.antt": {"most_bytes": "most_bytes_lem"},
}
# `ground` is a tactic today, which no word of a clause or a spec may be named as.
APART = {"ground": "grounded", "past_is": "past_kinds", "first_Marks": "first_marks", "at_Edge": "at_edge"}
# Names under which variants are imported, where a definition has the word already.
ALIASES = {"ahead-is": "ahead_kinds", "int-kind": "int_kinds", "text-kind": "text_kinds", "head-end": "head_endings"}
TOKEN = re.compile(r"--[^\n]*|//[^\n]*|\"(?:[^\"\\\n]|\\.)*\"|[^\s(){}\[\].,;:\"`|&]+")
TICKED = re.compile(r"`[^`\n]*`")
WORD = re.compile(r"[^\s(){}\[\].,;:\"`|&]+")
DECLARED = re.compile(r"^(?:(?:abbrev|unfoldable|opaque|pub) )*([^\s:(){};]+) :\s", re.M)
FIELD = re.compile(r"^ +(?:(?:pub) )?([^\s:(){};]+) :\s", re.M)
MADE = ("Proof.antt", "Answers.antt", "Invariants.antt")


def snake(part):
    return re.sub(r"(?<=[a-z0-9])([A-Z])", lambda m: "_" + m.group(1).lower(), part)


def is_camel(part):
    return re.fullmatch(r"[a-z][a-z0-9]*(?:_?[A-Z][A-Za-z0-9]*)+'*", part) is not None


def files(top):
    for folder, dirs, names in os.walk(os.path.join(top, "crates")):
        dirs[:] = sorted(d for d in dirs if d != "out")
        for name in sorted(names):
            if name.endswith((".antt", ".rt")):
                yield os.path.join(folder, name)


def read(path):
    with open(path, encoding="utf-8") as it:
        return it.read()


def dashed_names(top):
    """The names with dashes that a file of specs/ or a file of lemmas declares, each with its new spelling."""
    found, others = set(), set()
    for path in files(top):
        # A function's own files stand in a folder below proofs/.
        own = os.path.basename(os.path.dirname(path)) in ("proofs", "specs") or os.path.basename(path) not in MADE
        if path.endswith(".antt") and own:
            text = read(path)
            for name in DECLARED.findall(text) + FIELD.findall(text):
                if "-" in name and re.fullmatch(r"[a-zA-Z][\w'-]*", name):
                    found.add(name)
                elif "-" not in name:
                    others.add(snake(name) if is_camel(name) else name)
        if path.endswith(".antt"):
            found |= {name for name in re.findall(r" as ([a-zA-Z][\w'-]*)", read(path)) if "-" in name}
    spelled = {}
    for name in found:
        parts = name.split("-")
        if parts[0] in FACTS or parts[0][:1].isupper() and parts[0] != "Stage":
            # A dash stays behind a fact's name.
            spelled[name] = FACTS.get(parts[0], parts[0]) + "-" + "_".join(snake(p) for p in parts[1:])
        else:
            new = "_".join(snake(p).lower() if p == "Stage" else snake(p) for p in parts)
            spelled[name] = new + "_lem" if new in others else new
    for name, new in ALIASES.items():
        spelled[name] = new
    for name in found:
        if name.startswith("has-mark"):
            spelled[name] = name.replace("-", "_")
    return spelled


def respelled(word, dashed, facts):
    if word in facts:
        return facts[word]
    if word in dashed:
        return dashed[word]
    parts = word.split("-")
    if any(is_camel(p) or p in FACTS and p != "has" for p in parts):
        return "-".join(facts.get(p, snake(p) if is_camel(p) else p) for p in parts)
    return word


def turned(path, text, dashed, said):
    facts = FACTS | APART
    for table in (FACTS_OF, APART_OF):
        facts |= next((f for end, f in table.items() if path.endswith(end)), {})
    inner = not path.endswith(".rt")

    def word(w):
        if not inner and w in ("has", "Has"):
            return w
        new = respelled(w, dashed, facts)
        if new != w:
            said[new].add(w)
        return new

    def comment(c):
        return TICKED.sub(lambda m: WORD.sub(lambda w: word(w.group(0)), m.group(0)), c)

    def token(m):
        t = m.group(0)
        if t.startswith(("--", "//")):
            return comment(t)
        return t if t.startswith('"') else word(t)

    if inner:
        return TOKEN.sub(token, text)
    # In a source the clauses alone: what stands in the braces behind `ghost`, `requires` and `ensures`.
    out, at = [], 0
    for m in re.finditer(r"//[^\n]*|^\s*(?:pub )?ghost use [^{\n;]*(?=\{)|^\s*(?:pub )?(?:ghost|requires|ensures)\*?\b[^{\n;]*(?=\{)", text, re.M):
        if m.start() < at:
            continue
        out.append(text[at:m.start()])
        if m.group(0).startswith("//"):
            out.append(comment(m.group(0)))
            at = m.end()
            continue
        depth, end = 0, m.end()
        while True:
            depth += {"{": 1, "}": -1}.get(text[end], 0)
            end += 1
            if depth == 0:
                break
        out.append(m.group(0))
        out.append(TOKEN.sub(lambda t: FACTS["has"] if t.group(0) == "has" else token(t), text[m.end():end]))
        at = end
    out.append(text[at:])
    return "".join(out)


def main(argv):
    top = argv[0] if argv else "."
    dashed, said, texts = dashed_names(top), collections.defaultdict(set), {}
    before, together = {}, []
    for path in files(top):
        old = read(path)
        here = collections.defaultdict(set)
        new = turned(path, old, dashed, here)
        # Words of a path or behind a dot are no names of the file's own; of a source only the clauses count, and their words stand in new.
        plain = re.sub(r"(?:--|//)[^\n]*", "", old)
        had = set() if path.endswith(".rt") else {m.group(0) for m in WORD.finditer(plain) if m.start() == 0 or plain[m.start() - 1] != "."}
        for name, froms in here.items():
            # Two words of a file that become one, or a word that the file had already.
            if len(froms) > 1 or name in had and name not in APART and not any(name in f and path.endswith(end) for end, f in APART_OF.items()):
                together.append(f"{path}: {name}: {sorted(froms)}" + (" stands there already" if name in had else ""))
        if new != old:
            texts[path] = new
    for line in together:
        print(line)
    if together and "--write" not in sys.argv:
        print(f"{len(together)} names fall together")
        return 1
    for path, text in texts.items():
        with open(path, "w", encoding="utf-8") as it:
            it.write(text)
    print(f"{len(texts)} files respelled")
    return 0


if __name__ == "__main__":
    raise SystemExit(main([a for a in sys.argv[1:] if not a.startswith("--")]))
