#!/usr/bin/env python3
"""Compares the two readings of the Hanoi format (docs/RULES.md): token by token (tools/hoa_reader.py) and by the grammar (tools/hoa_grammar.py).

  tools/hoa_compare.py [TURNS]     so many hundred random texts, 3 if nothing is said, ten times as many random byte strings, and all beginnings of formulas up to a length

tokens    Random bytes have the same tokens.
formulas  Of all beginnings of formulas, token by token: one machine admits the next token exactly if a formula of the grammar begins so. Of the longer ones, atom by atom,
          the same, and kind and needs are those of the tree.
texts     For random tokens, mostly texts with a few tokens changed: 40 falls at the first token with which no text of the format begins. Limits set aside, accepted is
          what the conditions on the tree admit, with the same table; every beginning that is admitted is completed to such a text (so 41 never comes late); no such text
          is refused, and what is refused is not completed by any end of what completes the tokens before it (so 41 never comes early). With the limits, accepted is what
          condition 6 admits besides.

Prints what differs; the last line is the tally."""

import copy
import random
import sys
from pathlib import Path

sys.dont_write_bytecode = True
sys.path.insert(0, str(Path(__file__).resolve().parent))
import hoa_grammar
import hoa_reader
import hoa_texts
from hoa_reader import LIMITS, NO_LIMITS, Fault, Formula, Reader, Refused, Token

passed = failed = 0


def check(holds, *seen):
    global passed, failed
    passed, failed = passed + bool(holds), failed + (not holds)
    if not holds:
        print("hoa_compare: differs:", *seen)


# ---- tokens ------------------------------------------------------------------------------------------------------------------------

PIECES = [
    b"/*", b"*/", b"/", b"*", b'"', b"\\", b"\\\"", b"--BODY--", b"--END--", b"--ABORT--", b"--", b"-", b"HOA:", b"v1", b"t", b"Inf", b":", b"0", b"007",
    b"12", b"2147483647", b"2147483648", b"99999999999999999999", b"@", b"@a-1", b"_", b" ", b"\t", b"\n", b"\r", b"\f", b"\0", b"\xff", b"\xef\xbb\xbf", b"(",
    b")", b"[", b"]", b"{", b"}", b"&", b"|", b"!", b",", b".", b"A", b"z", b"x y", b"/**/", b"/*/", b"States:",
]


def plain(some):
    """Kind and place, and the value where both readings keep it."""
    return [(token[0], token[1] if token[0] in ("INT", "WORD", "HEADER", "STRING") else None, token[2]) for token in some]


def compare_tokens(turns, dice):
    for _ in range(turns):
        text = b"".join(dice.choices(PIECES, k=dice.randrange(12)))
        check(plain(hoa_reader.tokens(text)) == plain(hoa_grammar.tokens(text)), text)


# ---- formulas ----------------------------------------------------------------------------------------------------------------------


def some_token(kind, value=b""):
    return Token(kind, value, 0, 0)


WORDS = [some_token("WORD", word) for word in (b"Inf", b"Fin", b"t", b"f", b"Foo")]
SIGNS = [some_token(sign) for sign in "()&|!"]


def formula_reader(marks):
    reader = Reader(NO_LIMITS)
    reader.came = {b"Start"}
    reader.expect = "acceptance_item"
    reader.take(some_token("INT", marks))
    return reader


def number_of_fault(reader, token):
    try:
        reader.take(token)
        return 0
    except Fault as fault:
        return fault.args[0]


def compare_formulas(marks, longest, deepest, alphabet):
    """All beginnings: a beginning that neither reading admits is not gone on with. `alphabet` gives lists of tokens for the number of atoms so far."""
    standard, format_rules = hoa_grammar.Chart(hoa_grammar.Standard(marks), ("std",)), hoa_grammar.Chart(hoa_grammar.FORMAT_RULES, "cond")
    todo = [([], formula_reader(marks), standard, format_rules)]
    while todo:
        before, reader, chart, syntax = todo.pop()
        if reader.expect == "operator" and reader.depth == 0:
            compare_whole(marks, before, reader, chart)
        if len(before) >= longest:
            continue
        for tokens in alphabet(reader.formula.atoms):
            if tokens[0].kind == "(" and reader.expect == "operand" and reader.depth == deepest:
                continue
            new, chart_, syntax_ = copy.deepcopy(reader), chart.copy(), syntax.copy()
            for token in tokens:
                number = number_of_fault(new, token)
                in_format, in_subset = syntax_.take(token), chart_.take(token)
                right = 40 if not in_format else 41 if not in_subset else 0
                check(number == right, marks, [t[:2] for t in before + tokens], number, right)
                if number or right:
                    break
            else:
                todo.append((before + tokens, new, chart_, syntax_))


def compare_whole(marks, formula, reader, chart):
    """At a place where the formula may end: it is one of the grammar exactly if all its atoms are there, and means the same."""
    whole = chart.tree() is not None
    check(whole == (reader.formula.atoms == marks), marks, [t[:2] for t in formula], "ends")
    if whole:
        check(reader.formula.condition() == hoa_grammar.condition_of(marks, formula), marks, [t[:2] for t in formula], "means")


def every_token(numbers):
    return lambda atoms: [[token] for token in WORDS + SIGNS + [some_token("INT", i) for i in range(numbers)]]


def atom_by_atom(atoms):
    def atom(word):
        return [some_token("WORD", word), some_token("("), some_token("INT", atoms), some_token(")")]

    return [atom(b"Inf"), atom(b"Fin")] + [[some_token(sign)] for sign in "()&|"]


# ---- texts -------------------------------------------------------------------------------------------------------------------------


def header(name):
    return some_token("HEADER", name)


def random_label(dice, propositions, depth):
    choice = dice.random()
    if depth == 0 or choice < 0.4:
        return [some_token("INT", dice.randrange(propositions))] if propositions and dice.random() < 0.7 else [dice.choice(WORDS[2:4])]
    if choice < 0.55:
        return [some_token("!")] + random_label(dice, propositions, depth - 1)
    if choice < 0.7:
        return [some_token("(")] + random_label(dice, propositions, depth - 1) + [some_token(")")]
    return random_label(dice, propositions, depth - 1) + [some_token(dice.choice("&|"))] + random_label(dice, propositions, depth - 1)


def random_formula(dice, marks):
    """A formula of the subset, found by asking the machines."""
    reader = formula_reader(marks)
    found = []
    while True:
        if reader.expect == "operator" and reader.depth == 0 and reader.formula.atoms == marks and dice.random() < 0.7:
            return found
        token = dice.choice(WORDS[:4] + SIGNS[:4] + [some_token("INT", reader.formula.atoms)])
        if token.kind == "(" and reader.expect == "operand" and reader.depth > 3:
            continue
        new = copy.deepcopy(reader)
        if number_of_fault(new, token) == 0:
            reader = new
            found.append(token)
        elif reader.expect == "operator" and reader.depth == 0 and reader.formula.atoms == marks:
            return found


def known_formula(dice):
    """A formula of those that were written by hand, with its number of marks."""
    formula = dice.choice(hoa_texts.BUCHI + list(hoa_texts.RABIN) + 2 * hoa_texts.STREETT)
    return formula.count("Inf") + formula.count("Fin"), [some_token(token.kind, token.value) for token in hoa_reader.tokens(formula.encode())][:-1]


def random_sig(dice, marks):
    return [] if dice.random() < 0.5 else [some_token("{")] + [some_token("INT", dice.randrange(marks)) for _ in range(dice.randrange(4)) if marks] + [some_token("}")]


def random_text(dice):
    """The tokens of a text of the subset."""
    n, a, c = dice.randrange(1, 4), dice.randrange(3), dice.randrange(5)
    c, formula = known_formula(dice) if dice.random() < 0.5 else (c, random_formula(dice, c))
    items = [[header(b"Start"), some_token("INT", dice.randrange(n))], [header(b"Acceptance"), some_token("INT", c)] + formula]
    if a or dice.random() < 0.5:
        items.append([header(b"AP"), some_token("INT", a)] + [some_token("STRING", b"%d" % i) for i in range(a)])
    may = [[header(b"States"), some_token("INT", n)], [header(b"acc-name"), WORDS[0], some_token("INT", 1)], [header(b"tool"), some_token("STRING", b"x")],
           [header(b"name"), some_token("STRING", b"y")], [header(b"properties"), WORDS[4]], [header(b"other"), some_token("STRING", b"z"), some_token("INT", 7)]]
    items += [item for item in may if dice.random() < 0.4]
    dice.shuffle(items)
    text = [header(b"HOA"), some_token("WORD", b"v1")] + sum(items, []) + [some_token("--BODY--")]
    for q in dice.sample(range(n), n):
        text += [header(b"State"), some_token("INT", q)] + [some_token("STRING", b"q")] * (dice.random() < 0.3) + random_sig(dice, c)
        for _ in range(dice.randrange(3)):
            text += [some_token("[")] + random_label(dice, a, 2) + [some_token("]"), some_token("INT", dice.randrange(n))] + random_sig(dice, c)
    return text + [some_token("--END--"), some_token("FINISH")]


ANY = WORDS + SIGNS + [some_token(kind) for kind in ("[", "]", "{", "}", "ANAME", "BAD", "--BODY--", "--END--", "--ABORT--", "FINISH")]
ANY += [some_token("INT", i) for i in (0, 0, 1, 1, 2, 3, 4, 7, 300)] + [some_token("STRING", name) for name in (b"0", b"1", b"x")] + [some_token("WORD", b"v1")]
ANY += [header(name) for name in (b"HOA", b"States", b"Start", b"AP", b"Alias", b"Acceptance", b"acc-name", b"tool", b"name", b"properties", b"State", b"other", b"Other")]


def alike(token):
    """The tokens that may stand where this one does, as far as its kind goes."""
    return [other for other in ANY if other.kind == token.kind or other.kind in "&|" and token.kind in "&|"] or [token]


def changed(dice, text):
    """A few tokens put in, taken out, changed or exchanged with others."""
    text = list(text)
    for _ in range(dice.choice((0, 1, 1, 1, 2, 3))):
        at = dice.randrange(len(text))
        how = dice.randrange(8)
        if how > 3:
            text[at] = dice.choice(alike(text[at]))
        elif how == 0:
            text.insert(at, dice.choice(ANY))
        elif how == 1 and len(text) > 1:
            text.pop(at)
        elif how == 2:
            text[at] = dice.choice(ANY)
        else:
            other = dice.randrange(len(text))
            text[at], text[other] = text[other], text[at]
    if some_token("FINISH") in text:
        text = text[: text.index(some_token("FINISH"))]
    return text + [some_token("FINISH")]


def placed(tokens):
    """The tokens with their numbers as places."""
    return [token._replace(place=number) for number, token in enumerate(tokens)]


def outcome(tokens, limits):
    """What the reading token by token says: a table, or number and place."""
    try:
        return hoa_reader.read_tokens(tokens, limits).table()
    except Refused as refused:
        return refused.args[:2]


def fewest(reader):
    """Tokens that complete what a reader without limits has admitted, mostly the shortest."""
    text = []
    while reader.expect != "done":
        for token in next_tokens(reader):
            new = copy.deepcopy(reader)
            if number_of_fault(new, token) == 0:
                reader = new
                text.append(token)
                break
        else:
            return None
        if len(text) > 2000:
            return None
    return text


def next_tokens(reader):
    """Tokens to try, in this order, to come to the end."""
    free = next(q for q in range(1000) if q not in reader.rows)
    numbers = [some_token("INT", i) for i in (free, 0, reader.formula.atoms if reader.formula else 0, (reader.start or 0) + 1)]
    strings = [some_token("STRING", b"new %d" % len(reader.names))]
    missing = [header(name) for name in (b"Start", b"Acceptance") if name not in reader.came]
    if reader.expect == "operator":
        return [some_token(kind) for kind in ("&", "|", ")")] + missing + [some_token("--BODY--")]
    if reader.expect == "operand":
        return WORDS + [some_token("(")]
    if reader.expect == "acceptance_item":
        return [some_token("INT", 0)]
    if reader.expect == "ap_name" and len(reader.names) < reader.propositions:
        return strings
    closing = [some_token(kind) for kind in ("FINISH", "--END--", "}", "]", ")")]
    more_rows = [header(b"State")] if reader.expect in ("row", "row_name", "row_sig", "edge", "behind_target") else []
    return closing + missing + [some_token("--BODY--")] + more_rows + numbers + strings + WORDS + [some_token("WORD", b"v1"), some_token("("), header(b"HOA")]


def compare_text(tokens, dice):
    shown = " ".join(str(t.value if t.value != b"" else t.kind) for t in tokens)
    free, meant = outcome(tokens, NO_LIMITS), hoa_grammar.meaning(tokens)
    check(isinstance(free, dict) == (meant is not None), shown, free, meant)
    if meant:
        check(free == meant[0], shown, free, meant)
        # a text that is refused only for its limits: 42, else accepted
        table, sizes = meant
        within = all(size <= getattr(LIMITS, name) for name, size in sizes.items()) and (table["kind"] != "rabin" or table["count"] <= LIMITS.pairs)
        limited = outcome(tokens, LIMITS)
        check(limited == table if within else limited[0] == 42, shown, limited)
        return
    number, place = free
    fault = hoa_grammar.syntax_fault(tokens)
    check(fault == place if number == 40 else fault is None or fault > place, shown, free, fault)
    limited = outcome(tokens, LIMITS)
    check(limited == free or limited[0] == 42 and limited[1] <= place and (limited[1] < place or number > 42), shown, free, limited)
    compare_beginning(tokens[: dice.randrange(place + 1)], shown)
    end = compare_beginning(tokens[:place], shown)
    if number == 41 and end is not None:
        for skipped in range(len(end) + 1):
            check(hoa_grammar.meaning(tokens[: place + 1] + end[skipped:]) is None, "completed:", shown, place, skipped)


def compare_beginning(tokens, shown):
    """What was admitted can be completed to a text; the tokens that do it, unless they would be very many."""
    reader = hoa_reader.read_tokens(tokens, NO_LIMITS)
    if reader.largest > 20 or reader.formula and reader.formula.marks > 20 or (reader.propositions or 0) > 10 or (reader.states or 0) > 20:
        return None
    end = fewest(reader)
    check(end is not None and hoa_grammar.meaning(tokens + end) is not None, "not completed:", shown, len(tokens))
    return end


def spelt(tokens, dice):
    """The tokens as bytes, with blanks and comments between them."""
    gaps = (b" ", b" ", b"\n", b"\t\r\n", b"/* x */", b" /*\"/**/*/ ")
    return b"".join(dice.choice(gaps) + bytes_of(token) for token in tokens)


def bytes_of(token):
    forms = {"INT": b"%d", "HEADER": b"%s:", "STRING": b'"%s"', "WORD": b"%s"}
    others = {"ANAME": b"@a", "BAD": b"?", "FINISH": b""}
    return forms[token.kind] % token.value if token.kind in forms else others.get(token.kind, token.kind.encode())


def random_texts(count, seed=2):
    """So many texts as bytes, mostly with a few tokens changed."""
    dice = random.Random(seed)
    return [spelt(changed(dice, random_text(dice)), dice) for _ in range(count)]


def main(turns):
    dice = random.Random(1)
    compare_tokens(turns * 10, dice)
    for marks in range(7):
        compare_formulas(marks, 12, 4, every_token(marks + 1))
    for marks, more, deepest in ((1, 12, 4), (2, 8, 3), (3, 6, 2), (4, 4, 2), (5, 4, 1), (6, 4, 1)):
        compare_formulas(marks, 4 * marks + more, deepest, atom_by_atom)
    for _ in range(turns):
        compare_text(placed(changed(dice, random_text(dice))), dice)
    print(f"{passed} passed, {failed} failed")
    return failed == 0


if __name__ == "__main__":
    sys.exit(0 if main(100 * int(sys.argv[1]) if sys.argv[1:] else 300) else 1)
