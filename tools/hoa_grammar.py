"""Texts in the Hanoi format by their grammar: docs/RULES.md, "The Hanoi format", tokens, grammar and subset. Not a command by itself.

The grammars stand here as they stand there; one recogniser (Earley's) goes by any of them, and finds the first token with which no text of a grammar can begin. What a
text means is read off its tree. Nothing here is read token by token with a store, so that it can be compared with tools/hoa_reader.py, which does only that.
"""

import sys
from itertools import product

sys.setrecursionlimit(20_000)  # trees are as deep as their texts

# ---- tokens: byte by byte ------------------------------------------------------------------------------------------------------

LETTERS = set(b"abcdefghijklmnopqrstuvwxyzABCDEFGHIJKLMNOPQRSTUVWXYZ_")
DIGITS = set(b"0123456789")
NAMES = LETTERS | DIGITS | set(b"-")


def skipped(text, at):
    """The byte behind blanks and comments; the place of a comment that is never closed, and whether there is one."""
    while at < len(text):
        if text[at] in b" \t\n\r":
            at += 1
        elif text[at : at + 2] == b"/*":
            first, depth = at, 0
            while True:
                if at >= len(text):
                    return first, True
                two = text[at : at + 2]
                depth += (two == b"/*") - (two == b"*/")
                at += 2 if two in (b"/*", b"*/") else 1
                if depth == 0:
                    break
        else:
            break
    return at, False


def run(text, at, bytes_):
    while at < len(text) and text[at] in bytes_:
        at += 1
    return at


def string_end(text, at):
    """The byte behind a string's closing quote; None if it has none."""
    at += 1
    while at < len(text):
        if text[at] == ord('"'):
            return at + 1
        at += 2 if text[at] == ord("\\") else 1
    return None


def one_token(text, at):
    """Kind, value and the byte behind the token that begins here."""
    byte = text[at]
    if byte in DIGITS:
        end = run(text, at, DIGITS)
        digits = text[at:end]
        good = digits == b"0" or digits[0] != ord("0") and len(digits) < 11 and int(digits) < 2**31
        return ("INT", int(digits), end) if good else ("BAD", None, end)
    if byte in LETTERS:
        end = run(text, at, NAMES)
        return ("HEADER", text[at:end], end + 1) if text[end : end + 1] == b":" else ("WORD", text[at:end], end)
    if byte == ord('"'):
        end = string_end(text, at)
        return ("BAD", None, len(text)) if end is None else ("STRING", text[at + 1 : end - 1], end)
    if byte == ord("@") and run(text, at + 1, NAMES) > at + 1:
        return "ANAME", None, run(text, at + 1, NAMES)
    for fixed in ("--BODY--", "--END--", "--ABORT--", "(", ")", "[", "]", "{", "}", "&", "|", "!"):
        if text.startswith(fixed.encode(), at):
            return fixed, None, at + len(fixed)
    return "BAD", None, at + 1


def tokens(text):
    """Kind, value and place of each token."""
    at, found = 0, []
    while True:
        at, unclosed = skipped(text, at)
        if unclosed:
            return found + [("BAD", None, at), ("FINISH", None, len(text))]
        if at == len(text):
            return found + [("FINISH", None, at)]
        kind, value, end = one_token(text, at)
        found.append((kind, value, at))
        at = end


# ---- grammars --------------------------------------------------------------------------------------------------------------------

FORMAT = """
text    = HOA: WORD item* --BODY-- row* --END-- FINISH
item    = States: INT | Start: conj | AP: INT STRING* | Alias: ANAME label | Acceptance: INT cond
        | acc-name: WORD hint* | tool: STRING STRING? | name: STRING | properties: WORD* | NAME: value*
hint    = WORD | INT
value   = WORD | INT | STRING
conj    = INT | INT & conj
label   = lconj | lconj BAR label
lconj   = lfactor | lfactor & lconj
lfactor = t | f | INT | ANAME | ! lfactor | ( label )
cond    = cconj | cconj BAR cond
cconj   = catom | catom & cconj
catom   = t | f | ATOM ( !? INT ) | ( cond )
row     = State: statelabel? INT STRING? sig? edge*
edge    = statelabel? conj sig?
statelabel = [ label ]
sig     = { INT* }
"""

SUBSET = """
text    = HOA: v1 item* --BODY-- row* --END-- FINISH
item    = States: INT | Start: INT | AP: INT STRING* | Acceptance: INT cond
        | acc-name: WORD hint* | tool: STRING STRING? | name: STRING | properties: WORD* | LOWER: value*
hint    = WORD | INT
value   = WORD | INT | STRING
label   = lconj | lconj BAR label
lconj   = lfactor | lfactor & lconj
lfactor = t | f | INT | ! lfactor | ( label )
cond    = cconj | cconj BAR cond
cconj   = catom | catom & cconj
catom   = t | f | ATOM ( !? INT ) | ( cond )
row     = State: INT STRING? sig? edge*
edge    = [ label ] INT sig?
sig     = { INT* }
"""


def grammar(text):
    """The rules of each name: lists of symbols. `X*` and `X?` are names too."""
    rules = {}
    for line in text.strip().replace("\n        |", " |").splitlines():
        name, _, sides = line.partition("=")
        rules[name.strip()] = [side.split() for side in sides.split(" | ")]
    for symbol in {symbol for sides in rules.values() for side in sides for symbol in side}:
        if symbol.endswith("*"):
            rules[symbol] = [[], [symbol, symbol[:-1]]]
        if symbol.endswith("?"):
            rules[symbol] = [[], [symbol[:-1]]]
    return rules


KNOWN = {b"HOA", b"State", b"States", b"Start", b"AP", b"Alias", b"Acceptance", b"acc-name", b"tool", b"name", b"properties"}


def terminals(token):
    """The symbols of a grammar that this token may stand for."""
    kind, value = token[:2]
    if kind == "WORD":
        own = {value.decode()} & {"t", "f", "v1", "Fin", "Inf"}
        return {"WORD"} | own | ({"ATOM"} if value not in (b"t", b"f") else set())
    if kind == "HEADER":
        other = {"NAME:"} | (set() if 65 <= value[0] <= 90 else {"LOWER:"})
        return {value.decode() + ":"} if value in KNOWN else other
    if kind == "INT":
        return {"INT", value}
    return {"BAR" if kind == "|" else kind}


class Standard:
    """The formulas with c marks, by the grammar of the subset: a symbol is a name with its numbers, an INT the number itself."""

    def __init__(self, marks):
        self.marks, self.known = marks, {}

    def __contains__(self, symbol):
        return isinstance(symbol, tuple)

    def __getitem__(self, symbol):
        if symbol not in self.known:
            self.known[symbol] = [list(side) for side in getattr(self, symbol[0])(*symbol[1:])]
        return self.known[symbol]

    def get(self, symbol):
        return self[symbol] if symbol in self else None

    def std(self):
        c = self.marks
        if c == 0:
            return [["t"], ["f"], ["(", ("std",), ")"]]
        return [[("infs", 0, c)], [("rabin", 0, c)]] + [[("streett", 0, c)]] * (c % 2 == 0) + [[("spair", 0)]] * (c == 2)

    def infs(self, i, j):
        return [[("infop", i, j)]] + [[("infop", i, k), "&", ("infs", k, j)] for k in range(i + 1, j)]

    def infop(self, i, j):
        return [["Inf", "(", i, ")"]] * (j == i + 1) + [["(", ("infs", i, j), ")"]]

    def pair(self, i, j):
        return [[("phead", i, j)]] + [[("phead", i, k), "&", ("infs", k, j)] for k in range(i + 1, j)]

    def phead(self, i, j):
        return [["Fin", "(", i, ")"]] * (j == i + 1) + [["(", ("pair", i, j), ")"]]

    def rabin(self, i, j):
        return [[("rabop", i, j)]] + [[("rabop", i, k), "BAR", ("rabin", k, j)] for k in range(i + 1, j)]

    def rabop(self, i, j):
        return [[("pair", i, j)], ["(", ("rabin", i, j), ")"]]

    def streett(self, i, j):
        return [[("strop", i, j)]] + [[("strop", i, k), "&", ("streett", k, j)] for k in range(i + 2, j, 2)]

    def strop(self, i, j):
        return [["(", ("spair", i), ")"]] * (j == i + 2) + [["(", ("streett", i, j), ")"]]

    def spair(self, i):
        return [[("fin", i), "BAR", ("inf", i + 1)]]

    def fin(self, i):
        return [["Fin", "(", i, ")"], ["(", ("fin", i), ")"]]

    def inf(self, i):
        return [["Inf", "(", i, ")"], ["(", ("inf", i), ")"]]


# ---- the recogniser ----------------------------------------------------------------------------------------------------------------


class Chart:
    """Earley's sets of items for the tokens so far. An item is (name, side, dot, origin); with it goes one way to read what stands before the dot."""

    def __init__(self, rules, start):
        self.rules, self.start, self.sets = rules, start, []
        self.close({(start, tuple(side), 0, 0): () for side in rules[start]})

    def copy(self):
        other = Chart.__new__(Chart)
        other.rules, other.start, other.sets = self.rules, self.start, list(self.sets)
        return other

    def close(self, items):
        """All items that follow from these without a further token."""
        here, todo = dict(items), list(items)
        at = len(self.sets)
        self.sets.append(here)
        empty = {}  # names that were read as nothing here

        def put(item, parts):
            if item not in here:
                here[item] = parts
                todo.append(item)

        while todo:
            item = todo.pop()
            name, side, dot, origin = item
            if dot == len(side):
                tree = (name, here[item])
                if origin == at:
                    empty[name] = tree
                for other in list(self.sets[origin]):
                    if other[2] < len(other[1]) and other[1][other[2]] == name:
                        put((other[0], other[1], other[2] + 1, other[3]), self.sets[origin][other] + (tree,))
            elif side[dot] in self.rules:
                for new in self.rules[side[dot]]:
                    put((side[dot], tuple(new), 0, at), ())
                if side[dot] in empty:
                    put((name, side, dot + 1, origin), here[item] + (empty[side[dot]],))

    def take(self, token):
        """Whether some text goes on with this token."""
        may_be = terminals(token)
        items = {}
        for (name, side, dot, origin), parts in self.sets[-1].items():
            if dot < len(side) and side[dot] not in self.rules and side[dot] in may_be:
                items[name, side, dot + 1, origin] = parts + (token,)
        if not items:
            return False
        self.close(items)
        return True

    def tree(self):
        """The tree of the tokens so far, if they are a whole text."""
        return next(((name, parts) for (name, side, dot, origin), parts in self.sets[-1].items() if (name, dot, origin) == (self.start, len(side), 0)), None)


def first_fault(rules, start, some):
    """The number of the first token with which no text can begin, or None; and the tree of all tokens, if they are a text."""
    chart = Chart(rules, start)
    for number, token in enumerate(some):
        if not chart.take(token):
            return number, None
    return None, chart.tree()


FORMAT_RULES, SUBSET_RULES = grammar(FORMAT), grammar(SUBSET)


def syntax_fault(some):
    """The first token at which 40 falls, by its number; None if there is none. The two exceptions end the search: there 41 falls at the latest."""
    chart = Chart(FORMAT_RULES, "text")
    for number, token in enumerate(some):
        kind, value = token[:2]
        before = some[number - 1][0] if number else None
        if kind == "--ABORT--" and number > 0 and before != "--END--" or (kind, value, before) == ("HEADER", b"HOA", "--END--"):
            return None
        if not chart.take(token):
            return number
    return None


# ---- what a tree means ---------------------------------------------------------------------------------------------------------------


def leaves(tree):
    """The tokens of a tree."""
    if not isinstance(tree[1], tuple):
        return [tree]
    return [leaf for part in tree[1] for leaf in leaves(part)]


def parts(tree, name):
    """The parts of this name, from left to right, not looking inside them."""
    if not isinstance(tree[1], tuple):
        return []
    found = []
    for part in tree[1]:
        found += [part] if part[0] == name else parts(part, name)
    return found


def integers(tree):
    return [value for kind, value, *_ in leaves(tree) if kind == "INT"]


def holds(label, valuation):
    """Whether the valuation (a tuple of truth values) makes a part of a label true."""
    name, children = label[:2]
    if name == "WORD":
        return children == b"t"
    if name == "INT":
        return valuation[children]
    inner = [child for child in children if child[0] in ("label", "lconj", "lfactor", "WORD", "INT")]
    if name == "lfactor" and children[0][0] == "!":
        return not holds(inner[0], valuation)
    values = [holds(part, valuation) for part in inner]
    return any(values) if name == "label" else all(values)


def condition_of(marks, formula):
    """Kind, count and needs of a formula, or None if it is none of the standard ones. All of them have as many atoms as marks: others need not be looked at."""
    if sum(kind == "INT" for kind, *_ in formula) != marks:
        return None
    standard = Standard(marks)
    kinds = {"t": "buchi", "f": "rabin", "infs": "buchi", "rabin": "rabin", "streett": "streett", "spair": "streett"}
    found = set()
    for side in standard["std",]:
        if side[0] == "(":
            continue
        if side in (["t"], ["f"]):
            if [value for kind, value, *_ in formula if kind == "WORD"] == [side[0].encode()] and all(kind in ("(", ")", "WORD") for kind, *_ in formula):
                found.add(kinds[side[0]])
        elif first_fault(standard, side[0], formula)[1]:
            found.add(kinds[side[0][0]])
    assert len(found) < 2, "no formula has two kinds"
    if not found:
        return None
    kind = found.pop()
    atoms = [value for kind_, value, *_ in formula if kind_ == "WORD"]
    pairs = [i for i, atom in enumerate(atoms) if atom == b"Fin"] + [len(atoms)]
    needs = [after - before - 1 for before, after in zip(pairs, pairs[1:])] if kind == "rabin" and marks else []
    return kind, {"buchi": marks, "streett": marks // 2, "rabin": len(needs)}[kind], needs + [0] * (8 - len(needs))


def all_differ(some):
    return len(set(some)) == len(some)


def header_of(tree):
    """The items by their names, each with its tree; None if condition 1 fails."""
    items = parts(tree, "item")
    names = [leaves(item)[0][1] for item in items]
    once = [name for name in names if name in KNOWN - {b"properties"}]
    if not all_differ(once) or not {b"Start", b"Acceptance"} <= set(once):
        return None
    return dict(zip(names, items))


def meaning(some):
    """The table that the tokens stand for, or None if they are no text of the subset; condition 6 is set aside. Beside it the numbers that condition 6 limits."""
    tree = first_fault(SUBSET_RULES, "text", some)[1]
    items = header_of(tree) if tree else None
    if items is None:
        return None
    rows = parts(tree, "row")
    n = integers(items[b"States"])[0] if b"States" in items else len(rows)
    start = integers(items[b"Start"])[0]
    a = integers(items[b"AP"])[0] if b"AP" in items else 0
    names = [value for kind, value, *_ in leaves(items[b"AP"]) if kind == "STRING"] if b"AP" in items else []
    c = integers(items[b"Acceptance"])[0]
    condition = condition_of(c, leaves(parts(items[b"Acceptance"], "cond")[0]))
    if n < 1 or start >= n or len(names) != a or not all_differ(names) or condition is None:
        return None
    numbers = [integers(row)[0] for row in rows]
    if len(rows) != n or not all_differ(numbers) or any(q >= n for q in numbers):
        return None
    edges = {}
    for q, row in zip(numbers, rows):
        edges[q] = edges_of(row, n, a, c)
        if edges[q] is None:
            return None
    kept = [(q, to, marks) for q in range(n) for to, marks in edges[q]]
    kind, count, needs = condition
    return {"states": n, "start": start, "kind": kind, "count": count, "needs": needs, "edges": kept}, {"states": n, "propositions": a, "marks": c, "edges": len(kept)}


def marks_of(sigs):
    return {mark for sig in sigs for mark in integers(sig)}


def direct(tree, name):
    """The parts of this name outside the edges."""
    return [part for child in tree[1] if child[0] != "edge*" for part in ([child] if child[0] == name else parts(child, name))]


def edges_of(row, n, a, c):
    """The edges with a satisfiable label, each as target and marks; None if a condition fails."""
    own = marks_of(direct(row, "sig"))
    found = []
    if any(mark >= c for mark in own):
        return None
    for edge in parts(row, "edge"):
        label, to, more = edge[1][1], edge[1][3][1], marks_of(parts(edge, "sig"))
        if to >= n or any(mark >= c for mark in more) or any(i >= a for i in integers(label)):
            return None
        if any(holds(label, valuation) for valuation in product((False, True), repeat=a)):
            found.append((to, sum(1 << mark for mark in own | more)))
    return found
