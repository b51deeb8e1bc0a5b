"""A text in the Hanoi format, read token by token as docs/RULES.md ("The Hanoi format", the faulty token) has it. Not a command by itself.

It knows nothing of the proved reader. tools/hoa_vectors.py works out with it what must come back for a text, and compares it with tools/hoa_grammar.py, which goes
by the grammar; the launchers take from it the words for a refusal and the lines of edges, and decide nothing by it.
"""

import re
from collections import namedtuple

# ---- tokens --------------------------------------------------------------------------------------------------------------------

# kind: INT, WORD, HEADER, STRING, ANAME, FINISH (the text's end), BAD; a mark or a fixed token is its own kind. value: the number, or the bytes (a header's
# without its colon, a string's between its quotes); for BAD what is wrong, in words.
Token = namedtuple("Token", "kind value place next")

FORMS = re.compile(
    rb"""(?P<number>[0-9]+) | (?P<name>[A-Za-z_][A-Za-z0-9_-]*) (?P<colon>:?) | "(?P<string>[^"\\]*(?:\\.[^"\\]*)*)" | (?P<aname>@[A-Za-z0-9_-]+)
    | (?P<fixed>--(?:BODY|END|ABORT)--|[()\[\]{}&|!])""",
    re.VERBOSE | re.DOTALL,
)
BLANKS = re.compile(rb"[ \t\n\r]*")
COMMENT_SIGN = re.compile(rb"/\*|\*/")


def comment_end(text, place):
    """The byte behind the comment that begins here; None if it is never closed."""
    depth = 0
    for sign in COMMENT_SIGN.finditer(text, place):
        depth += 1 if sign[0] == b"/*" else -1
        if depth == 0:
            return sign.end()
    return None


def token_at(text, at):
    """The first token from a place on."""
    while True:
        place = BLANKS.match(text, at).end()
        if not text.startswith(b"/*", place):
            break
        at = comment_end(text, place)
        if at is None:
            return Token("BAD", "a comment that is never closed", place, len(text))
    if place == len(text):
        return Token("FINISH", b"", place, place)
    found = FORMS.match(text, place)
    if found is None:
        return bad_token(text, place)
    return Token(*kind_and_value(found), place, found.end())


def bad_token(text, place):
    if text[place] == ord('"'):
        return Token("BAD", "a string that is never closed", place, len(text))
    if text.startswith(b"\xef\xbb\xbf", place):
        return Token("BAD", "a byte order mark, save the text without", place, place + 1)
    byte = text[place]
    return Token("BAD", f"`{chr(byte)}` begins nothing here" if 32 < byte < 127 else f"the byte {byte} stands outside strings and comments", place, place + 1)


def kind_and_value(found):
    if found["number"]:
        digits = found["number"]
        if digits[:1] == b"0" and len(digits) > 1:
            return "BAD", "a number has no leading zeros"
        return ("INT", int(digits)) if len(digits) <= 10 and int(digits) < 2**31 else ("BAD", "a number is below 2147483648")
    if found["name"]:
        return ("HEADER" if found["colon"] else "WORD"), found["name"]
    if found["string"] is not None:
        return "STRING", found["string"]
    return ("ANAME", found["aname"]) if found["aname"] else (found["fixed"].decode(), b"")


def tokens(text):
    """All tokens of a text; the last is FINISH, or BAD to the text's end."""
    at = 0
    while True:
        token = token_at(text, at)
        yield token
        if token.kind == "FINISH":
            return
        at = token.next


# ---- refusals and limits --------------------------------------------------------------------------------------------------------

SYNTAX, SUBSET, LIMIT = 40, 41, 42
LONGEST = 1_048_576  # the program's own limit; the library takes a text of any length

Limits = namedtuple("Limits", "states propositions marks pairs edges levels")
LIMITS = Limits(states=256, propositions=6, marks=32, pairs=8, edges=512, levels=256)
NO_LIMITS = Limits(*6 * [2**40])


class Fault(Exception):
    """A token is faulty: the number, and why in words."""


class Refused(Exception):
    """A text is refused: number, place, why in words."""


def syntax(words):
    return Fault(SYNTAX, words)


# ---- the acceptance formula: five machines with counters, side by side -----------------------------------------------------------

# Each machine says for an event whether a formula of its kind may go on so. Events: "(" and ")" that are brackets, "&", "|", "Fin", "Inf", "t", "f", another word
# ("word"), "!" and a number. `atoms` counts the marks so far; the marks of a formula are 0, 1, .. in order.


class Machine:
    def __init__(self, marks):
        self.marks, self.atoms = marks, 0

    def step(self, event):
        if isinstance(event, int):
            self.atoms += 1
            return event == self.atoms - 1
        if event in ("(", "&", "|", "Fin", "Inf") and self.atoms == self.marks:
            return False
        act = {"(": self.opens, ")": self.closes, "&": self.conjoins, "|": self.disjoins, "Fin": self.fin, "Inf": self.inf}.get(event)
        return act is not None and act()

    def opens(self):
        return False

    closes = conjoins = disjoins = fin = inf = opens


class Buchi(Machine):
    """Inf atoms joined by `&`, bracketed in any way. Brackets are balanced by the grammar already."""

    kind = "buchi"

    def opens(self):
        return True

    closes = conjoins = inf = opens

    def count(self):
        return self.marks


class Rabin(Machine):
    """Of the open brackets the outer ones (`wide`) hold a `|`, the next ones (`plain`) none, and the inner ones (`needs`) stand among the needed marks of a pair."""

    kind = "rabin"

    def __init__(self, marks):
        super().__init__(marks)
        self.wide = self.plain = self.needs = 0
        self.among_needs = self.behind_wide = False  # a needed mark must follow; a bracket that holds a `|` has just been closed
        self.pairs = []

    def opens(self):
        self.needs += self.among_needs
        self.plain += not self.among_needs
        return True

    def closes(self):
        if self.needs:
            self.needs -= 1
        elif self.plain:
            self.plain -= 1
        else:
            self.wide -= 1
            self.behind_wide = True
        return True

    def conjoins(self):
        self.among_needs = True
        return not self.behind_wide

    def disjoins(self):
        self.wide, self.plain = self.wide + self.plain, 0
        self.among_needs = self.behind_wide = False
        return self.needs == 0

    def fin(self):
        self.pairs.append(0)
        return not self.among_needs

    def inf(self):
        if self.among_needs:
            self.pairs[-1] += 1
        return self.among_needs

    def count(self):
        return len(self.pairs)


class Streett(Machine):
    """Of the open brackets the outer ones (`rows`) hold whole pairs, or will; the next (`fresh`) nothing yet, or a left side; behind a `|`, `right` counts those around the
    right side, and the pair's own bracket is not counted."""

    kind = "streett"

    def __init__(self, marks):
        super().__init__(marks)
        self.rows = self.fresh = self.right = 0
        self.where = "row"  # row: a pair must follow; left: behind a Fin; inf: an Inf must follow; right: behind an Inf; done: behind a whole pair

    def opens(self):
        if self.where == "inf":
            self.right += 1
        else:
            self.fresh += 1
        return True

    def fin(self):
        where, self.where = self.where, "left"
        return where == "row" and self.fresh > 0

    def disjoins(self):
        where, self.where = self.where, "inf"
        self.rows, self.fresh = self.rows + self.fresh - 1, 0  # the innermost one is the pair's own
        return where == "left"

    def inf(self):
        where, self.where = self.where, "right"
        return where == "inf"

    def closes(self):
        if self.where == "left":
            self.fresh -= 1
            return self.fresh > 0
        if self.where == "right" and self.right > 0:
            self.right -= 1
        elif self.where == "right":
            self.where = "done"
        else:
            self.rows -= 1
        return True

    def conjoins(self):
        where, self.where = self.where, "row"
        return where == "done"

    def count(self):
        return self.marks // 2


class BarePair(Machine):
    """One Streett pair without brackets around it."""

    kind = "streett"

    def __init__(self, marks):
        super().__init__(marks)
        self.depth, self.left = 0, True

    def opens(self):
        self.depth += 1
        return True

    def closes(self):
        self.depth -= 1
        return self.depth >= 0

    def fin(self):
        return self.left

    def disjoins(self):
        left, self.left = self.left, False
        return left and self.depth == 0

    def inf(self):
        return not self.left

    def count(self):
        return 1


class Truth(Machine):
    """`t` or `f` in brackets."""

    def step(self, event):
        if event in ("t", "f"):
            self.kind = "buchi" if event == "t" else "rabin"
        return event in ("t", "f", "(", ")")

    def count(self):
        return 0


def machines(marks):
    if marks == 0:
        return [Truth(0)]
    return [Buchi(marks), Rabin(marks)] + [Streett(marks)] * (marks % 2 == 0) + [BarePair(2)] * (marks == 2)


class Formula:
    """The machines that still admit what was read."""

    def __init__(self, marks, limits):
        self.marks, self.limits, self.atoms = marks, limits, 0
        self.alive = machines(marks)

    def admit(self, event):
        self.alive = [machine for machine in self.alive if machine.step(event)]
        if not self.alive:
            raise Fault(SUBSET, self.words(event))
        self.atoms += isinstance(event, int)
        if event == "|" and self.alive[0].kind == "rabin" and self.alive[0].count() == self.limits.pairs:
            raise Fault(LIMIT, f"{self.limits.pairs} Rabin pairs at most")

    def words(self, event):
        if isinstance(event, int):
            return f"the marks of a formula stand in order, mark {self.atoms} should stand here"
        if event == "!":
            return "marks are not negated in a formula that is read"
        if event == "word":
            return "the atoms of a formula are Fin and Inf"
        return f"no formula of the three kinds with {self.marks} mark{'s' * (self.marks != 1)} goes on like this"

    def condition(self):
        machine = self.alive[0]
        needs = machine.pairs if machine.kind == "rabin" and self.marks else []
        return machine.kind, machine.count(), (needs + 8 * [0])[: max(8, len(needs))]


# ---- labels as sets of valuations -----------------------------------------------------------------------------------------------


class Label:
    """What an edge's label says so far: for each open bracket the set of its finished alternatives, of the one at hand, and whether the next factor is negated."""

    def __init__(self, propositions):
        self.full = (1 << (1 << propositions)) - 1
        self.truth = [self.valuations(i, propositions) for i in range(propositions)]
        self.frames = [[0, self.full, False]]

    @staticmethod
    def valuations(proposition, propositions):
        return sum(1 << v for v in range(1 << propositions) if v >> proposition & 1)

    def level(self):
        return len(self.frames) - 1

    def negate(self):
        self.frames[-1][2] ^= True

    def open(self):
        self.frames.append([0, self.full, False])

    def factor(self, valuations):
        frame = self.frames[-1]
        frame[1] &= self.full ^ valuations if frame[2] else valuations
        frame[2] = False

    def alternative(self):
        self.frames[-1][:2] = [self.value(), self.full]

    def value(self):
        return self.frames[-1][0] | self.frames[-1][1]

    def close(self):
        valuations = self.value()
        self.frames.pop()
        self.factor(valuations)


# ---- the table of faults --------------------------------------------------------------------------------------------------------

ONCE = (b"States", b"Start", b"AP", b"Acceptance", b"acc-name", b"tool", b"name")
Edge = namedtuple("Edge", "target marks place")


def is_item(token):
    """Whether section 2 admits the token where an item may begin."""
    return token.kind == "--BODY--" or token.kind == "HEADER" and token.value not in (b"HOA", b"State")


class Reader:
    """Where a reader of the tokens so far stands. `expect` names the method that takes the next token; it raises Fault if the token is faulty there."""

    def __init__(self, limits=LIMITS):
        self.limits, self.expect = limits, "hoa"
        self.came = set()  # items that came
        self.states = self.start = self.propositions = None
        self.names = []
        self.formula, self.condition = None, None
        self.rows = {}  # state: edges that are kept, in the order of the text
        self.state_names = {}  # state: the bytes between the quotes in its row
        self.kept, self.largest = 0, 0  # edges; the largest of the start, the rows and the targets

    def take(self, token):
        if token.kind == "--ABORT--" and self.expect not in ("hoa", "behind_end"):
            raise Fault(SUBSET, "the text was given up by the tool that wrote it")
        getattr(self, self.expect)(token)

    def need(self, token, kinds, words):
        if token.kind not in kinds:
            raise syntax(words)

    # -- items

    def hoa(self, token):
        if (token.kind, token.value) != ("HEADER", b"HOA"):
            raise syntax("a text begins with `HOA:`")
        self.expect = "version"

    def version(self, token):
        self.need(token, ["WORD"], "the version should stand here: `v1`")
        if token.value != b"v1":
            raise Fault(SUBSET, "only version v1 is read")
        self.expect = "item"

    def item(self, token):
        if not is_item(token):
            raise syntax("a header item or `--BODY--` should stand here")
        if token.kind == "--BODY--":
            return self.body()
        name = token.value
        if name == b"Alias":
            raise Fault(SUBSET, "aliases are not read")
        if name in self.came:
            raise Fault(SUBSET, f"`{name.decode()}:` comes a second time")
        if name in ONCE:
            self.came.add(name)
            self.expect = name.decode().lower().replace("-", "_") + "_item"
        elif name == b"properties":
            self.expect = "properties"
        elif name[:1].isupper():
            raise Fault(SUBSET, "an item that is not known and begins with a capital letter may change what the text means")
        else:
            self.expect = "other_item"

    def states_item(self, token):
        self.need(token, ["INT"], "how many states there are should stand here")
        if token.value == 0:
            raise Fault(SUBSET, "there are no states, a table has at least one")
        if self.start is not None and token.value <= self.start:
            raise Fault(SUBSET, f"the start is {self.start}, so there are at least {self.start + 1} states")
        if token.value > self.limits.states:
            raise Fault(LIMIT, f"{self.limits.states} states at most")
        self.states, self.expect = token.value, "item"

    def state(self, token):
        """A number that must be a state's: of the start, a row or a target."""
        if self.states is not None and token.value >= self.states:
            raise Fault(SUBSET, f"no such state: the states are 0 to {self.states - 1}")
        if token.value > self.limits.states - 1:
            raise Fault(LIMIT, f"{self.limits.states} states at most, and they are numbered from 0")
        self.largest = max(self.largest, token.value)
        return token.value

    def start_item(self, token):
        self.need(token, ["INT"], "the start should stand here")
        self.start, self.expect = self.state(token), "behind_start"

    def behind_start(self, token):
        if token.kind == "&":
            raise Fault(SUBSET, "a start of several states at once is not read")
        self.item(token)

    def ap_item(self, token):
        self.need(token, ["INT"], "how many propositions there are should stand here")
        if token.value > self.limits.propositions:
            raise Fault(LIMIT, f"{self.limits.propositions} propositions at most")
        self.propositions, self.expect = token.value, "ap_name"

    def ap_name(self, token):
        if token.kind == "STRING":
            if len(self.names) == self.propositions:
                raise Fault(SUBSET, f"`AP:` says {self.propositions}, here is one more name")
            if token.value in self.names:
                raise Fault(SUBSET, "two propositions have the same name")
            self.names.append(token.value)
        elif is_item(token) and len(self.names) < self.propositions:
            raise Fault(SUBSET, f"`AP:` says {self.propositions}, and {len(self.names)} names stand there")
        else:
            self.item(token)

    def acc_name_item(self, token):
        self.need(token, ["WORD"], "the acceptance's name should stand here")
        self.expect = "acc_name_more"

    def acc_name_more(self, token):
        if token.kind not in ("WORD", "INT"):
            self.item(token)

    def tool_item(self, token):
        self.need(token, ["STRING"], "the tool's name should stand here, in quotes")
        self.expect = "tool_version"

    def tool_version(self, token):
        if token.kind == "STRING":
            self.expect = "item"
        else:
            self.item(token)

    def name_item(self, token):
        self.need(token, ["STRING"], "a name should stand here, in quotes")
        self.expect = "item"

    def properties(self, token):
        if token.kind != "WORD":
            self.item(token)

    def other_item(self, token):
        if token.kind not in ("WORD", "INT", "STRING"):
            self.item(token)

    # -- the formula

    def acceptance_item(self, token):
        self.need(token, ["INT"], "how many marks there are should stand here")
        if token.value > self.limits.marks:
            raise Fault(LIMIT, f"{self.limits.marks} marks at most")
        self.formula, self.depth, self.expect = Formula(token.value, self.limits), 0, "operand"

    def operand(self, token):
        self.need(token, ["WORD", "("], "a part of the formula should stand here")
        if token.kind == "(":
            self.formula.admit("(")
            self.depth += 1
        elif token.value in (b"t", b"f"):
            self.formula.admit(token.value.decode())
            self.expect = "operator"
        else:
            self.formula.admit(token.value.decode() if token.value in (b"Fin", b"Inf") else "word")
            self.expect = "atom_opens"

    def atom_opens(self, token):
        self.need(token, ["("], "`(` and a mark should stand here")
        self.expect = "atom_mark"

    def atom_mark(self, token):
        self.need(token, ["INT", "!"], "a mark should stand here")
        self.formula.admit("!" if token.kind == "!" else token.value)
        self.expect = "atom_closes"

    def atom_closes(self, token):
        self.need(token, [")"], "`)` should stand here")
        self.expect = "operator"

    def operator(self, token):
        if token.kind in ("&", "|"):
            self.formula.admit(token.kind)
            self.expect = "operand"
        elif token.kind == ")" and self.depth > 0:
            self.formula.admit(")")
            self.depth -= 1
        elif self.depth == 0 and is_item(token):
            if self.formula.atoms < self.formula.marks:
                raise Fault(SUBSET, f"the formula ends here, with {self.formula.atoms} of its {self.formula.marks} marks")
            self.condition = self.formula.condition()
            self.item(token)
        else:
            raise syntax("the formula can't go on like this")

    # -- rows

    def body(self):
        for name in (b"Start", b"Acceptance"):
            if name not in self.came:
                raise Fault(SUBSET, f"`{name.decode()}:` is missing")
        self.expect = "row"

    def row(self, token):
        if (token.kind, token.value) == ("HEADER", b"State"):
            if self.states is not None and len(self.rows) == self.states:
                raise Fault(SUBSET, f"{self.states} states have their rows already")
            self.expect = "row_state"
        elif token.kind == "--END--":
            self.end()
        else:
            raise syntax("`State:` or `--END--` should stand here")

    def row_state(self, token):
        self.need(token, ["INT", "["], "a state should stand here")
        if token.kind == "[":
            raise Fault(SUBSET, "labels on states are not read, only labels on edges")
        if token.value in self.rows:
            raise Fault(SUBSET, "this state has a row already")
        self.at = self.state(token)
        self.edges = self.rows[self.at] = []
        self.row_marks, self.edge_marks, self.expect = 0, None, "row_name"

    def row_name(self, token):
        if token.kind == "STRING":
            self.state_names[self.at], self.expect = token.value, "row_sig"
        else:
            self.row_sig(token)

    def row_sig(self, token):
        if token.kind == "{":
            self.expect = "mark"
        else:
            self.edge(token)

    def mark(self, token):
        """Inside a sig: of the row while no edge has begun, else of the edge at hand."""
        self.need(token, ["INT", "}"], "a mark or `}` should stand here")
        if token.kind == "}":
            self.keep_edge()
            self.expect = "edge"
        elif token.value >= self.formula.marks:
            raise Fault(SUBSET, f"no such mark: {self.used_marks()}")
        elif self.edge_marks is None:
            self.row_marks |= 1 << token.value
        else:
            self.edge_marks |= 1 << token.value

    def used_marks(self):
        return "there are none" if self.formula.marks == 0 else f"the marks are 0 to {self.formula.marks - 1}"

    def edge(self, token):
        if token.kind == "[":
            self.label, self.place, self.expect = Label(self.propositions or 0), token.place, "factor"
        elif token.kind == "INT":
            raise Fault(SUBSET, "an edge has its label in front, as `[t]`")
        else:
            self.row(token)

    def factor(self, token):
        label = self.label
        if token.kind == "WORD" and token.value in (b"t", b"f"):
            label.factor(label.full if token.value == b"t" else 0)
            self.expect = "behind_factor"
        elif token.kind == "INT":
            if token.value >= len(label.truth):
                raise Fault(SUBSET, f"no such proposition: {f'they are 0 to {len(label.truth) - 1}' if label.truth else 'there are none'}")
            label.factor(label.truth[token.value])
            self.expect = "behind_factor"
        elif token.kind == "ANAME":
            raise Fault(SUBSET, "aliases are not read")
        elif token.kind == "!":
            label.negate()
        elif token.kind == "(":
            if label.level() == self.limits.levels:
                raise Fault(LIMIT, f"{self.limits.levels} open brackets in a label at most")
            label.open()
        else:
            raise syntax("a part of the label should stand here")

    def behind_factor(self, token):
        if token.kind in ("&", "|"):
            if token.kind == "|":
                self.label.alternative()
            self.expect = "factor"
        elif token.kind == ")" and self.label.level() > 0:
            self.label.close()
        elif token.kind == "]" and self.label.level() == 0:
            if self.label.value() and self.kept == self.limits.edges:
                raise Fault(LIMIT, f"{self.limits.edges} edges at most")
            self.expect = "target"
        else:
            raise syntax("the label can't go on like this")

    def target(self, token):
        self.need(token, ["INT"], "the state at which the edge arrives should stand here")
        self.arrives, self.edge_marks, self.expect = self.state(token), 0, "behind_target"

    def behind_target(self, token):
        if token.kind == "&":
            raise Fault(SUBSET, "an edge to several states at once is not read")
        if token.kind == "{":
            self.expect = "mark"
        else:
            self.keep_edge()
            self.edge(token)

    def keep_edge(self):
        """The edge at hand is whole, if there is one."""
        if self.edge_marks is not None and self.label.value():
            self.edges.append(Edge(self.arrives, self.row_marks | self.edge_marks, self.place))
            self.kept += 1
        self.edge_marks = None

    def end(self):
        if self.states is not None and len(self.rows) < self.states:
            raise Fault(SUBSET, f"{self.states} states, and {len(self.rows)} of them have rows")
        if self.largest >= len(self.rows):
            raise Fault(SUBSET, f"state {self.largest} is named, and there are {len(self.rows)} rows")
        self.expect = "behind_end"

    def behind_end(self, token):
        if (token.kind, token.value) == ("HEADER", b"HOA"):
            raise Fault(SUBSET, "one automaton a text, here a second one begins")
        self.need(token, ["FINISH"], "something stands behind the end")
        self.expect = "done"

    # -- what comes back

    def table(self):
        kind, count, needs = self.condition
        edges = [(state, edge.target, edge.marks) for state in sorted(self.rows) for edge in self.rows[state]]
        return {"states": len(self.rows), "start": self.start, "kind": kind, "count": count, "needs": needs, "edges": edges}

    def edge_places(self):
        """For each edge of the table the byte where it stands in the text."""
        return [edge.place for state in sorted(self.rows) for edge in self.rows[state]]


def read_tokens(some, limits=LIMITS):
    """The reader behind these tokens; raises Refused."""
    reader = Reader(limits)
    for token in some:
        try:
            reader.take(token)
        except Fault as fault:
            number, words = fault.args
            if token.kind == "BAD":
                words = token.value
            elif token.kind == "FINISH":
                words = f"the text ends: {words}"
            raise Refused(number, token.place, words) from None
    return reader


def read(text, limits=LIMITS):
    """The table that a text stands for; raises Refused."""
    return read_tokens(tokens(text), limits).table()


# ---- the writer -----------------------------------------------------------------------------------------------------------------


def formula_of(kind, count, needs):
    """The formula in the one layout that is written, and how many marks it has."""
    if count == 0:
        return ("f" if kind == "rabin" else "t"), 0
    if kind == "buchi":
        return "&".join(f"Inf({i})" for i in range(count)), count
    if kind == "streett":
        return "&".join(f"(Fin({2 * i})|Inf({2 * i + 1}))" for i in range(count)), 2 * count
    pairs, mark = [], 0
    for need in needs[:count]:
        pairs.append("&".join([f"Fin({mark})"] + [f"Inf({i})" for i in range(mark + 1, mark + 1 + need)]))
        mark += 1 + need
    return "|".join(f"({pair})" for pair in pairs), mark


def written(table):
    """The text of a table that rows 1 to 7 do not refuse."""
    formula, marks = formula_of(table["kind"], table["count"], table["needs"])
    lines = ["HOA: v1", f"States: {table['states']}", f"Start: {table['start']}", "AP: 0", f"Acceptance: {marks} {formula}", "--BODY--"]
    for state in range(table["states"]):
        lines.append(f"State: {state}")
        for leaves, arrives, bits in table["edges"]:
            if leaves == state:
                own = " ".join(str(i) for i in range(32) if bits >> i & 1)
                lines.append(f"[t] {arrives}" + (f" {{{own}}}" if own else ""))
    return "".join(line + "\n" for line in lines + ["--END--"]).encode()
