"""A table with its run as DOT, the text from which Graphviz draws. Used by tools/launch/picture.py; not a command by itself.

What is a run stands in the printed answer; here it is only coloured. What is told by a colour is told by a line's width and dashes too.
"""

import textwrap
from collections import namedtuple
from html import escape

import condition_words
from answers import STOP, numbers_of

MOST_STATES = 60  # of a table that is drawn whole
MOST_PLACES = 6  # in the run that are named of one edge
FAR = 3  # edges from the start to the farthest state, above which a picture goes down the page and not across
NAME_WIDE, NAME_LINES = 20, 4  # of a state's name
MARKS_WIDE = 8  # marks in a line

BLUE, ORANGE, GREY, BLACK = "#0072b2", "#d55e00", "#999999", "#333333"
EDGES = {  # how an edge is drawn, by its part in the run
    "other": {"color": BLACK},
    "grey": {"color": GREY, "fontcolor": GREY},
    "prefix": {"color": BLUE, "style": "dashed", "penwidth": "2.2"},
    "cycle": {"color": ORANGE, "penwidth": "3.2"},
    "both": {"color": f"{BLUE}:white:{ORANGE}", "penwidth": "2.2"},
}
HEAD = """\
digraph picture {
  graph [fontname="Helvetica,Arial,sans-serif", fontsize=13, labelloc=t, labeljust=l, pad=0.2]
  node [shape=box, style=rounded, fontname="Helvetica,Arial,sans-serif", fontsize=13, margin="0.14,0.08"]
  edge [fontname="Helvetica,Arial,sans-serif", fontsize=11, arrowsize=0.8]
"""
ACROSS, DOWN = "rankdir=LR, nodesep=0.45, ranksep=0.7", "rankdir=TB, nodesep=0.3, ranksep=0.35"

# An edge as it is drawn; `first` and `again`: its places in the prefix and in the cycle. A waiting edge has the number STOP.
Arrow = namedtuple("Arrow", "number leaves arrives marks first again")

# What is drawn: states and edges; of the states those without edges, those that are never reached and those of the run; whether the picture goes down the page.
Drawn = namedtuple("Drawn", "states arrows stop grey walked down")


# ---- what is drawn -------------------------------------------------------------------------------------------------------------------


def places_of(table, prefix, cycle):
    """For each edge of the run and the state that it leaves, its places in the prefix and in the cycle, counted from 1 through both."""
    places, at = {}, table["start"]
    for place, edge in enumerate(prefix + cycle, 1):
        leaves, arrives = (at, at) if edge == STOP else table["edges"][edge][:2]
        places.setdefault((edge, leaves), ([], []))[place > len(prefix)].append(place)
        at = arrives
    return places


def arrows_of(table, places):
    """All edges of the table, then the waiting edges of the run."""
    edges = [(number, *edge) for number, edge in enumerate(table["edges"])]
    waiting = [(STOP, state, state, 0) for edge, state in places if edge == STOP]
    return [Arrow(*edge, *places.get(edge[:2], ([], []))) for edge in edges + waiting]


def distances(table):
    """How many edges each state that can be reached is away from the start."""
    arrives = {}
    for leaves, to, _ in table["edges"]:
        arrives.setdefault(leaves, []).append(to)
    away, todo = {table["start"]: 0}, [table["start"]]
    for state in todo:  # which grows as states are met
        for to in arrives.get(state, []):
            if to not in away:
                away[to] = away[state] + 1
                todo.append(to)
    return away


def part_of(table, arrows, touched):
    """The states and edges that are drawn: all of a small table; of a large one what the run touches, and its neighbours."""
    if table["states"] <= MOST_STATES:
        return range(table["states"]), arrows
    near = [arrow for arrow in arrows if {arrow.leaves, arrow.arrives} & touched]
    return sorted(touched.union(*({arrow.leaves, arrow.arrives} for arrow in near))), near


def drawn_of(table, prefix, cycle):
    places = places_of(table, prefix, cycle)
    touched = {table["start"]} | {state for _, state in places}
    states, arrows = part_of(table, arrows_of(table, places), touched)
    away = distances(table)
    stop, grey = set(states) - {edge[0] for edge in table["edges"]}, set(states) - set(away)
    return Drawn(states, arrows, stop, grey, touched if places else set(), max(away.get(state, 0) for state in states) > FAR)


# ---- the title -----------------------------------------------------------------------------------------------------------------------

VERDICTS = {b"run": "run: an endless run meets the condition", b"empty": "empty: no endless run meets the condition"}


def coloured(colour, words):
    return f'<FONT COLOR="{colour}">{words}</FONT>'


def run_lines(prefix, cycle):
    """How the run's edges are drawn."""
    lines = []
    if prefix:
        lines.append(coloured(BLUE, f"blue, dashed: {condition_words.in_a_row('step', 1, len(prefix))}, once"))
    if cycle:
        how = "a halt for ever" if STOP in cycle else "round and round"
        lines.append(coloured(ORANGE, f"<B>orange, wide: {condition_words.in_a_row('step', len(prefix) + 1, len(cycle))}, {how}</B>"))
    if set(prefix) & set(cycle):
        lines.append("blue and orange side by side: an edge of both")
    return lines


def part_line(table, verdict, states, arrows):
    """What is left out of a large table."""
    what = "what the run touches and its neighbours" if verdict == b"run" else "the start and its neighbours"
    edges = sum(arrow.number != STOP for arrow in arrows)
    return f"only {what}: {len(states)} of {table['states']} states, {edges} of {len(table['edges'])} edges"


def title(table, answer, drawn):
    """The lines above the picture, as markup."""
    lines = [f'<FONT POINT-SIZE="17"><B>{VERDICTS[answer[b"verdict"]]}</B></FONT>'] + [escape(words) for words in condition_words.lines(table)]
    if answer[b"pair"] != b"-":
        lines.append(f"<B>pair {int(answer[b'pair'])} is met</B>")
    lines += run_lines(numbers_of(answer[b"prefix"]), numbers_of(answer[b"cycle"]))
    if drawn.stop:
        lines.append("double octagon: a stop state, no edge leaves it")
    if drawn.grey:
        lines.append("grey, dotted: never reached")
    if len(drawn.states) < table["states"]:
        lines.append(part_line(table, answer[b"verdict"], drawn.states, drawn.arrows))
    return "".join(f'{line}<BR ALIGN="LEFT"/>' for line in lines)


# ---- states and edges ----------------------------------------------------------------------------------------------------------------


def attributes(pairs):
    """Attributes in DOT; what begins with `<` is markup, all else a plain word."""
    return "[" + ", ".join(f"{key}={value}" if value.startswith("<") else f'{key}="{value}"' for key, value in pairs.items()) + "]"


def state_line(state, name, drawn):
    words = [f"<B>{state}</B>"] + [escape(line) for line in textwrap.wrap(name, NAME_WIDE, max_lines=NAME_LINES, placeholder=" ..")]
    look = {"id": f"state{state}", "label": f"<{'<BR/>'.join(words)}>"}
    if state in drawn.stop:
        look |= {"shape": "octagon", "peripheries": "2", "style": "solid"}
    if state in drawn.walked:
        look |= {"penwidth": "2"}
    if state in drawn.grey:
        look |= {"color": GREY, "fontcolor": GREY, "style": "dotted"}
    return f"  {state} {attributes(look)}\n"


def marks_text(bits):
    marks = [str(mark) for mark in range(bits.bit_length()) if bits >> mark & 1]
    lines = [",".join(marks[at : at + MARKS_WIDE]) for at in range(0, len(marks), MARKS_WIDE)]
    return f" <B>{{{',<BR/>'.join(lines)}}}</B>" if marks else ""


def places_text(places):
    return ", ".join(map(str, places[:MOST_PLACES])) + (f", .. ({len(places)} times)" if len(places) > MOST_PLACES else "")


def edge_label(arrow):
    """The places in the run, framed for the prefix and on a ground of their own for the cycle; then number and marks."""
    cells = ""
    if arrow.first:
        cells += f'<TD BORDER="1" COLOR="{BLUE}">{coloured(BLUE, f"<B>{places_text(arrow.first)}</B>")}</TD>'
    if arrow.again:
        cells += f'<TD BGCOLOR="{ORANGE}">{coloured("white", f"<B>{places_text(arrow.again)}</B>")}</TD>'
    cells += f"<TD>{'stop' if arrow.number == STOP else f'edge {arrow.number}'}{marks_text(arrow.marks)}</TD>"
    return f'<<TABLE BORDER="0" CELLSPACING="1" CELLPADDING="2"><TR>{cells}</TR></TABLE>>'


def edge_line(arrow, grey):
    part = "both" if arrow.first and arrow.again else "prefix" if arrow.first else "cycle" if arrow.again else "grey" if grey else "other"
    name = f"stop{arrow.leaves}" if arrow.number == STOP else f"edge{arrow.number}"
    look = {"id": name, "class": part, "label": edge_label(arrow)} | EDGES[part]
    return f"  {arrow.leaves} -> {arrow.arrives} {attributes(look)}\n"


def dot_text(table, answer, names):
    """The picture of a table and the run in its answer, the fields that were printed; `names`: words for states."""
    drawn = drawn_of(table, numbers_of(answer[b"prefix"]), numbers_of(answer[b"cycle"]))
    lines = [
        f"  graph [{DOWN if drawn.down else ACROSS}, label=<{title(table, answer, drawn)}>]\n",
        '  start [id="start", shape=plaintext, label="start", margin=0.05]\n',
        f"  start -> {table['start']} [id=\"begin\", weight=4]\n",
    ]
    lines += [state_line(state, names.get(state, ""), drawn) for state in drawn.states]
    lines += [edge_line(arrow, arrow.leaves in drawn.grey) for arrow in drawn.arrows]
    return HEAD + "".join(lines) + "}\n"
