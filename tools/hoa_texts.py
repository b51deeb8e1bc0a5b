"""The texts in the Hanoi format that the reader is tried on, each with what was worked out for it by hand. Not a command by itself: tools/hoa_vectors.py stores and runs them.

In a text that is to be refused, `<<` stands in front of the faulty token; it is taken out, and its place is the place of the refusal.
"""

from hoa_reader import LONGEST

TEXTS = []  # (name, text, refusal or None, what the result line must begin with)
MARK = b"<<"


def as_bytes(text):
    return text if isinstance(text, bytes) else text.encode()


def accepted(name, text, expected="table "):
    """A text that is read; `expected`: how its result line begins, as far as it was worked out by hand."""
    TEXTS.append((name, as_bytes(text), None, expected))


def refused(name, number, text):
    """A text that is refused, at its mark."""
    text = as_bytes(text)
    assert text.count(MARK) == 1, name
    TEXTS.append((name, text.replace(MARK, b""), (number, text.index(MARK)), f"refused {number} {text.index(MARK)}"))


ROWS = "State: 0\n[0] 1 {0}\n[!0] 0\nState: 1\n[t] 0\n"


def automaton(states="States: 2\n", start="Start: 0\n", ap='AP: 1 "a"\n', acc="Acceptance: 1 Inf(0)\n", more="", body=ROWS, end="--END--\n"):
    return f"HOA: v1\n{states}{start}{ap}{acc}{more}--BODY--\n{body}{end}"


def with_body(body, **more):
    return automaton(body=body, **more)


def with_formula(marks, formula):
    """One state with a loop, under a formula."""
    return automaton(states="States: 1\n", ap="", acc=f"Acceptance: {marks} {formula}\n", body="State: 0 [t] 0\n")


def with_label(label, propositions=2):
    """One state with a loop under a label."""
    names = " ".join(f'"p{i}"' for i in range(propositions))
    return automaton(states="States: 1\n", ap=f"AP: {propositions} {names}\n", acc="Acceptance: 0 t\n", body=f"State: 0\n[{label}] 0\n")


# ---- layouts of the well-known tools ---------------------------------------------------------------------------------------------------

SPOT_STATES = '''\
HOA: v1
name: "G(request -> Fgrant)"
States: 2
Start: 0
AP: 2 "request" "grant"
acc-name: Buchi
Acceptance: 1 Inf(0)
properties: trans-labels explicit-labels state-acc complete
properties: deterministic stutter-invariant
--BODY--
State: 0 {0}
[!0 | 1] 0
[0&!1] 1
State: 1
[1] 0
[!1] 1
--END--
'''

SPOT_EDGES = '''\
HOA: v1
name: "GFa & GFb"
States: 1
Start: 0
AP: 2 "a" "b"
acc-name: generalized-Buchi 2
Acceptance: 2 Inf(0)&Inf(1)
properties: trans-labels explicit-labels trans-acc complete
properties: deterministic stutter-invariant
--BODY--
State: 0
[!0&!1] 0
[0&!1] 0 {0}
[!0&1] 0 {1}
[0&1] 0 {0 1}
--END--
'''

SPOT_STREETT = '''\
HOA: v1
States: 2
Start: 0
AP: 2 "ask" "serve"
acc-name: Streett 2
Acceptance: 4 (Fin(0) | Inf(1)) & (Fin(2) | Inf(3))
properties: trans-labels explicit-labels trans-acc complete
properties: deterministic
--BODY--
State: 0
[0] 1 {0}
[!0] 0
State: 1
[1] 0 {1 2}
[!1] 1 {0}
--END--
'''

SPOT_GENERALIZED_RABIN = '''\
HOA: v1
States: 2
Start: 0
AP: 2 "a" "b"
acc-name: generalized-Rabin 2 1 2
Acceptance: 5 (Fin(0) & Inf(1)) | (Fin(2) & (Inf(3)&Inf(4)))
properties: trans-labels explicit-labels trans-acc
--BODY--
State: 0
[0] 0 {0 3}
[!0&1] 1 {1}
State: 1 "sink"
[t] 1 {0 3 4}
--END--
'''

OWL = '''\
HOA: v1
tool: "owl ltl2dra" "21.0"
name: "Automaton for F(G(a))"
owlArgs: "ltl2dra" "-f" "F G a"
Start: 0
acc-name: Rabin 1
Acceptance: 2 Fin(0) & Inf(1)
properties: trans-acc no-univ-branch
properties: deterministic unambiguous
properties: complete
AP: 1 "a"
--BODY--
State: 1 "a, [G a]"
[0] 1 {1}
[!0] 0 {0}
State: 0 "F G a"
[!0] 0
[0] 1
--END--
'''

OWL_PARITY = OWL.replace("Rabin 1", "parity min even 3").replace("2 Fin(0) & Inf(1)", "3 Fin(0) & (Inf(1) <<| Fin(2))")

LTL3BA = '''\
HOA: v1
tool: "ltl3ba" "1.1.3"
name: "BA for G(F(p))"
States: 2
Start: 0
acc-name: Buchi
Acceptance: 1 Inf(0)
AP: 1 "p"
properties: trans-labels explicit-labels state-acc no-univ-branch
--BODY--
State: 0 "accept_init" {0}
  [(0)] 0
  [(!0)] 1
State: 1 "T0_S1"
  [t] 1
  [(0)] 0
--END--
'''

RABINIZER = '''\
HOA: v1
tool: "Rabinizer" "3.1"
name: "Automaton for (FG(a)) | (GF(b))"
properties: deterministic
properties: complete
States: 2
Start: 0
acc-name: Rabin 2
Acceptance: 4 (Fin(0)&Inf(1))|(Fin(2)&Inf(3))
AP: 2 "a" "b"
--BODY--
State: 0 "<>[]a | []<>b" /* 0 */
[0 & 1] 1 {1 3}
[0 & !1] 1 {1}
[!0 & 1] 0 {0 3}
[!0 & !1] 0 {0}
State: 1 "<>[]a" /* 1 */
[0] 1 {1}
[!0] 0 {0}
--END--
'''

LTL2DSTAR = '''\
HOA: v1 /* implicit labels: one edge for each valuation, in order */
States: 2
properties: implicit-labels state-acc no-univ-branch deterministic complete
acc-name: Rabin 1
Acceptance: 2 (Fin(0) & Inf(1))
Start: 0
AP: 1 "p"
--BODY--
State: 0 {0}
<<0
1
State: 1 {1}
0
1
--END--
'''

HAND = '''\
/* the charger of hall 2,
   /* drawn on a napkin */ and typed in */
HOA:v1
Acceptance:2(((Fin(0)))|(Inf(1)))name:"asked \\"again\\" /* and */ again"
\tStart:\t1 AP:3"ask""serve""ask again"
note: "served within" 5 minutes _x-y
--BODY--State:1"waits"{0}[0|!1&(2)]0{1 1}[0&!0]1
State:0[t]0[!(0|1)|2&t]1{}/**/--END--/* done */
'''

HAND_CRLF = SPOT_STATES.replace("\n", "\r\n")
ONE_LINE = SPOT_EDGES.replace("\n", " ")


def layouts():
    needs0 = "0,0,0,0,0,0,0,0"
    accepted("Spot, marks on states", SPOT_STATES, f"table 2 0 buchi 1 {needs0} 4 ")
    accepted("Spot, marks on edges", SPOT_EDGES, f"table 1 0 buchi 2 {needs0} 4 ")
    accepted("Spot, Streett", SPOT_STREETT, f"table 2 0 streett 2 {needs0} 4 ")
    accepted("Spot, generalized Rabin", SPOT_GENERALIZED_RABIN, "table 2 0 rabin 2 1,2,0,0,0,0,0,0 3 ")
    accepted("Spot, on one line", ONE_LINE, f"table 1 0 buchi 2 {needs0} 4 ")
    accepted("Spot, CR LF", HAND_CRLF, f"table 2 0 buchi 1 {needs0} 4 ")
    accepted("Spot, marks on states and edges", SPOT_STATES.replace("[1] 0", "[1] 0 {0}"), f"table 2 0 buchi 1 {needs0} 4 ")
    accepted("Spot, small: any state first", SPOT_STATES.replace("Start: 0", "Start: 1"), f"table 2 1 buchi 1 {needs0} 4 ")
    accepted("Spot, co-Buchi", SPOT_STATES.replace("acc-name: Buchi\nAcceptance: 1 Inf(0)", "acc-name: co-Buchi\nAcceptance: 1 Fin(0)"), f"table 2 0 rabin 1 {needs0} 4 ")
    accepted("Spot, all runs", SPOT_EDGES.replace("generalized-Buchi 2", "all").replace("2 Inf(0)&Inf(1)", "0 t").replace(" {0}", "").replace(" {1}", "").replace(" {0 1}", ""),
             f"table 1 0 buchi 0 {needs0} 4 ")
    accepted("Spot, no run", automaton(acc="acc-name: none\nAcceptance: 0 f\n", body="State: 0\n[0] 1\nState: 1\n[t] 0\n"), f"table 2 0 rabin 0 {needs0} 2 ")
    accepted("Owl, without States", OWL, "table 2 0 rabin 1 1,0,0,0,0,0,0,0 4 ")
    accepted("ltl3ba", LTL3BA, f"table 2 0 buchi 1 {needs0} 4 ")
    accepted("Rabinizer", RABINIZER, "table 2 0 rabin 2 1,1,0,0,0,0,0,0 6 ")
    accepted("by hand, comments and odd spacing", HAND, f"table 2 1 streett 1 {needs0} 3 ")
    refused("Owl, parity", 41, OWL_PARITY)
    refused("ltl2dstar, implicit labels", 41, LTL2DSTAR)
    refused("Spot, implicit labels", 41, SPOT_STATES.replace("[!0 | 1] 0", "<<0"))
    refused("Spot, labels on states", 41, SPOT_STATES.replace("State: 0 {0}", "State: <<[0] 0 {0}"))
    refused("Spot, aliases", 41, SPOT_STATES.replace("--BODY--", "<<Alias: @p !0 | 1\n--BODY--"))
    refused("Spot, two automata", 41, SPOT_STATES + "<<" + SPOT_EDGES)
    refused("Spot, given up", 41, SPOT_STATES.replace("State: 1\n", "<<--ABORT--\n"))
    refused("Spot, alternating", 41, SPOT_STATES.replace("[!1] 1", "[!1] 1<<&0"))
    refused("Spot, several starts", 41, SPOT_STATES.replace("Start: 0", "Start: 0\n<<Start: 1"))
    refused("Spot, a start of two states at once", 41, SPOT_STATES.replace("Start: 0", "Start: 0<<&1"))
    refused("Spot, either mark", 41, SPOT_EDGES.replace("Inf(0)&Inf(1)", "Inf(0)<<|Inf(1)"))
    refused("version 1.1", 40, SPOT_STATES.replace("HOA: v1", "HOA: v1<<.1"))
    refused("version 2", 41, SPOT_STATES.replace("v1", "<<v2"))
    refused("version 1.1's negated properties", 40, SPOT_STATES.replace("properties: deterministic", "properties: <<!deterministic"))
    refused("Spot's own items of version 1.1", 40, SPOT_STATES.replace("--BODY--", "spot<<.highlight.states: 0 1\n--BODY--"))
    refused("a never claim", 40, "<<never { /* F(a) */\nT0_init:\n  if\n  :: (a) -> goto accept_all\n  fi;\n}\n")
    refused("a job text", 40, "<<states=1\nstart=0\ncount=0\nneed=-\nedges=0\nend=job\n")


# ---- tokens ------------------------------------------------------------------------------------------------------------------------------


def tokens():
    refused("nothing", 40, "<<")
    refused("blanks only", 40, " \t\r\n<<")
    refused("a comment only", 40, "/* HOA: v1 */<<")
    refused("a comment that is open", 40, "<</* HOA: v1")
    refused("a comment that nests and is open", 40, " <</* a /* b */ c")
    refused("a slash", 40, "<</ HOA: v1")
    refused("a closed comment that was none", 40, "<<*/ HOA: v1")
    accepted("a comment that opens only", "/*/ HOA: v2 */ " + automaton())
    accepted("comments that nest", "/* /* */ /**/ /*/ */ */" + automaton())
    accepted("quotes in a comment", '/* " */' + automaton() + '/* """ */')
    accepted("stars in a comment", "/***/" + automaton() + "/****//** **/")
    accepted("any bytes in a comment", b"/*" + bytes(b for b in range(256) if b not in b"/*") + b"*/" + automaton().encode())
    accepted("a comment in the middle of everything", automaton().replace(" ", "/* */ /**/").replace("\n", " /*\n*/"))
    accepted("a comment in a string is none", automaton(more='name: "/* open"\n'))
    accepted("odd strings", automaton(more='name: "\\"\\\\"\ntool: "" "\\\n"\n'))
    accepted("any bytes in a string", automaton(more="name: \"@\"\n").encode().replace(b"@", bytes(b for b in range(256) if b not in b'"\\')))
    accepted("a backslash before any byte", automaton(more="name: \"@\"\n").encode().replace(b"@", b"".join(b"\\" + bytes([b]) for b in range(256))))
    refused("a string that is open", 40, automaton(more='name: <<"open\\"\n'))
    refused("a string whose last quote is escaped", 40, 'HOA: v1 name: <<"\\"')
    refused("a string that ends in a backslash", 40, 'HOA: v1 name: <<"a\\')
    refused("a string that is open at the text's end", 40, automaton() + '<<"')
    accepted("tokens that touch", automaton().replace("\n", "").replace("v1States: 2", "v1 States:2").replace("HOA: ", "HOA:").replace("State: ", "State:"))
    accepted("a number and a word that touch", automaton(more="x: 0abc 12z-9\n"))
    refused("0x1 is a number and a word", 40, automaton(states="States: 0x1\n").replace("0x1", "2<<x1"))
    refused("007 is one faulty number", 40, automaton(start="Start: <<007\n"))
    refused("00", 40, automaton(start="Start: <<00\n"))
    refused("a number of 2^31", 40, automaton(more="x: <<2147483648\n"))
    accepted("a number of 2^31 - 1", automaton(more="x: 2147483647\n"))
    refused("2^32", 40, automaton(more="x: <<4294967296\n"))
    refused("2^32 + 1", 40, automaton(start="Start: <<4294967297\n"))
    refused("2^64", 40, automaton(start="Start: <<18446744073709551616\n"))
    refused("a number of a hundred digits", 40, automaton(start=f"Start: <<{'1' * 100}\n"))
    refused("a number of 10 digits with a zero in front", 40, automaton(start="Start: <<0000000001\n"))
    refused("a sign", 40, automaton(start="Start: <<-1\n"))
    refused("a plus", 40, automaton(start="Start: <<+0\n"))
    refused("a comma in a sig", 40, with_body("State: 0 [t] 0 {0<<,0}\n"))
    refused("a fraction", 40, automaton(start="Start: 0<<.0\n"))
    refused("v1--BODY-- is one word", 41, automaton().replace("v1", "<<v1--BODY--", 1))
    refused("v1: is a header", 40, automaton().replace("v1", "<<v1:"))
    refused("States : is a word and a stray :", 40, automaton(states="<<States : 2\n"))
    refused("States/**/: too", 40, automaton(states="<<States/**/: 2\n"))
    refused("HOA : too", 40, "<<HOA : v1")
    refused("hoa:", 40, "<<hoa: v1")
    accepted("states: is another item", automaton(more="states: 0 state: 9 start: 9 acceptance: x ap: 77 hoa: v2 _A: 0 a: b:\n"))
    refused("a header with a stray : behind", 40, automaton(more="x:<<: 1\n"))
    accepted("a word may end in -", automaton(more="x: a- b-- c_-9\n"))
    refused("a header may not begin with -", 40, automaton(more="<<-x: 1\n"))
    refused("--BODY in part", 40, automaton().replace("--BODY--", "<<--BODY-"))
    refused("--body--", 40, automaton().replace("--BODY--", "<<--body--"))
    refused("-- alone", 40, automaton().replace("--BODY--", "<<--"))
    accepted("--BODY-- touches what follows", automaton().replace("--BODY--\n", "--BODY--").replace("--END--\n", "--END--"))
    refused("--END-- and more behind it", 40, automaton(end="--END--<<--\n"))
    refused("--BODY--5", 40, automaton().replace("--BODY--", "--BODY--<<5"))
    refused("@ alone", 40, with_label("<<@"))
    refused("@ and a blank", 40, with_label("0&<<@ a"))
    refused("an alias in a label", 41, with_label("<<@-a_9"))
    for name, byte in (("a form feed", b"\f"), ("a vertical tab", b"\v"), ("a NUL", b"\0"), ("byte 127", b"\x7f"), ("byte 128", b"\x80"), ("byte 255", b"\xff"),
                       ("a wide blank", b"\xc2\xa0"), ("an umlaut", "ü".encode())):
        refused(f"{name} between tokens", 40, automaton(more="<<").encode().replace(b"<<", b"<<" + byte))
    refused("a byte order mark", 40, b"<<\xef\xbb\xbf" + automaton().encode())
    refused("wide letters", 40, b"<<" + b"\xff\xfe" + automaton().encode("utf-16-le"))
    for byte in b"#$%'*+,./:;<=>?\\^`~":
        refused(f"the byte {chr(byte)} as an item", 40, automaton(more="<<@@\n").encode().replace(b"@@", bytes([byte])))


# ---- every row of the table of faults ----------------------------------------------------------------------------------------------------


def rows_of_the_table():
    refused("a text begins with something else", 40, "<<v1 HOA: v1")
    refused("given up before it begins", 40, "<<--ABORT--")
    refused("the version is missing", 40, "HOA: <<States: 2")
    refused("the version is a number", 40, "HOA: <<1")
    refused("given up behind HOA:", 41, "HOA: <<--ABORT--")
    refused("HOA: twice", 40, "HOA: <<HOA: v1")
    refused("V1", 41, automaton().replace("v1", "<<V1"))
    refused("v10", 41, automaton().replace("v1", "<<v10"))
    refused("v", 41, "HOA: <<v")
    # items
    refused("Alias:", 41, automaton(more="<<Alias: @a 0\n"))
    refused("Alias: with nothing behind", 41, automaton(more="<<Alias:\n"))
    refused("an unknown item with a capital", 41, automaton(more="<<Fairness: x\n"))
    refused("an unknown item of one capital", 41, automaton(more="<<Z: x\n"))
    accepted("unknown items", automaton(more='zebra: x 1 "y" z-1 t f v1 Inf\n_: \nzebra:\na-b_C9: 3\n'))
    refused("an unknown item with a bracket", 40, automaton(more="zebra: <<(1)\n"))
    refused("an unknown item with an alias", 40, automaton(more="zebra: <<@a\n"))
    for item in ("States: 2", "Start: 0", 'AP: 1 "a"', "Acceptance: 1 Inf(0)", "acc-name: Buchi", 'tool: "x"', 'name: "x"'):
        more = f"{item}\n<<{item}\n" if item[0] in "atn" else f"<<{item}\n"
        refused(f"{item.partition(':')[0]}: twice", 41, automaton(more=more))
    accepted("properties: three times", automaton(more="properties:\nproperties: a b-c t\nproperties: a\n"))
    accepted("a lower-case item twice", automaton(more="x: 1\nx: 1\n"))
    refused("HOA: among the items", 40, automaton(more="<<HOA: v1\n"))
    refused("State: among the items", 40, automaton(more="<<State: 0\n"))
    refused("a word among the items", 40, automaton(more='name: "x" <<y\n'))
    refused("a bracket among the items", 40, automaton(more="<<{0}\n"))
    refused("--END-- among the items", 40, automaton(more="<<--END--\n"))
    refused("given up among the items", 41, automaton(more="<<--ABORT--\n"))
    # States, Start
    refused("States: without a number", 40, automaton(states="States: <<Start: 0\n", start=""))
    refused("States: 0", 41, automaton(states="States: <<0\n"))
    refused("States: not above the start", 41, automaton(states="", start="Start: 1\nStates: <<1\n"))
    accepted("States: one above the start", automaton(states="", start="Start: 1\nStates: 2\n"), "table 2 1 ")
    refused("States: two numbers", 40, automaton(states="States: 2 <<3\n"))
    refused("Start: without a number", 40, automaton(start="Start: <<x\n"))
    refused("Start: not below n", 41, automaton(start="Start: <<2\n"))
    refused("Start: far from below n", 41, automaton(states="States: 5\n", start="Start: <<300\n"))
    refused("Start: & ", 41, automaton(start="Start: 1 <<& 0\n"))
    refused("Start: & and nothing", 41, automaton(start="Start: 0<<&\n"))
    refused("Start: two numbers", 40, automaton(start="Start: 0 <<1\n"))
    refused("Start: |", 40, automaton(start="Start: 0 <<| 1\n"))
    refused("Start: a mark", 40, automaton(start="Start: <<{0}\n"))
    # AP
    refused("AP: without a number", 40, automaton(ap='AP: <<"a"\n'))
    refused("AP: a name too many", 41, automaton(ap='AP: 1 "a" <<"b"\n'))
    refused("AP: a name where there are none", 41, automaton(ap='AP: 0 <<"a"\n'))
    refused("AP: two names alike", 41, automaton(ap='AP: 3 "a" "b" <<"a"\n'))
    refused("AP: two empty names", 41, automaton(ap='AP: 2 "" <<""\n'))
    refused("AP: a name too many that is also alike", 41, automaton(ap='AP: 1 "a" <<"a"\n'))
    accepted("AP: names that differ in their bytes only", automaton(ap='AP: 4 "a" "\\a" "A" "a "\n'))
    refused("AP: a name too few, an item behind", 41, automaton(ap='AP: 2 "a"\n', acc="<<Acceptance: 1 Inf(0)\n"))
    refused("AP: a name too few, properties behind", 41, automaton(ap='AP: 2 "a"\n<<properties:\n'))
    refused("AP: a name too few, AP: behind", 41, automaton(ap='AP: 2 "a"\n<<AP: 1 "b"\n'))
    refused("AP: a name too few, --BODY-- behind", 41, automaton(ap="", more='AP: 2 "a"\n').replace("--BODY--", "<<--BODY--"))
    refused("AP: a name too few, a number behind", 40, automaton(ap='AP: 2 "a" <<5\n'))
    refused("AP: a name too few, a word behind", 40, automaton(ap='AP: 2 "a" <<b\n'))
    refused("AP: a name too few, State: behind", 40, automaton(ap='AP: 2 "a" <<State: 0\n'))
    refused("AP: a name too few, HOA: behind", 40, automaton(ap='AP: 2 "a" <<HOA: v1\n'))
    refused("AP: a name too few, given up", 41, automaton(ap='AP: 2 "a" <<--ABORT--\n'))
    refused("AP: a name too few, the text's end", 40, 'HOA: v1 AP: 2 "a" <<')
    accepted("AP: 0", automaton(ap="AP: 0\n", body="State: 0 [t] 1 State: 1 [!f] 0\n"))
    accepted("no AP:", automaton(ap="", body="State: 0 [t] 1 State: 1 [!f] 0\n"))
    # hints
    refused("acc-name: without a word", 40, automaton(more="acc-name: <<1\n"))
    refused("acc-name: a string", 40, automaton(more='acc-name: Buchi <<"x"\n'))
    accepted("acc-name: that says something else", automaton(more="acc-name: parity min even 3\n"))
    refused("tool: without a string", 40, automaton(more="tool: <<owl\n"))
    refused("tool: three strings", 40, automaton(more='tool: "a" "b" <<"c"\n'))
    accepted("tool: two strings", automaton(more='tool: "a" "b"\n'))
    refused("name: without a string", 40, automaton(more="name: <<x\n"))
    refused("name: two strings", 40, automaton(more='name: "x" <<"y"\n'))
    refused("properties: a number", 40, automaton(more="properties: <<1\n"))
    refused("properties: a string", 40, automaton(more='properties: a <<"b"\n'))
    # --BODY--
    refused("no Start:", 41, automaton(start="").replace("--BODY--", "<<--BODY--"))
    refused("no Acceptance:", 41, automaton(acc="").replace("--BODY--", "<<--BODY--"))
    refused("neither", 41, "HOA: v1 <<--BODY-- --END--")
    accepted("items in another order", 'HOA: v1 Acceptance: 1 Inf(0) AP: 1 "a" Start: 0 properties: x States: 1 --BODY-- State: 0 [0] 0 --END--', "table 1 0 buchi 1 ")
    # rows
    refused("an edge before the first row", 40, with_body("<<[t] 0\nState: 0\n"))
    refused("a number before the first row", 40, with_body("<<0\n"))
    refused("an item among the rows", 40, with_body('State: 0 <<name: "x"\n'))
    refused("an item before the first row", 40, with_body('<<name: "x"\n'))
    refused("HOA: among the rows", 40, with_body("State: 0 <<HOA: v1\n"))
    refused("--BODY-- twice", 40, with_body("State: 0 <<--BODY--\n"))
    refused("State: without a number", 40, with_body("State: <<State: 1\n"))
    refused("State: and a string", 40, with_body('State: <<"x" 1\n'))
    refused("a row too many", 41, with_body("State: 0 State: 1 <<State: 2\n"))
    refused("a row too many that is also a second one", 41, with_body("State: 0 State: 1 <<State: 0\n"))
    refused("a label on a state", 41, with_body("State: <<[0] 0\n"))
    refused("a label on a state, not even one", 41, with_body("State: <<[]\n"))
    refused("a row's state not below n", 41, with_body("State: <<2\n"))
    refused("a row's state far from below n", 41, with_body("State: <<300\n"))
    refused("a row twice", 41, with_body("State: 1 State: <<1\n"))
    refused("a row twice, without States:", 41, with_body("State: 1 State: 0 State: <<1\n", states=""))
    refused("two names of a row", 40, with_body('State: 0 "x" <<"y"\n'))
    refused("a row's name behind its marks", 40, with_body('State: 0 {0} <<"x"\n'))
    refused("marks of a row twice", 40, with_body("State: 0 {0} <<{0}\n"))
    refused("& behind a row's state", 40, with_body("State: 0 <<& 1\n"))
    refused("a mark of a row not below c", 41, with_body("State: 0 {0 <<1}\n"))
    refused("a mark of an edge not below c", 41, with_body("State: 0 [t] 0 {<<1}\n"))
    refused("a mark where there are none", 41, with_body("State: 0 [t] 0 {<<0}\n", acc="Acceptance: 0 t\n"))
    accepted("no marks in brackets", with_body("State: 0 {} [t] 0 {} State: 1\n", acc="Acceptance: 0 f\n"))
    refused("a word among the marks", 40, with_body("State: 0 {<<x}\n"))
    refused("marks that are open", 40, with_body("State: 0 {0\n").replace("--END--", "<<--END--"))
    refused("an alias among the marks", 40, with_body("State: 0 {0 <<@a}\n"))
    refused("an edge without label", 41, with_body("State: 0 <<1\n"))
    refused("an edge without label, behind a name", 41, with_body('State: 0 "x" <<1\n'))
    refused("an edge without label, behind marks", 41, with_body("State: 0 {0} <<1\n"))
    refused("an edge without label, behind an edge", 41, with_body("State: 0 [t] 1 <<1\n"))
    refused("an edge without label, behind an edge's marks", 41, with_body("State: 0 [t] 1 {0} <<300\n"))
    refused("a proposition not below a", 41, with_label("0&<<2"))
    refused("a proposition where there are none", 41, with_label("<<0", 0))
    refused("a target is missing", 40, with_body("State: 0 [t] <<[t] 0\n"))
    refused("a target is missing, marks follow", 40, with_body("State: 0 [t] <<{0}\n"))
    refused("a target not below n", 41, with_body("State: 0 [t] <<2\n"))
    refused("a target far from below n", 41, with_body("State: 0 [t] <<300\n"))
    refused("a target of an edge that is none, not below n", 41, with_body("State: 0 [f] <<2\n"))
    refused("an edge to two states at once", 41, with_body("State: 0 [t] 1 <<& 0\n"))
    refused("an edge to nothing at once", 41, with_body("State: 0 [t] 1<<&\n"))
    refused("| behind a target", 40, with_body("State: 0 [t] 1 <<| 0\n"))
    refused("marks of an edge twice", 40, with_body("State: 0 [t] 1 {0} <<{0}\n"))
    refused("marks before the target", 40, with_body("State: 0 [t] <<{0} 1\n"))
    refused("a string behind a target", 40, with_body('State: 0 [t] 1 <<"x"\n'))
    # the end
    refused("a row too few", 41, with_body("State: 0\n").replace("--END--", "<<--END--"))
    refused("no rows", 41, with_body("").replace("--END--", "<<--END--"))
    refused("no rows, without States:", 41, with_body("", states="").replace("--END--", "<<--END--"))
    refused("without States:, the start has no row", 41, with_body("State: 0\n", states="", start="Start: 1\n").replace("--END--", "<<--END--"))
    refused("without States:, a row is not below their number", 41, with_body("State: 0 State: 2\n", states="").replace("--END--", "<<--END--"))
    refused("without States:, a target has no row", 41, with_body("State: 0 [t] 1\n", states="").replace("--END--", "<<--END--"))
    refused("without States:, a target of an edge that is none has no row", 41, with_body("State: 0 [f] 1\n", states="").replace("--END--", "<<--END--"))
    accepted("without States:, all is there", with_body("State: 2 [f] 1 State: 0 [t] 2 State: 1\n", states=""), "table 3 0 buchi 1 0,0,0,0,0,0,0,0 1 ")
    refused("something behind the end", 40, automaton() + "<<x")
    refused("the end twice", 40, automaton() + "<<--END--")
    refused("given up behind the end", 40, automaton() + "<<--ABORT--")
    refused("a row behind the end", 40, automaton() + "<<State: 0")
    refused("a second automaton", 41, automaton() + "<<HOA: v1")
    refused("only the beginning of a second one", 41, automaton() + "<<HOA:")
    refused("hoa: behind the end", 40, automaton() + "<<hoa: v1")
    refused("something behind the end and a comment", 40, automaton() + "/* */ <<}")
    accepted("a comment behind the end", automaton() + " /* HOA: v1 */\r\n")
    begins = {"a version": "HOA: ", "an item": "HOA: v1", "a number": "HOA: v1 States: ", "a formula": "HOA: v1 Acceptance: 1 "}
    for name, text in (begins | {"a row": "HOA: v1 Start: 0 Acceptance: 0 t --BODY-- "}).items():
        refused(f"the text ends where {name} should stand", 40, text + "<<")
    places = [("a number", "States: <<--ABORT--\n", {"states": ""}), ("a formula", "Acceptance: 1 (Inf(<<--ABORT--\n", {"acc": ""})]
    for name, item, others in places:
        refused(f"given up where {name} should stand", 41, automaton(more=item, **others))
    for name, body in {"a label": "State: 0 [(0 ", "a target": "State: 0 [0] ", "marks": "State: 0 {", "a row": "State: ", "rows": ""}.items():
        refused(f"given up in {name}", 41, with_body(body + "<<--ABORT--"))


# ---- formulas ------------------------------------------------------------------------------------------------------------------------------

BUCHI = [
    "Inf(0)", "(Inf(0))", "(((Inf(0))))", "Inf(0)&Inf(1)", "(Inf(0)&Inf(1))", "(Inf(0))&(Inf(1))", "Inf(0)&(Inf(1)&Inf(2))", "(Inf(0)&Inf(1))&Inf(2)",
    "((Inf(0)))&((Inf(1)&(Inf(2))&Inf(3)))", "Inf(0)&Inf(1)&Inf(2)&Inf(3)&Inf(4)&Inf(5)",
]
RABIN = {"Fin(0)": [0], "(Fin(0))": [0], "((Fin(0)))": [0], "Fin(0)&Inf(1)": [1], "(Fin(0)&Inf(1))": [1], "(Fin(0))&(Inf(1))": [1], "Fin(0)&(Inf(1)&Inf(2))": [2],
         "(Fin(0)&Inf(1))&Inf(2)": [2], "((Fin(0))&Inf(1))&(Inf(2)&(Inf(3)))": [3], "Fin(0)|Fin(1)": [0, 0], "(Fin(0)|Fin(1))": [0, 0], "(Fin(0))|(Fin(1))": [0, 0],
         "(Fin(0)&Inf(1))|(Fin(2)&Inf(3))": [1, 1], "Fin(0)&Inf(1)|Fin(2)&Inf(3)": [1, 1], "Fin(0)|Fin(1)&Inf(2)": [0, 1], "Fin(0)&Inf(1)|Fin(2)": [1, 0],
         "(Fin(0)|(Fin(1)&Inf(2)|Fin(3)))|Fin(4)": [0, 1, 0, 0], "((Fin(0)&Inf(1)&Inf(2)))|((Fin(3))|(Fin(4)&(Inf(5))))": [2, 0, 1],
         "(((Fin(0)|Fin(1))|Fin(2))|Fin(3))": [0, 0, 0, 0], "Fin(0)|(Fin(1)|(Fin(2)|(Fin(3))))": [0, 0, 0, 0]}
STREETT = [
    "Fin(0)|Inf(1)", "(Fin(0)|Inf(1))", "((Fin(0)|Inf(1)))", "(Fin(0))|Inf(1)", "Fin(0)|(Inf(1))", "((Fin(0)))|((Inf(1)))", "(((Fin(0)))|((Inf(1))))",
    "(Fin(0)|Inf(1))&(Fin(2)|Inf(3))", "((Fin(0)|Inf(1))&(Fin(2)|Inf(3)))", "((Fin(0)|Inf(1)))&(((Fin(2))|(Inf(3))))",
    "(Fin(0)|Inf(1))&((Fin(2)|Inf(3))&(Fin(4)|Inf(5)))", "((Fin(0)|Inf(1))&(Fin(2)|Inf(3)))&(Fin(4)|Inf(5))",
    "(Fin(0)|Inf(1))&(Fin(2)|Inf(3))&(Fin(4)|Inf(5))",
]
# how many marks, the formula up to the faulty token and what may follow
OUTSIDE = [
    (0, "<<Inf(0)"), (0, "t<<&t"), (0, "t<<|f"), (0, "(t<<&t)"), (0, "(<<Fin(0))"), (0, "<<x(0)"), (1, "<<t"), (1, "<<f"), (1, "(<<t)"), (1, "Inf(0)<<|t"),
    (1, "Inf(<<1)"), (1, "Fin(<<1)"), (1, "Inf(0)<<&Inf(1)"), (1, "Fin(0)<<|Inf(1)"), (1, "Fin(0)<<&t"), (2, "Inf(0)<<|Inf(1)"), (2, "Inf(<<1)&Inf(0)"),
    (2, "Inf(<<1)|Fin(0)"), (2, "Inf(0)&Inf(<<0)"), (2, "Inf(0)&<<Fin(1)"), (2, "Inf(0)<<|Fin(1)"), (2, "(Inf(0)<<|Fin(1))"), (2, "Fin(0)&<<Fin(1)"),
    (2, "Fin(0)&Inf(<<2)"), (2, "Fin(<<!0)"), (2, "Inf(<<!0)"), (2, "<<Foo(0)"), (2, "<<inf(0)"), (2, "<<FIN(0)"), (2, "<<Fi(0)"), (2, "<<Infinite(0)"),
    (2, "Inf(0)&<<t"), (2, "Inf(0)&<<Foo(1)"), (3, "Fin(0)&(Inf(1)<<|Inf(2))"), (3, "Fin(0)&Inf(1)&<<Fin(2)"), (3, "(Fin(0)|Fin(1))<<&Inf(2)"),
    (3, "((Fin(0)|Fin(1)))<<&Inf(2)"), (3, "((Fin(0)|Fin(1))<<&Inf(2))"), (3, "Fin(0)|<<Inf(1)"), (3, "(Fin(0)|<<Inf(1))"), (3, "Fin(0)|(Fin(1)|<<Inf(2))"),
    (3, "Fin(0)|(<<Inf(1)&Inf(2))"), (3, "Inf(0)&(Inf(1)<<|Inf(2))"), (4, "Fin(0)|<<Inf(1)&Fin(2)|Inf(3)"), (4, "(Fin(0)|Inf(1))&<<Fin(2)|Inf(3)"),
    (4, "(Fin(0)|Inf(1))<<|(Fin(2)|Inf(3))"), (4, "(Fin(0)|Inf(1)<<|Fin(2))"), (4, "(Fin(0)|Inf(1)<<&Fin(2))"),
    (4, "((Fin(0)|Inf(1))&(Fin(2)|Inf(3)))<<&(Fin(4)|Inf(5))"), (4, "(Fin(0)|Inf(1))&(Fin(2)<<&Inf(3))"), (4, "(Fin(0)|Inf(1))&(<<Inf(2)|Fin(3))"),
    (4, "(Fin(0)|Inf(1))&(Fin(2)|<<Fin(3))"), (4, "(Fin(0)|Inf(1))&((Fin(2))<<)|Inf(3)"), (4, "((Fin(0))|Inf(1))&((Fin(2)|Inf(3)<<&Fin(4)))"),
    (4, "Fin(0)&Inf(1)&(Fin(2))".replace("(Fin", "(<<Fin")), (4, "(Fin(0)&Inf(1))|(Fin(2)&Inf(<<4))"), (4, "(Fin(0)&Inf(1)|Fin(2))<<&Inf(3)"),
    (4, "(Fin(0)|Fin(1))|(Fin(2)|Fin(3))<<|Fin(4)"),
]
# faults of the format itself
NO_FORMULA = [
    (1, "<<!Inf(0)"), (1, "<<0"), (1, "<<&Inf(0)"), (1, "<<)"), (1, "(<<)"), (1, "Inf <<0"), (1, "Inf(<<)"), (1, "Inf(<<x)"), (1, "Inf(0 <<1)"),
    (1, "Inf(0)<<)"), (1, "Inf(0) <<Inf(1)"), (1, "Inf(0)<<(1)"), (0, "t<<(0)"), (0, "t <<f"), (2, "Inf(0)&<<&Inf(1)"), (2, "Inf(0)&<<)"), (2, "Inf(0)<<!"),
    (2, "(Inf(0)&Inf(1) <<5)"), (2, "Inf(<<@a)"), (1, "<<\"Inf\""), (2, "Inf(0)&<<{0}"), (2, "Inf(0)<<[0]"), (1, "<<Inf:(0)"), (2, "Inf(0)<<,Inf(1)"),
    (2, "Inf(0)&<</* x"), (1, "Inf(<<00)"), (1, "Inf(<<2147483648)"),
]
# formulas that end too early: the next token is told
TOO_SHORT = [
    (2, "Inf(0)"), (2, "(Inf(0))"), (2, "Fin(0)"), (3, "Inf(0)&Inf(1)"), (3, "Fin(0)|Fin(1)"), (4, "(Fin(0)|Inf(1))"), (4, "((Fin(0)|Inf(1)))"),
    (4, "(Fin(0)&Inf(1))"), (32, "Inf(0)"),
]
BEHIND = {"--BODY--": 41, "Start: 0 --BODY--": 41, "x: 1 --BODY--": 41, "--ABORT--": 41, "State: 0": 40, "5": 40, "x": 40, "": 40}


def formulas():
    for formula in BUCHI:
        marks = formula.count("Inf")
        accepted(f"{marks}: {formula}", with_formula(marks, formula), f"table 1 0 buchi {marks} 0,0,0,0,0,0,0,0 1 0")
    for formula, needs in RABIN.items():
        marks = len(needs) + sum(needs)
        listed = ",".join(map(str, needs + [0] * (8 - len(needs))))
        accepted(f"{marks}: {formula}", with_formula(marks, formula), f"table 1 0 rabin {len(needs)} {listed} 1 0")
    for formula in STREETT:
        marks = 2 * formula.count("Inf")
        accepted(f"{marks}: {formula}", with_formula(marks, formula), f"table 1 0 streett {marks // 2} 0,0,0,0,0,0,0,0 1 0")
    for formula, kind in (("t", "buchi"), ("f", "rabin"), ("((t))", "buchi"), ("(f)", "rabin")):
        accepted(f"0: {formula}", with_formula(0, formula), f"table 1 0 {kind} 0 0,0,0,0,0,0,0,0 1 0")
    accepted("blanks and comments in a formula", with_formula(2, "( Fin\n(/* 0 */0 )) |\t(Inf( 1))"), "table 1 0 streett 1 ")
    for number, texts in ((41, OUTSIDE), (40, NO_FORMULA)):
        for marks, formula in texts:
            refused(f"{marks}: {formula}", number, with_formula(marks, formula))
    for marks, formula in TOO_SHORT:
        for behind, number in BEHIND.items() if formula in ("Inf(0)", "(Fin(0)|Inf(1))") else ():
            refused(f"{marks}: {formula} and {behind}", number, f"HOA: v1 Start: 0 Acceptance: {marks} {formula} <<{behind}")
        refused(f"{marks}: {formula} and no more", 41, with_formula(marks, formula).replace("--BODY--", "<<--BODY--"))
    refused("a formula is missing", 40, "HOA: v1 Start: 0 Acceptance: 1 <<--BODY--")
    refused("the number of marks is missing", 40, "HOA: v1 Start: 0 Acceptance: <<Inf(0) --BODY--")
    refused("an open bracket at the end", 40, with_formula(1, "(Inf(0)").replace("--BODY--", "<<--BODY--"))
    refused("a bracket too many", 40, with_formula(1, "(Inf(0))<<)"))


# ---- labels ----------------------------------------------------------------------------------------------------------------------------------

# labels over two propositions that some valuation satisfies, and that none does
SATISFIABLE = [
    "t", "!f", "0", "!0", "0&1", "0|1", "!0&!1", "!(0&1)", "0&!1|!0&1", "!!0", "!!!1", "((0))", "(0|1)&!(0&1)", "f|0", "t&1", "0&0", "!0|0", "!(!0)", "!0|f&1",
    "0|0&!0", "!(0&!0)", "0|f|f", "f|0|f", "f|f|0",
    "(1|f|f|f)&0", "!(f|f|0)|f|f", "f|(0&1|f|0&!0)|f",
]
UNSATISFIABLE = [
    "f", "!t", "0&!0", "!0&0", "0&f", "f&t", "f|f", "(0|1)&!0&!1", "!(0|!0)", "(0&1)&!(1&0)", "!!f", "0&!(0|1)", "0&1&!0", "!0&(0|f)", "!(!0|0)",
    "(((0)))&((!(0)))", "!(t|1)", "0&!0|1&!1", "f|f|f", "0&(f|f|!0)", "!(0|f|f)&!(f|!0|f)",
]
NO_LABEL = [
    "<<", "0 <<1", "0&<<", "<<&0", "0&<<|1", "<<x", "0<<!1", "!<<", "(0<<", "0<<)", "(<<)", "<<[0]", "t<<(0)", "<<T", "<<true", "0&<<{0}", "0<<,1", "<<\"p0\"",
    "<<Inf(0)", "0|<<--END--", "0 <<t", "!<<&0",
]


def labels():
    for label in SATISFIABLE:
        accepted(f"[{label}]", with_label(label), "table 1 0 buchi 0 0,0,0,0,0,0,0,0 1 0")
    for label in UNSATISFIABLE:
        accepted(f"[{label}]", with_label(label), "table 1 0 buchi 0 0,0,0,0,0,0,0,0 0 0")
    for label in NO_LABEL:
        refused(f"[{label}]", 40, with_label(label))
    every = "&".join(f"({i}|!{i})" for i in range(6))
    accepted("one valuation of 64", with_label("!0&1&!2&3&4&!5", 6), "table 1 0 buchi 0 0,0,0,0,0,0,0,0 1 0")
    accepted("all valuations of 64", with_label(every, 6), "table 1 0 buchi 0 0,0,0,0,0,0,0,0 1 0")
    accepted("no valuation of 64", with_label(f"!({every})", 6), "table 1 0 buchi 0 0,0,0,0,0,0,0,0 0 0")
    accepted("no valuation of 64, one bit away", with_label("0&1&2&3&4&5&!(0&1&2&3&4)", 6), "table 1 0 buchi 0 0,0,0,0,0,0,0,0 0 0")
    accepted("the last valuation of 64", with_label("!(!0|!1|!2|!3|!4|!5)", 6), "table 1 0 buchi 0 0,0,0,0,0,0,0,0 1 0")
    accepted("the first valuation of 64", with_label("!(0|1|2|3|4|5)", 6), "table 1 0 buchi 0 0,0,0,0,0,0,0,0 1 0")
    accepted("& binds before |", with_label("0&!0|t"), "table 1 0 buchi 0 0,0,0,0,0,0,0,0 1 0")
    accepted("& binds before |, the other way round", with_label("t|0&!0"), "table 1 0 buchi 0 0,0,0,0,0,0,0,0 1 0")
    accepted("! binds before &", with_label("!t&f"), "table 1 0 buchi 0 0,0,0,0,0,0,0,0 0 0")
    accepted("! reaches one factor only", with_label("!f&0"), "table 1 0 buchi 0 0,0,0,0,0,0,0,0 1 0")


# ---- what comes back -------------------------------------------------------------------------------------------------------------------------


def checksum(edges):
    value = 0
    for edge in edges:
        for cell in edge:
            value = (value * 31 + cell) % 2**32
    return f"{len(edges)} {value}"


def results():
    def back(name, body, edges, marks=3, **more):
        formula = "&".join(f"Inf({i})" for i in range(marks))
        accepted(name, with_body(body, acc=f"Acceptance: {marks} {formula}\n", **more), f"table 2 0 buchi {marks} 0,0,0,0,0,0,0,0 {checksum(edges)}")

    back("rows in order", "State: 0 [t] 1 State: 1 [t] 0", [(0, 1, 0), (1, 0, 0)])
    back("rows in another order are sorted", "State: 1 [t] 0 {0} State: 0 [t] 1 {1}", [(0, 1, 2), (1, 0, 1)])
    back("a row keeps its order", "State: 1 [0] 1 [t] 0 [0] 1 State: 0 [t] 1 {2} [t] 0 {0} [t] 1", [(0, 1, 4), (0, 0, 1), (0, 1, 0), (1, 1, 0), (1, 0, 0), (1, 1, 0)])
    back("marks of a state go on every edge", "State: 0 {0 2} [t] 1 [0] 0 {1} State: 1 [t] 0 {1}", [(0, 1, 5), (0, 0, 7), (1, 0, 2)])
    back("marks twice and in any order", "State: 0 {2 0 2} [t] 1 {2 2 1} State: 1 [t] 0 {1 0 0}", [(0, 1, 7), (1, 0, 3)])
    back("an edge that none satisfies is none", "State: 0 {1} [f] 1 {2} [t] 1 {0} [0&!0] 0 State: 1 [t] 0 [f] 0", [(0, 1, 3), (1, 0, 0)])
    back("a state without edges", 'State: 1 "stop" State: 0 [t] 1', [(0, 1, 0)])
    back("marks of a state without edges go nowhere", "State: 1 {0 1 2} State: 0 [t] 1", [(0, 1, 0)])
    back("no edges", "State: 1 State: 0", [])
    back("every mark", "State: 0 {0 1 2 3 4 5 6 7 8 9 10 11 12 13 14 15} [t] 1 {31 30 29 28 27 26 25 24 23 22 21 20 19 18 17 16} State: 1", [(0, 1, 2**32 - 1)], marks=32)
    shift = "State: 0 [t] 1 State: 1 [t] 2 {0} State: 2 [t] 1 {1}"
    for name, acc in (("buchi 2", "2 Inf(0)&Inf(1)"), ("buchi 3", "3 Inf(0)&Inf(1)&Inf(2)"), ("streett 1", "2 Fin(0)|Inf(1)"), ("rabin, need 1", "2 Fin(0)&Inf(1)")):
        accepted(f"table A, {name}", with_body(shift, states="", acc=f"Acceptance: {acc}\n"), f"table 3 0 {name.split()[0].rstrip(',')} ")


# ---- limits ----------------------------------------------------------------------------------------------------------------------------------


def bodies(count, edges=0):
    """So many rows, the first with so many edges."""
    return "State: 0 " + "[t] 0 " * edges + "".join(f"State: {q} " for q in range(1, count))


def plain_text(body, **more):
    return with_body(body, ap="", acc="Acceptance: 0 t\n", **more)


def limits():
    accepted("256 states", plain_text(bodies(256), states="States: 256\n", start="Start: 255\n"), "table 256 255 ")
    refused("257 states", 42, plain_text(bodies(257), states="States: <<257\n"))
    refused("2^31 - 1 states", 42, plain_text("", states="States: <<2147483647\n"))
    refused("257 states, the start too large as well", 42, plain_text("", states="States: <<257\n", start="Start: 300\n"))
    refused("start 256, States: behind it", 42, plain_text("", states="", start="Start: <<256\nStates: 257\n"))
    refused("start 256, no States:", 42, plain_text(bodies(257), states="", start="Start: <<256\n"))
    refused("start 300, no States:", 42, plain_text("State: 0", states="", start="Start: <<300\n"))
    refused("start 256 of 256", 41, plain_text("", states="States: 256\n", start="Start: <<256\n"))
    accepted("256 states, no States:", plain_text(bodies(256), states="", start="Start: 255\n"), "table 256 255 ")
    refused("257 rows, no States:", 42, plain_text(bodies(256) + "State: <<256 ", states=""))
    refused("257 rows, no States:, the last a second one", 41, plain_text(bodies(256) + "State: <<255 ", states=""))
    refused("257 rows of 256", 41, plain_text(bodies(256) + "<<State: 256 ", states="States: 256\n"))
    refused("row 256, no States:", 42, plain_text("State: <<256", states=""))
    refused("row 256 of 256", 41, plain_text("State: <<256", states="States: 256\n"))
    refused("target 256, no States:", 42, plain_text("State: 0 [t] <<256", states=""))
    refused("target 256 of 256", 41, plain_text("State: 0 [t] <<256", states="States: 256\n"))
    refused("target 256 of an edge that is none, no States:", 42, plain_text("State: 0 [f] <<256", states=""))
    refused("target 255, no States: and one row", 41, plain_text("State: 0 [t] 255 ", states="").replace("--END--", "<<--END--"))
    accepted("512 edges", plain_text(bodies(2, 512)), "table 2 0 buchi 0 0,0,0,0,0,0,0,0 512 ")
    refused("513 edges", 42, plain_text(bodies(1, 512) + "[t<<] 0 State: 1 "))
    refused("513 edges, the last in another row", 42, plain_text(bodies(2, 512) + "[!f&t<<] 0 "))
    refused("513 edges, then more faults", 42, plain_text(bodies(1, 512) + "[t<<] 900 {9} "))
    refused("513 edges, a fault in the last label", 40, plain_text(bodies(1, 512) + "[t <<t] 0 "))
    accepted("512 edges and some that are none", plain_text("State: 1 [f] 0 [f] 1 " + bodies(1, 512) + "[f] 0 [!t] 1 "), "table 2 0 buchi 0 0,0,0,0,0,0,0,0 512 ")
    refused("512 edges and one that is none to nowhere", 41, plain_text(bodies(1, 512) + "[f] <<2"))
    names = [f'"p{i}"' for i in range(7)]
    accepted("6 propositions", with_label("5", 6), "table 1 0 ")
    refused("7 propositions", 42, automaton(ap=f"AP: <<7 {' '.join(names)}\n"))
    refused("2^31 - 1 propositions", 42, automaton(ap="AP: <<2147483647\n"))
    refused("6 propositions and a name more", 41, automaton(ap=f"AP: 6 {' '.join(names[:6])} <<\"p6\"\n"))
    refused("proposition 6 of 6", 41, with_label("5&<<6", 6))
    every = "&".join(f"Inf({i})" for i in range(33))
    accepted("32 marks", with_formula(32, every[: every.index("&Inf(32)")]), "table 1 0 buchi 32 ")
    refused("33 marks", 42, with_formula("<<33", every))
    refused("33 marks, then another fault", 42, with_formula("<<33", "x"))
    refused("2^31 - 1 marks", 42, with_formula("<<2147483647", "t"))
    refused("mark 32 of 32", 41, with_formula(32, every.replace("&Inf(32)", "<<&Inf(32)")))
    refused("mark 32 of 32 on an edge", 41, with_body("State: 0 [t] 0 {31 <<32}", acc=f"Acceptance: 32 {every[: every.index('&Inf(32)')]}\n"))
    streett = "&".join(f"(Fin({2 * i})|Inf({2 * i + 1}))" for i in range(16))
    accepted("16 Streett pairs", with_formula(32, streett), "table 1 0 streett 16 ")
    pairs = "|".join(f"Fin({i})" for i in range(8))
    accepted("8 Rabin pairs", with_formula(8, pairs), "table 1 0 rabin 8 0,0,0,0,0,0,0,0 1 ")
    needing = "|".join(f"(Fin({i})&Inf({i + 1})&Inf({i + 2})&Inf({i + 3}))" for i in range(0, 32, 4))
    accepted("8 Rabin pairs with 3 needed marks each", with_formula(32, needing), "table 1 0 rabin 8 3,3,3,3,3,3,3,3 1 ")
    accepted("a Rabin pair with 31 needed marks", with_formula(32, "&".join(["Fin(0)"] + [f"Inf({i})" for i in range(1, 32)])), "table 1 0 rabin 1 31,")
    refused("9 Rabin pairs", 42, with_formula(9, pairs + "<<|Fin(8)"))
    refused("9 Rabin pairs, in brackets", 42, with_formula(10, f"(({pairs})<<|(Fin(8)&Inf(9)))"))
    refused("9 Rabin pairs, in other brackets", 42, with_formula(9, "|(".join(f"Fin({i})" for i in range(8)) + "<<|Fin(8)" + 7 * ")"))
    refused("9 Rabin pairs, the ninth is none", 42, with_formula(9, pairs + "<<|Inf(8)"))
    refused("a ninth Rabin pair without marks left", 41, with_formula(8, pairs + "<<|Fin(8)"))
    refused("a ninth Rabin pair inside a need", 41, with_formula(10, pairs + "&(Inf(8)<<|Fin(9))"))
    accepted("level 256 of a label", with_label("(" * 256 + "0" + ")" * 256), "table 1 0 buchi 0 0,0,0,0,0,0,0,0 1 0")
    refused("level 257 of a label", 42, with_label("(" * 256 + "<<(0" + ")" * 257))
    refused("level 257 of a label, never closed", 42, "HOA: v1 Start: 0 Acceptance: 0 t --BODY-- State: 0 [" + "(" * 256 + "<<(")
    accepted("level 256 of a label, often", with_label("&".join(["!" + "(!" * 256 + "0" + ")" * 256] * 4)), "table 1 0 buchi 0 0,0,0,0,0,0,0,0 1 0")
    refused("a faulty bracket at level 257", 40, with_label("(" * 256 + "0 <<("))
    accepted("! opens no level", with_label("!" * 1000 + "0"), "table 1 0 buchi 0 0,0,0,0,0,0,0,0 1 0")
    accepted("a label of two thousand factors", with_label("&".join(["(0|1)"] * 1000 + ["!0"] * 1000)), "table 1 0 buchi 0 0,0,0,0,0,0,0,0 1 0")
    accepted("a formula in a thousand brackets", with_formula(2, "(" * 1000 + "Fin(0)|Inf(1)" + ")" * 1000), "table 1 0 streett 1 ")
    accepted("a thousand comments in one another", "/*" * 1000 + "*/" * 1000 + automaton())
    refused("a thousand comments in one another, one open", 40, automaton() + " <<" + "/*" * 1000 + "*/" * 999)


# ---- which of several faults is told -----------------------------------------------------------------------------------------------------------


def orders():
    refused("40 before 41 at one token: two strings where one is missing", 40, automaton(ap='AP: 2 "a" <<(\n'))
    refused("40 before 41 at one token: the second formula", 40, with_formula(3, "Inf(0) <<t"))
    refused("41 before 42 at one token: start", 41, automaton(states="States: 256\n", start="Start: <<2147483647\n"))
    refused("41 before 42 at one token: row", 41, with_body("State: <<2147483647"))
    refused("41 before 42 at one token: target", 41, with_body("State: 0 [t] <<2147483647"))
    refused("41 before 42 at one token: the ninth pair", 41, with_formula(8, "|".join(f"Fin({i})" for i in range(8)) + "<<|"))
    refused("42 first, 40 behind it", 42, "HOA: v1 States: <<300 (")
    refused("41 first, 40 behind it", 41, "HOA: v1 States: <<0 (")
    refused("41 first, 42 behind it", 41, "HOA: v1 States: <<0 AP: 7")
    refused("42 first, 41 behind it", 42, "HOA: v1 AP: <<7 Alias: @a 0")
    refused("40 first, 41 behind it", 40, "HOA: v1 <<( Alias: @a 0")
    refused("41 at a version, the rest is nothing", 41, b"HOA: <<v3 \xff\xff\"")
    refused("41 at an alias, the rest is nothing", 41, b'HOA: v1 <<Alias: /* open')
    refused("a missing Start: is told at --BODY--, a fault before it first", 40, "HOA: v1 Acceptance: 0 t <<--BODY")
    refused("a second Start: behind too few names", 41, 'HOA: v1 Start: 0 AP: 1 <<Start: 0')
    refused("an unknown item behind too few marks", 41, "HOA: v1 Acceptance: 1 (Inf(0)) <<Zed: x")
    refused("a row too few and a fault behind the end", 41, with_body("State: 0\n").replace("--END--", "<<--END--") + "x")


# ---- large texts, made anew each time: (name, text, refusal or None) -----------------------------------------------------------------------------


def padded(text, length):
    return as_bytes(text) + b" " * (length - len(text))


def large_texts():
    whole = automaton().encode()
    deep, half = 50_000, 25_000
    names = [b"x" * 160_000 + bytes([65 + i]) for i in range(6)]
    six = b"AP: 6 " + b" ".join(b'"%s"' % name for name in names) + b"\n"
    begin = b"HOA: v1 Start: 0 Acceptance: 0 t --BODY-- State: 0 "
    texts = [
        ("1,048,576 bytes, blanks behind", padded(whole, LONGEST), None),
        ("1,048,577 bytes, blanks behind", padded(whole, LONGEST + 1), (42, LONGEST)),
        ("1,048,577 bytes, a fault at the first", padded(b"x", LONGEST + 1), (42, LONGEST)),
        ("1,048,576 bytes, a fault at the first", padded(b"x", LONGEST), (40, 0)),
        ("1,048,576 bytes, nothing but blanks", b"\n" * LONGEST, (40, LONGEST)),
        ("2,000,000 bytes", padded(whole, 2_000_000), (42, LONGEST)),
        ("1,048,576 bytes, the last one faulty", padded(whole, LONGEST - 1) + b"x", (40, LONGEST - 1)),
        ("a comment of a million bytes", b"/*" + b"*" * 1_000_000 + b"/" + whole, None),
        ("a comment of a million bytes, open", b" /*" + b"/ * " * 250_000, (40, 1)),
        ("250,000 comments in one another", b"/*" * 250_000 + b"*/" * 250_000 + whole, None),
        ("half a million comments in one another, open", b"/*" * 500_000, (40, 0)),
        ("a string of a million bytes", automaton(more='name: "' + 500_000 * '\\"' + '"\n').encode(), None),
        ("a string of a million bytes, open", (automaton(more="") .split("--BODY--")[0] + 'name: "').encode() + b"\\\"" * 500_000, (40, len(automaton().split("--BODY--")[0]) + 6)),
        ("a number of a million digits", b"HOA: v1 x: " + b"1" * 1_000_000, (40, 11)),
        ("a word of a million letters", b"HOA: v1 x: " + b"a-" * 500_000 + b" --BODY--", (41, 1_000_012)),
        ("six names that differ in their last of 160,000 bytes", automaton(ap="@@", body="State: 0 [5] 1 State: 1\n").encode().replace(b"@@", six), None),
        ("a formula in 50,000 brackets", with_formula(1, "(" * deep + "Inf(0)" + ")" * deep).encode(), None),
        ("a Streett formula in 50,000 brackets", with_formula(2, "(" * 2 * half + "Fin(0)" + ")" * half + "|" + "(" * half + "Inf(1)" + ")" * 2 * half).encode(), None),
        ("a Rabin formula in 50,000 brackets", with_formula(3, "(" * deep + "Fin(0)&(" + "(" * deep + "Inf(1)" + ")" * (deep + 1) + "|Fin(2)" + ")" * deep).encode(), None),
        ("200,000 negations", with_label("!" * 200_000 + "0").encode(), None),
        ("a label of 60,000 factors", with_label("&".join(["!0"] * 60_000)).encode(), None),
        ("a label of 40,000 alternatives", with_label("|".join(["0&!0"] * 40_000)).encode(), None),
        ("150,000 marks", with_body("State: 0 [t] 0 {" + "0 " * 150_000 + "} State: 1\n").encode(), None),
        ("40,000 edges that are none", begin + b"[f] 0 " * 40_000 + b"[t] 0 --END--", None),
        ("150,000 edges", begin + b"[t] 0 " * 150_000 + b"[t] 0 --END--", (42, len(begin) + 512 * 6 + 2)),
        ("100,000 items", b"HOA: v1 " + b"x: " * 100_000 + b"Start: 0 Acceptance: 0 t --BODY-- State: 0 --END--", None),
        ("an item of 150,000 numbers", b"HOA: v1 x: " + b"0 " * 150_000 + b"Start: 0 Acceptance: 0 t --BODY-- State: 0 [t] 0 --END--", None),
    ]
    assert all(len(text) <= LONGEST or refusal == (42, LONGEST) for _, text, refusal in texts)
    return texts


def all_texts():
    if not TEXTS:
        for part in (layouts, tokens, rows_of_the_table, formulas, labels, results, limits, orders):
            part()
    return TEXTS
