/*
 * The shift cases of docs/RULES.md, and tables at the edges of its limits, through the archive: a line for each. tools/outside compares them with
 * tests/limits.out. Every lent cell holds 7 before, and one more stands behind each lent buffer.
 */
#include <stdio.h>
#include "mukhadero.h"

enum { BEFORE = 7, MOST_ROOM = 12287, MOST_SCRATCH = 131144, MOST_CELLS = MUKHADERO_MOST_EDGES + 1 };

/* A table; its marks may be more or fewer than its edges. */
typedef struct table {
    uint32_t states, start;
    const uint32_t *from, *to, *marks;
    size_t edges, marked;
} table;

typedef struct condition {
    uint32_t kind, count, needs[8];
} condition;

/* A lent buffer. */
typedef struct lent {
    uint32_t *cells;
    size_t count;
} lent;

static uint32_t room_cells[MOST_ROOM + 1], scratch_cells[MOST_SCRATCH + 1], output_cells[3][MOST_CELLS + 1];
static const uint32_t zeros[MOST_CELLS];

static lent lend(uint32_t *cells, size_t count) {
    lent buffer = {cells, count};
    for (size_t i = 0; i <= count; i++) cells[i] = BEFORE;
    return buffer;
}

/* Whether the cells of a lent buffer from `at` on hold the value, and the one behind it what it held. */
static int holds_from(lent buffer, size_t at, uint32_t value) {
    for (size_t i = at; i < buffer.count; i++)
        if (buffer.cells[i] != value) return 0;
    return buffer.cells[buffer.count] == BEFORE;
}

static condition buchi(uint32_t k) { return (condition){MUKHADERO_KIND_BUCHI, k, {0}}; }

static condition streett(uint32_t p) { return (condition){MUKHADERO_KIND_STREETT, p, {0}}; }

static condition rabin(uint32_t p) { return (condition){MUKHADERO_KIND_RABIN, p, {0}}; }

static mukhadero_answer judge(table t, condition c, lent room, lent scratch) {
    switch (c.kind) {
    case MUKHADERO_KIND_BUCHI:
        return mukhadero_judge_buchi(
            t.states, t.start, t.from, t.edges, t.to, t.edges, t.marks, t.marked, c.count, room.cells, room.count, scratch.cells, scratch.count);
    case MUKHADERO_KIND_STREETT:
        return mukhadero_judge_streett(
            t.states, t.start, t.from, t.edges, t.to, t.edges, t.marks, t.marked, c.count, room.cells, room.count, scratch.cells, scratch.count);
    default:
        return mukhadero_judge_rabin(
            t.states, t.start, t.from, t.edges, t.to, t.edges, t.marks, t.marked, c.count, c.needs, room.cells, room.count, scratch.cells, scratch.count);
    }
}

/* ---- the shift cases and tables of known depth: the verdict, number and place, the pair, the depth, the edges of prefix and cycle */

static void print_list(const char *label, const uint32_t *cells, size_t count) {
    printf("%s", label);
    for (size_t i = 0; i < count; i++) printf(i ? ",%u" : "%u", cells[i]);
    if (!count) printf("-");
}

static void shift_case(uint32_t number, table t, condition c) {
    static const char *const words[] = {"refused", "empty", "run"};
    lent room = lend(room_cells, 24), scratch = lend(scratch_cells, 144);
    mukhadero_answer a = judge(t, c, room, scratch);
    printf("case=%u verdict=%s code=%u place=%u pair=", number, a.verdict < 3 ? words[a.verdict] : "?", a.number, a.place);
    if (a.verdict == MUKHADERO_VERDICT_RUN && c.kind == MUKHADERO_KIND_RABIN)
        printf("%u", a.pair);
    else
        printf("-");
    printf(" depth=%u", a.depth);
    if (a.prefix_length > room.count || a.cycle_length > room.count - a.prefix_length) {
        printf(" beyond the room\n");
        return;
    }
    print_list(" prefix=", room.cells, a.prefix_length);
    print_list(" cycle=", room.cells + a.prefix_length, a.cycle_length);
    printf("\n");
}

/* A table with start 0. */
#define TABLE(n, m, from, to, marks) ((table){n, 0, from, to, marks, m, m})
#define CELLS(...) ((const uint32_t[]){__VA_ARGS__})

/* 0>0 with the marks given */
static table one_loop(const uint32_t *marks) { return TABLE(1, 1, zeros, zeros, marks); }

static void shift_cases(void) {
    table a = TABLE(3, 3, CELLS(0, 1, 2), CELLS(1, 2, 1), CELLS(0, 1, 2)); /* table A: 0>1{}, 1>2{0}, 2>1{1} */
    condition one_needed = rabin(1);
    one_needed.needs[0] = 1;
    shift_case(1, a, buchi(2));
    shift_case(2, a, buchi(3));
    shift_case(3, a, streett(1));
    shift_case(4, a, one_needed);
    shift_case(5, one_loop(CELLS(1)), streett(1));
    shift_case(6, one_loop(zeros), streett(1));
    shift_case(7, TABLE(2, 3, CELLS(0, 0, 1), CELLS(0, 1, 0), CELLS(0, 1, 0)), streett(1)); /* 0>0{}, 0>1{0}, 1>0{} */
    shift_case(8, TABLE(2, 0, NULL, NULL, NULL), streett(0)); /* two states, no edges */
    shift_case(9, one_loop(zeros), buchi(0));
    shift_case(10, one_loop(zeros), rabin(0));
    shift_case(11, TABLE(2, 1, CELLS(1), CELLS(1), CELLS(1)), buchi(1)); /* 1>1{0} */
    shift_case(12, TABLE(2, 3, CELLS(0, 0, 1), CELLS(0, 1, 1), CELLS(1, 0, 2)), buchi(2)); /* 0>0{0}, 0>1{}, 1>1{1} */
    shift_case(13, TABLE(2, 2, CELLS(0, 1), CELLS(1, 1), CELLS(1, 2)), one_needed); /* 0>1{0}, 1>1{1} */
}

/* 25: sixteen loops at one state, loop i with the left mark of pair i and the right mark of the next, so that each round erases one. */
static void depths(void) {
    uint32_t nested[16];
    for (uint32_t i = 0; i < 16; i++) nested[i] = (uint32_t)1 << 2 * i | (i < 15 ? (uint32_t)1 << (2 * i + 3) : 0);
    shift_case(21, TABLE(2, 2, CELLS(0, 1), CELLS(1, 0), CELLS(1, 0)), streett(1)); /* 0>1{0}, 1>0{}: only lone states are left */
    shift_case(22, TABLE(2, 3, CELLS(0, 0, 1), CELLS(0, 1, 0), CELLS(4, 9, 0)), streett(2)); /* 0>0{2}, 0>1{0,3}, 1>0{} */
    /* 0>0{0}, 0>1{}, 1>1{2}, 1>2{0,3}, 2>1{}: the deepest part is not in the start's component; then 0>0{2}, 0>1{0,3}, 1>0{}, 1>2{}, 2>2{0}: it is */
    shift_case(23, TABLE(3, 5, CELLS(0, 0, 1, 1, 2), CELLS(0, 1, 1, 2, 1), CELLS(1, 0, 4, 9, 0)), streett(2));
    shift_case(24, TABLE(3, 5, CELLS(0, 0, 1, 1, 2), CELLS(0, 1, 0, 2, 2), CELLS(4, 9, 0, 0, 1)), streett(2));
    shift_case(25, TABLE(1, 16, zeros, zeros, nested), streett(16));
}

/*
 * ---- the judge: the verdict with its numbers, then a word on the lent cells: `zero` if room behind the lasso and scratch hold 0, `kept` if both hold 7,
 * else `wrong`
 */

static void judge_over(const char *label, table t, condition c, size_t room_count, size_t scratch_count) {
    lent room = lend(room_cells, room_count), scratch = lend(scratch_cells, scratch_count);
    mukhadero_answer a = judge(t, c, room, scratch);
    size_t end = (size_t)a.prefix_length + a.cycle_length;
    uint32_t left = a.verdict == MUKHADERO_VERDICT_REFUSED ? BEFORE : 0;
    if (a.verdict == MUKHADERO_VERDICT_RUN)
        printf("%s: run prefix=%u cycle=%u pair=%u", label, a.prefix_length, a.cycle_length, a.pair);
    else if (a.verdict == MUKHADERO_VERDICT_EMPTY)
        printf("%s: empty depth=%u", label, a.depth);
    else
        printf("%s: refused code=%u place=%u", label, a.number, a.place);
    if (end > room.count)
        printf(" beyond the room\n");
    else if (!holds_from(room, end, left) || !holds_from(scratch, 0, left))
        printf(" wrong\n");
    else
        printf(left ? " kept\n" : " zero\n");
}

/* As much room as 4,096 states need under Buchi 1, and as much scratch as 32,768 edges need. */
static void judged(const char *label, table t, condition c) { judge_over(label, t, c, MOST_ROOM, MOST_SCRATCH); }

/* One edge, 4095>4095{}, under Buchi 0. */
static void last_loop(const char *label, uint32_t states, uint32_t start) {
    table t = TABLE(states, 1, CELLS(4095), CELLS(4095), zeros);
    t.start = start;
    judged(label, t, buchi(0));
}

static void state_counts(void) {
    last_loop("n = 4096, start 4095", 4096, 4095);
    last_loop("n = 4096, start 0", 4096, 0);
    last_loop("n = 4096, start 4096", 4096, 4096);
    last_loop("n = 4097, start 4096", 4097, 4096);
    last_loop("n = 0", 0, 0);
}

/* 4,096 states without an edge: the start is a stop state. Then 0>0{0} and 0>arrives{0}; state 1 is a stop state. */
static void stop_states(void) {
    table none = TABLE(4096, 0, zeros, zeros, zeros);
    table within = TABLE(2, 2, zeros, CELLS(0, 1), CELLS(1, 1)), without = TABLE(2, 2, zeros, zeros, CELLS(1, 1));
    judged("no edges, Buchi 0", none, buchi(0));
    judged("no edges, Buchi 1", none, buchi(1));
    judged("no edges, Streett 0", none, streett(0));
    judged("no edges, Rabin 1", none, rabin(1));
    judged("no edges, Rabin 0", none, rabin(0));
    judged("Rabin 2, a stop state in reach", within, rabin(2));
    judged("Rabin 2, a stop state out of reach", without, rabin(2));
    judged("Rabin 1, a stop state out of reach", without, rabin(1));
}

/* Loops of one state, 0>0, without marks. */
static void edge_counts(void) {
    table t = TABLE(1, 32768, zeros, zeros, zeros);
    judged("m = 32768", t, buchi(0));
    judged("m = 32769", TABLE(1, 32769, zeros, zeros, zeros), buchi(0));
    t.marked = 32769;
    judged("a mark too many", t, buchi(0));
}

/* 0>0{0} under Buchi 1. */
static void lent_lengths(void) {
    table t = one_loop(CELLS(1));
    judge_over("room 1, scratch 75", t, buchi(1), 1, 75);
    judge_over("room 1, scratch 76", t, buchi(1), 1, 76);
    judge_over("room 2, scratch 75", t, buchi(1), 2, 75);
    judge_over("room 2, scratch 76", t, buchi(1), 2, 76);
}

/* 0>0{0} and 0>0 with mark 1 or 2; then 0>0{}. */
static void mark_counts(void) {
    judged("Buchi 2, second loop with mark 1", TABLE(1, 2, zeros, zeros, CELLS(1, 2)), buchi(2));
    judged("Buchi 2, second loop with mark 2", TABLE(1, 2, zeros, zeros, CELLS(1, 4)), buchi(2));
    judged("Buchi 32", one_loop(zeros), buchi(32));
    judged("Buchi 33", one_loop(zeros), buchi(33));
    judged("Streett 16", one_loop(zeros), streett(16));
    judged("Streett 17", one_loop(zeros), streett(17));
}

/* 0>0{}; at last four loops that bear the marks 0 to 27 of the pairs 0 to 6, and of pair 7 the first three one needed mark each, the fourth all marks. */
static void pair_counts(void) {
    condition all = {MUKHADERO_KIND_RABIN, 8, {3, 3, 3, 3, 3, 3, 3, 3}}, more = all, last = rabin(7);
    more.needs[0] = 4;
    last.needs[7] = 1;
    judged("Rabin 8", one_loop(zeros), rabin(8));
    judged("Rabin 9", one_loop(zeros), rabin(9));
    judged("Rabin 8, 32 marks", one_loop(zeros), all);
    judged("Rabin 8, 33 marks", one_loop(zeros), more);
    judged("Rabin 7, an eighth need", one_loop(zeros), last);
    judged("Rabin 8, the last pair alone", TABLE(1, 4, zeros, zeros, CELLS(0x2fffffff, 0x4fffffff, 0x8fffffff, 0xffffffff)), all);
}

/*
 * For each i below 16, edge 2i is i>i+1{2i, 2i+3} and edge 2i+1 is i+1>i{}: in the part of the states from i on pair i alone is bad, and erasing its 2i
 * leaves the part of those from i+1 on. The innermost part is state 16 with edge 32, 16>16, which bears the marks given.
 */
static void nest(const char *label, uint32_t marked) {
    uint32_t from[33], to[33], marks[33];
    for (uint32_t i = 0; i < 16; i++) {
        from[2 * i] = to[2 * i + 1] = i;
        to[2 * i] = from[2 * i + 1] = i + 1;
        marks[2 * i] = (uint32_t)9 << (2 * i);
        marks[2 * i + 1] = 0;
    }
    from[32] = to[32] = 16;
    marks[32] = marked;
    judged(label, TABLE(17, 33, from, to, marks), streett(16));
}

/* 0>1, 1>2, .. up to 4095, and 4095>last{0}, under Buchi 1. */
static void path(const char *label, uint32_t last) {
    static uint32_t from[4096], to[4096], marks[4096];
    for (uint32_t i = 0; i < 4096; i++) {
        from[i] = i;
        to[i] = i + 1;
    }
    to[4095] = last;
    marks[4095] = 1;
    judged(label, TABLE(4096, 4096, from, to, marks), buchi(1));
}

static void judge_limits(void) {
    state_counts();
    stop_states();
    edge_counts();
    lent_lengths();
    mark_counts();
    pair_counts();
    nest("Streett 16, 16 erasings, a free loop left", 0);
    nest("Streett 16, 16 erasings, nothing left", 0x40000000);
    path("4096 states in a ring", 0);
    path("4096 states in a row, a loop at the last", 4095);
}

/* ---- the translation: the answer, then what the three outputs hold from cell `shown` on */

static void translate(const char *label, table t, uint32_t k, const size_t counts[3], size_t shown) {
    static const char *const labels[] = {" from=", " to=", " marks="};
    lent out[3];
    for (int i = 0; i < 3; i++) out[i] = lend(output_cells[i], counts[i]);
    mukhadero_table made = mukhadero_one_mark(
        t.states, t.start, t.from, t.edges, t.to, t.edges, t.marks, t.marked, k, out[0].cells, out[0].count, out[1].cells, out[1].count, out[2].cells,
        out[2].count);
    if (made.number == MUKHADERO_ANSWERED)
        printf("%s: made states=%u edges=%u start=%u", label, made.states, made.edges, made.start);
    else
        printf("%s: refused code=%u place=%u", label, made.number, made.place);
    for (int i = 0; i < 3; i++) {
        print_list(labels[i], out[i].cells + shown, out[i].count - shown);
        if (out[i].cells[out[i].count] != BEFORE) printf(" and behind");
    }
    printf("\n");
}

static void translate_evenly(const char *label, table t, uint32_t k, size_t count) { translate(label, t, k, (const size_t[]){count, count, count}, 0); }

/* One output is one cell short of `count`: each of the three in turn. */
static void translate_short(const char *label, table t, uint32_t k, size_t count) {
    for (int i = 0; i < 3; i++) {
        size_t counts[3] = {count, count, count};
        counts[i]--;
        translate(label, t, k, counts, 0);
    }
}

/* Table A, which needs six cells with k = 2; eight are lent, then six, then five. */
static void translate_table_a(void) {
    table a = TABLE(3, 3, CELLS(0, 1, 2), CELLS(1, 2, 1), CELLS(0, 1, 2)), second = a, beyond = a;
    second.start = 1;
    beyond.start = 3;
    translate_evenly("shift case 14, two cells more", a, 2, 8);
    translate_evenly("as many cells as needed, start 1", second, 2, 6);
    translate_short("one cell short", a, 2, 6);
    translate_evenly("start 3", beyond, 2, 8);
    translate_evenly("k = 33", a, 33, 8);
    translate_evenly("k = 1 with a mark 1", a, 1, 8);
}

/* One state with two edges 0>0, the second unmarked; 64 cells are lent. Then a loop with the marks 0 and 1 at the last state. */
static void translate_loops(void) {
    table last = {2048, 2047, CELLS(2047), CELLS(2047), CELLS(3), 1, 1}, beyond = {2049, 2048, CELLS(2048), CELLS(2048), CELLS(3), 1, 1};
    translate_evenly("k = 0", TABLE(1, 2, zeros, zeros, zeros), 0, 64);
    translate_evenly("k = 1", TABLE(1, 2, zeros, zeros, CELLS(1, 0)), 1, 64);
    translate_evenly("k = 32, all marks", TABLE(1, 2, zeros, zeros, CELLS(0xffffffff, 0)), 32, 64);
    translate_evenly("k = 32, all marks but 5", TABLE(1, 2, zeros, zeros, CELLS(0xffffffdf, 0)), 32, 64);
    translate_evenly("n = 2048", last, 2, 3);
    translate_evenly("n = 2049", beyond, 2, 3);
}

/* States 0 to 3, 0>1{}, 2>2{}: states 1 and 3 are stop states. Four cells are needed with k = 0; five are lent, then three. */
static void translate_stops(void) {
    table t = TABLE(4, 2, CELLS(0, 2), CELLS(1, 2), zeros);
    translate_evenly("two stop states, k = 0", t, 0, 5);
    translate_evenly("two stop states, k = 1", t, 1, 5);
    translate_evenly("two stop states, k = 2", t, 2, 5);
    translate_short("two stop states, k = 0, one cell short", t, 0, 4);
    translate_short("two stop states, k = 1, the same cells", t, 1, 4);
}

/* n states, and m unmarked loops at state 0; 32,768 cells are lent, and the last of each output is printed. */
static void many_loops(const char *label, uint32_t n, size_t m, uint32_t k) {
    translate(label, TABLE(n, m, zeros, zeros, zeros), k, (const size_t[]){32768, 32768, 32768}, 32767);
}

static void translation_limits(void) {
    translate_table_a();
    translate_loops();
    translate_stops();
    many_loops("m = 16384, k = 2", 1, 16384, 2);
    many_loops("m = 16385, k = 2", 1, 16385, 2);
    many_loops("m = 32767 and a stop state, k = 0", 2, 32767, 0);
    many_loops("m = 32768 and a stop state, k = 0", 2, 32768, 0);
    many_loops("m = 32768 and a stop state, k = 1", 2, 32768, 1);
    many_loops("m = 28673 and 4095 stop states, k = 0", 4096, 28673, 0);
    many_loops("m = 28674 and 4095 stop states, k = 0", 4096, 28674, 0);
    many_loops("no edges, k = 0", 4096, 0, 0);
}

int main(void) {
    shift_cases();
    depths();
    judge_limits();
    translation_limits();
    return 0;
}
