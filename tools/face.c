/* The header against the archive, in C and in C++: tools/outside compiles this with every warning an error, and runs it. */
#include <stdio.h>
#include <string.h>
#include "mukhadero.h"

static int failed = 0;

static void expect(int holds, const char *what) {
    if (!holds) {
        printf("face: %s: FAILED\n", what);
        failed = 1;
    }
}

/* the macros are constants, for arrays that are not allocated */
enum { STATES = 4, EDGES = 4, PAIRS = 2 };
static uint32_t room[MUKHADERO_ROOM_CELLS(PAIRS, STATES)], scratch[MUKHADERO_SCRATCH_WORDS(STATES, EDGES)];
enum { ROOM = sizeof room / sizeof *room, SCRATCH = sizeof scratch / sizeof *scratch };

int main(void) {
    const uint32_t from[EDGES] = {0, 1, 2, 3}, to[EDGES] = {1, 2, 3, 1}, marks[EDGES] = {1, 0, 2, 0}, needs[8] = {1, 0, 0, 0, 0, 0, 0, 0};
    const uint32_t loop[1] = {0}, mark[1] = {1};
    const char job[] = "form=2\nstates=1\nstart=0\nkind=buchi\ncount=1\nneed=-\nedges=1\nedge=0,0,00000001\nend=job\n";
    uint32_t none = 0, out_from[5], out_to[5], out_marks[5];
    mukhadero_answer a;
    mukhadero_table t;
    mukhadero_text w;
    mukhadero_hoa h;
    static uint8_t text[MUKHADERO_MOST_HOA_BYTES];

    expect(mukhadero_version() == MUKHADERO_VERSION, "the archive has the version of the header");
    expect(MUKHADERO_ROOM_CELLS(PAIRS, none) == 0, "no states need no room");
    expect(MUKHADERO_ROOM_CELLS(1, 1) == 2 && ROOM == 15, "(r + 2) n - 1 cells of room");
    expect(MUKHADERO_SCRATCH_WORDS(none, none) == 64 && SCRATCH == 112, "8 n + 4 m + 64 words of scratch");

    a = mukhadero_judge_rabin(STATES, 0, from, EDGES, to, EDGES, marks, EDGES, 1, needs, room, ROOM, scratch, SCRATCH);
    expect(a.verdict == MUKHADERO_VERDICT_RUN && a.number == MUKHADERO_ANSWERED && a.pair == 0, "a forbidden mark on the prefix only is no hindrance");
    expect(a.prefix_length >= 1 && a.prefix_length < STATES && a.cycle_length >= 3 && a.cycle_length <= 2 * STATES, "a prefix and a cycle");
    expect(room[0] == 0 && to[room[a.prefix_length - 1]] == from[room[a.prefix_length]], "the lasso stands in the room");
    a = mukhadero_judge_buchi(STATES, 0, from, EDGES, to, EDGES, marks, EDGES, 2, room, ROOM, scratch, SCRATCH);
    expect(a.verdict == MUKHADERO_VERDICT_EMPTY && a.number == MUKHADERO_ANSWERED, "mark 0 does not come round");
    a = mukhadero_judge_streett(1, 0, loop, 1, loop, 1, mark, 1, 1, room, ROOM, scratch, SCRATCH);
    expect(a.verdict == MUKHADERO_VERDICT_EMPTY && a.depth == 1, "one loop with a left mark: one level");
    a = mukhadero_judge_streett(STATES, 0, from, EDGES, to, EDGES, marks, EDGES, 0, room, ROOM, scratch, SCRATCH);
    expect(a.verdict == MUKHADERO_VERDICT_REFUSED && a.number == MUKHADERO_REFUSED_EDGE_MARK && a.place == 0 && a.depth == 0, "a mark that the condition does not use");
    t = mukhadero_one_mark(STATES, 0, from, EDGES, to, EDGES, marks, EDGES, 1, out_from, 5, out_to, 5, out_marks, 5);
    expect(t.number == MUKHADERO_REFUSED_EDGE_MARK && t.place == 2, "the translation refuses as the judge does");

    /* a count of 0 with no pointer */
    a = mukhadero_judge_buchi(1, 0, NULL, 0, NULL, 0, NULL, 0, 0, room, 1, scratch, 72);
    expect(a.verdict == MUKHADERO_VERDICT_RUN && a.prefix_length == 0 && a.cycle_length == 1 && room[0] == MUKHADERO_STOP, "no edges: the start waits");
    a = mukhadero_judge_buchi(1, 0, NULL, 0, NULL, 0, NULL, 0, 1, room, 2, scratch, 72);
    expect(a.verdict == MUKHADERO_VERDICT_EMPTY, "a waiting edge bears no mark");
    a = mukhadero_judge_buchi(0, 0, NULL, 0, NULL, 0, NULL, 0, 0, NULL, 0, NULL, 0);
    expect(a.verdict == MUKHADERO_VERDICT_REFUSED && a.number == MUKHADERO_REFUSED_STATES, "no states");
    t = mukhadero_one_mark(1, 0, NULL, 0, NULL, 0, NULL, 0, 1, NULL, 0, NULL, 0, NULL, 0);
    expect(t.number == MUKHADERO_ANSWERED && t.states == 1 && t.edges == 0, "no edges to translate");
    t = mukhadero_one_mark(1, 0, NULL, 0, NULL, 0, NULL, 0, 0, out_from, 5, out_to, 5, out_marks, 5);
    expect(t.number == MUKHADERO_ANSWERED && t.edges == 1 && out_from[0] == 0 && out_to[0] == 0 && out_marks[0] == 1, "the waiting edge written out");

    /* a text that is written is read back */
    w = mukhadero_write_hoa_rabin(STATES, 0, from, EDGES, to, EDGES, marks, EDGES, 1, needs, text, sizeof text);
    expect(w.number == MUKHADERO_ANSWERED && w.length > 8 && w.length < sizeof text && text[w.length] == 0, "a text is written");
    h = mukhadero_read_hoa(text, MUKHADERO_SIZE(w.length), out_from, 5, out_to, 5, out_marks, 5);
    expect(h.number == MUKHADERO_ANSWERED && h.kind == MUKHADERO_KIND_RABIN && h.count == 1 && h.needs[0] == 1 && h.needs[1] == 0, "the condition is read back");
    expect(h.states == STATES && h.start == 0 && h.edges == EDGES && h.place == 0, "the table is read back");
    expect(out_from[3] == 3 && out_to[3] == 1 && out_marks[2] == 2 && out_from[4] == 0 && out_to[4] == 0 && out_marks[4] == 0, "its edges are read back");
    h = mukhadero_read_hoa(text, MUKHADERO_SIZE(w.length), out_from, 3, out_to, 5, out_marks, 5);
    expect(h.number == MUKHADERO_REFUSED_OUTPUT && h.place == 0 && h.states == 0, "a table that is too short to be read into");
    text[0] = 'h';
    h = mukhadero_read_hoa(text, MUKHADERO_SIZE(w.length), out_from, 5, out_to, 5, out_marks, 5);
    expect(h.number == MUKHADERO_REFUSED_HOA_SYNTAX && h.place == 0 && h.edges == 0, "no text in the Hanoi format");
    h = mukhadero_read_hoa(NULL, 0, NULL, 0, NULL, 0, NULL, 0);
    expect(h.number == MUKHADERO_REFUSED_HOA_SYNTAX && h.place == 0, "no text at all");
    w = mukhadero_write_hoa_buchi(STATES, 0, from, EDGES, to, EDGES, marks, EDGES, 2, text, 10);
    expect(w.number == MUKHADERO_REFUSED_OUTPUT && w.length == 0, "an output that is too short for a text");
    w = mukhadero_write_hoa_streett(257, 0, NULL, 0, NULL, 0, NULL, 0, 0, text, sizeof text);
    expect(w.number == MUKHADERO_REFUSED_HOA_LIMIT && w.place == 0, "more states than a text may have");

    /* a table with one mark is written as a job text */
    w = mukhadero_write_job(1, 0, loop, 1, loop, 1, mark, 1, text, sizeof text);
    expect(w.number == MUKHADERO_ANSWERED && w.place == 0 && w.length == sizeof job - 1, "a job text is written");
    expect(memcmp(text, job, sizeof job) == 0, "the job text, and a zero behind it");
    w = mukhadero_write_job(1, 0, loop, 1, loop, 1, mark, 1, text, sizeof job - 2);
    expect(w.number == MUKHADERO_REFUSED_OUTPUT && w.length == 0, "an output that is too short for a job text");
    w = mukhadero_write_job(257, 0, NULL, 0, NULL, 0, NULL, 0, NULL, 0);
    expect(w.number == MUKHADERO_REFUSED_PROGRAM_LIMIT && w.place == 0, "more states than a job may have comes before an output that is too short");
    w = mukhadero_write_job(STATES, 0, from, EDGES, to, EDGES, marks, EDGES, text, sizeof text);
    expect(w.number == MUKHADERO_REFUSED_EDGE_MARK && w.place == 2, "a mark above 0");
    return failed;
}
