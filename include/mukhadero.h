/*
 * mukhadero: does a table hold an accepted lasso? docs/RULES.md has the rules, complete.
 *
 * A table has states 0..n-1, a start state and edges 0..m-1; edge e leads from from[e] to to[e] and bears the marks whose bits are
 * set in marks[e]. A state that no edge leaves is a stop state: it has one waiting edge, MUKHADERO_STOP, which leads to the state
 * itself, bears no marks and stands in no table. A lasso is a prefix (a walk from the start, perhaps empty) and a cycle (a non-empty
 * walk from the end of the prefix back to it). The judge answers "run" with an accepted lasso, "empty" if there is none, or refuses
 * with a number and a place.
 *
 * What a caller must see to; no other input is undefined:
 * - Each pointer is good for its count of cells, of 32 bits and aligned as uint32_t is, or of bytes for a text. A count may be 0; its
 *   pointer is then not followed and may be NULL. `needs` has no count: it always points to eight cells and is never NULL.
 * - A buffer that is written (room, scratch, outputs, the tables that a text is read into) overlaps no other buffer of the same call.
 *
 * Memory: nothing is allocated and nothing is kept between calls. A call takes less than 64 KB of stack, whatever the table;
 * mukhadero_read_hoa less than 96 KB, whatever the text.
 * Threads: calls may run at the same time. Tables and needs are only read and may be shared; room, scratch and outputs may not.
 * Platform: x86-64 Linux, the C calling convention there; of the C library only memset and memcpy are used.
 *
 * Link with target/staticlib/libmukhadero.a: a release has it, and in the sources `tools/build mukhadero` makes it. mukhadero.pc, in
 * the root of both, is for pkg-config.
 */
#ifndef MUKHADERO_H
#define MUKHADERO_H

#include <stddef.h>
#include <stdint.h>

/* The version of this header; mukhadero_version() gives that of the archive. They must be equal. */
#define MUKHADERO_VERSION_STRING "2.0.0"
#define MUKHADERO_VERSION_MAJOR  2
#define MUKHADERO_VERSION_MINOR  0
#define MUKHADERO_VERSION_PATCH  0
#define MUKHADERO_VERSION (10000 * MUKHADERO_VERSION_MAJOR + 100 * MUKHADERO_VERSION_MINOR + MUKHADERO_VERSION_PATCH)

#ifdef __cplusplus
#define MUKHADERO_SIZE(x) (static_cast<size_t>(x))
extern "C" {
#else
#define MUKHADERO_SIZE(x) ((size_t)(x))
#endif

/* Limits of the rows below. */
enum {
    MUKHADERO_MOST_STATES        = 4096,
    MUKHADERO_MOST_EDGES         = 32768,
    MUKHADERO_MOST_BUCHI_MARKS   = 32,
    MUKHADERO_MOST_STREETT_PAIRS = 16,
    MUKHADERO_MOST_RABIN_PAIRS   = 8,
    MUKHADERO_MOST_RABIN_MARKS   = 32, /* forbidden and needed marks of all pairs together */
    MUKHADERO_MOST_HOA_STATES    = 256,
    MUKHADERO_MOST_HOA_EDGES     = 512, /* tables of so many cells are never too short to be read into */
    MUKHADERO_MOST_HOA_BYTES     = 52205, /* an output of so many bytes is never too short to be written to */
    MUKHADERO_MOST_JOB_STATES    = 256,
    MUKHADERO_MOST_JOB_EDGES     = 512,
    MUKHADERO_MOST_JOB_BYTES     = 11336 /* an output of so many bytes is never too short for a job text to be written to */
};

/* In the room: the waiting edge of a stop state. The walk halts there for ever. */
#define MUKHADERO_STOP 65535

/* The field `verdict` of an answer. */
enum {
    MUKHADERO_VERDICT_REFUSED = 0,
    MUKHADERO_VERDICT_EMPTY   = 1,
    MUKHADERO_VERDICT_RUN     = 2
};

/* The field `number` of an answer. The place is 0 unless said otherwise. */
enum {
    MUKHADERO_ANSWERED              = 0,
    MUKHADERO_REFUSED_STATES        = 1,  /* n is 0 or above 4,096 */
    MUKHADERO_REFUSED_EDGES         = 2,  /* the three edge tables differ in length, or m is above 32,768 */
    MUKHADERO_REFUSED_START         = 3,  /* start is not below n */
    MUKHADERO_REFUSED_CONDITION     = 4,  /* Buchi above 32 marks, Streett above 16 pairs, Rabin above 8 pairs, a need from p on
                                             not 0, or Rabin marks above 32 in all */
    MUKHADERO_REFUSED_EDGE_END      = 5,  /* an edge end is not below n; place: the edge */
    MUKHADERO_REFUSED_EDGE_ORDER    = 6,  /* an edge's from is below the one before it; place: the edge */
    MUKHADERO_REFUSED_EDGE_MARK     = 7,  /* an edge bears a mark that the condition does not use; place: the edge */
    MUKHADERO_REFUSED_ROOM          = 8,  /* the lasso room is too short */
    MUKHADERO_REFUSED_SCRATCH       = 9,  /* the scratch is too short */
    MUKHADERO_REFUSED_TABLE_SIZE    = 10, /* the translated table would be above 4,096 states or 32,768 edges */
    MUKHADERO_REFUSED_OUTPUT        = 11, /* a lent output is shorter than the translated edge count, the edges that were read, or the
                                             text that was to be written */
    MUKHADERO_REFUSED_TEXT_LENGTH   = 20, /* job text above 12,288 bytes (20 to 22: only the programs) */
    MUKHADERO_REFUSED_LINE_KEY      = 21, /* a line has the wrong key, is missing, or follows the end; place: the line */
    MUKHADERO_REFUSED_LINE_VALUE    = 22, /* a value is not of its form; place: the line */
    MUKHADERO_REFUSED_PROGRAM_LIMIT = 23, /* above the limits of a job; place: the line, and 0 where a job text was to be written */
    MUKHADERO_REFUSED_HOA_SYNTAX    = 40, /* not the Hanoi format, version 1; place: the byte where the faulty token begins */
    MUKHADERO_REFUSED_HOA_SUBSET    = 41, /* outside of what is read of it; place: the byte */
    MUKHADERO_REFUSED_HOA_LIMIT     = 42  /* above its limits; place: the byte, and 0 where a text was to be written */
};

/* The field `kind` of what was read. */
enum {
    MUKHADERO_KIND_BUCHI   = 0,
    MUKHADERO_KIND_STREETT = 1,
    MUKHADERO_KIND_RABIN   = 2
};

/*
 * Lasso room that is never too short for n states, in cells of 32 bits; r is k for Buchi, p for Streett, the largest need for Rabin.
 * 0 if n is 0, which is refused anyway. Like the next, for numbers within the limits above; n may be evaluated twice.
 */
#define MUKHADERO_ROOM_CELLS(r, n) ((n) == 0 ? MUKHADERO_SIZE(0) : (MUKHADERO_SIZE(r) + 2) * MUKHADERO_SIZE(n) - 1)
/* Scratch that is never too short for n states and m edges, in words of 32 bits. */
#define MUKHADERO_SCRATCH_WORDS(n, m) (8 * MUKHADERO_SIZE(n) + 4 * MUKHADERO_SIZE(m) + 64)

/* A judge's answer. A field that has no meaning for the verdict is 0. */
typedef struct mukhadero_answer {
    uint32_t verdict;       /* MUKHADERO_VERDICT_.. */
    uint32_t number;        /* MUKHADERO_ANSWERED, or the cause of the refusal */
    uint32_t place;         /* refused: the place that belongs to the number */
    uint32_t pair;          /* Rabin run: the lowest pair that some lasso meets; this lasso meets it */
    uint32_t prefix_length; /* run: room[0 .. prefix_length) are the edges of the prefix; at most n-1 */
    uint32_t cycle_length;  /* run: room[prefix_length .. prefix_length + cycle_length) are those of the cycle; at most (r+1)*n */
    uint32_t depth;         /* Streett, empty: how deep the erasing went, the deepest level of the erasing tree; 1 to p */
} mukhadero_answer;

/* The translation's answer. All but number and place are 0 if it was refused. */
typedef struct mukhadero_table {
    uint32_t number; /* MUKHADERO_ANSWERED, or the cause of the refusal */
    uint32_t place;  /* refused: the place that belongs to the number */
    uint32_t states; /* states of the translated table: n*K, where K is k, or 1 if k is 0 */
    uint32_t edges;  /* edges of the translated table: m*K */
    uint32_t start;  /* start of the translated table: start*K */
} mukhadero_table;

/* What a text in the Hanoi format says. All but number and place are 0 if it was refused. */
typedef struct mukhadero_hoa {
    uint32_t number;   /* MUKHADERO_ANSWERED, or the cause of the refusal */
    uint32_t kind;     /* MUKHADERO_KIND_.. */
    uint64_t place;    /* refused: the byte where the faulty token begins */
    uint32_t states;   /* number of states */
    uint32_t start;    /* the start state */
    uint32_t edges;    /* number of edges: from, to and marks hold so many cells, then zeros */
    uint32_t count;    /* number of marks (Buchi) or pairs (Streett, Rabin) */
    uint32_t needs[8]; /* Rabin: needed marks of each pair */
} mukhadero_hoa;

/* What writing a text gives. */
typedef struct mukhadero_text {
    uint32_t number; /* MUKHADERO_ANSWERED, or the cause of the refusal */
    uint32_t place;  /* refused: the place that belongs to the number */
    uint64_t length; /* bytes of the text; 0 if it was refused */
} mukhadero_text;

/* The version of the archive, numbered as MUKHADERO_VERSION. */
uint32_t mukhadero_version(void);

/*
 * Buchi k: a lasso is accepted if its cycle bears each of the marks 0..k-1.
 *
 * After "run" the room holds the prefix, the cycle, then zeros to its end; after "empty" it is all zero; the scratch is all zero
 * after either. A refusal changes no lent cell. (The same holds for the other two judges.)
 */
mukhadero_answer mukhadero_judge_buchi(
    uint32_t n,              /* number of states */
    uint32_t start,          /* the start state */
    const uint32_t *from,    /* the state each edge leaves; never decreasing; only read */
    size_t from_len,         /* cells in from */
    const uint32_t *to,      /* the state each edge arrives at; only read */
    size_t to_len,           /* cells in to; must equal from_len */
    const uint32_t *marks,   /* the marks on each edge, mark i as bit i; only read */
    size_t marks_len,        /* cells in marks; must equal from_len */
    uint32_t k,              /* number of marks */
    uint32_t *room,          /* receives the lasso */
    size_t room_len,         /* cells in room; at least MUKHADERO_ROOM_CELLS(k, n) */
    uint32_t *scratch,       /* working space; what it holds before does not matter */
    size_t scratch_len       /* words in scratch; at least MUKHADERO_SCRATCH_WORDS(n, m) */
);

/* Streett p: a lasso is accepted if, for each pair i below p, its cycle bears mark 2i+1 or does not bear mark 2i. */
mukhadero_answer mukhadero_judge_streett(
    uint32_t n,              /* number of states */
    uint32_t start,          /* the start state */
    const uint32_t *from,    /* the state each edge leaves; never decreasing; only read */
    size_t from_len,         /* cells in from */
    const uint32_t *to,      /* the state each edge arrives at; only read */
    size_t to_len,           /* cells in to; must equal from_len */
    const uint32_t *marks,   /* the marks on each edge, mark i as bit i; only read */
    size_t marks_len,        /* cells in marks; must equal from_len */
    uint32_t p,              /* number of pairs */
    uint32_t *room,          /* receives the lasso */
    size_t room_len,         /* cells in room; at least MUKHADERO_ROOM_CELLS(p, n) */
    uint32_t *scratch,       /* working space; what it holds before does not matter */
    size_t scratch_len       /* words in scratch; at least MUKHADERO_SCRATCH_WORDS(n, m) */
);

/*
 * Rabin p: marks are dealt out in order; pair i takes one forbidden mark, then needs[i] needed marks. A lasso is accepted if, for
 * some pair, its cycle bears all the needed marks and not the forbidden one.
 */
mukhadero_answer mukhadero_judge_rabin(
    uint32_t n,              /* number of states */
    uint32_t start,          /* the start state */
    const uint32_t *from,    /* the state each edge leaves; never decreasing; only read */
    size_t from_len,         /* cells in from */
    const uint32_t *to,      /* the state each edge arrives at; only read */
    size_t to_len,           /* cells in to; must equal from_len */
    const uint32_t *marks,   /* the marks on each edge, mark i as bit i; only read */
    size_t marks_len,        /* cells in marks; must equal from_len */
    uint32_t p,              /* number of pairs */
    const uint32_t needs[8], /* needed marks of each pair; those from p on must be 0; only read; never NULL */
    uint32_t *room,          /* receives the lasso */
    size_t room_len,         /* cells in room; at least MUKHADERO_ROOM_CELLS(largest need, n) */
    uint32_t *scratch,       /* working space; what it holds before does not matter */
    size_t scratch_len       /* words in scratch; at least MUKHADERO_SCRATCH_WORDS(n, m) */
);

/*
 * The one-mark translation of a table under Buchi k, to be read as Buchi 1. Let K be k, or 1 if k is 0: state s at level j has
 * number s*K + j. Each output holds m*K cells, then zeros to its own end. A refusal changes no lent cell.
 */
mukhadero_table mukhadero_one_mark(
    uint32_t n,              /* number of states */
    uint32_t start,          /* the start state */
    const uint32_t *from,    /* the state each edge leaves; never decreasing; only read */
    size_t from_len,         /* cells in from */
    const uint32_t *to,      /* the state each edge arrives at; only read */
    size_t to_len,           /* cells in to; must equal from_len */
    const uint32_t *marks,   /* the marks on each edge, mark i as bit i; only read */
    size_t marks_len,        /* cells in marks; must equal from_len */
    uint32_t k,              /* number of marks */
    uint32_t *out_from,      /* receives the state each translated edge leaves */
    size_t out_from_len,     /* cells in out_from; at least m*K */
    uint32_t *out_to,        /* receives the state each translated edge arrives at */
    size_t out_to_len,       /* cells in out_to; at least m*K */
    uint32_t *out_marks,     /* receives the marks of each translated edge: 1 if it bears mark 0, else 0 */
    size_t out_marks_len     /* cells in out_marks; at least m*K */
);

/*
 * Reads a text in the Hanoi format (HOA version 1): at most 256 states, 512 edges with a satisfiable label, 6 propositions and 32 marks;
 * docs/RULES.md, "The Hanoi format", says which texts are read. The tables hold the edges, sorted by the states that they leave, then
 * zeros to their own ends. What is read is never refused by causes 1 to 7. A refusal changes no lent cell.
 */
mukhadero_hoa mukhadero_read_hoa(
    const uint8_t *text,     /* the text's bytes; only read */
    size_t text_len,         /* how many there are */
    uint32_t *from,          /* receives the state each edge leaves */
    size_t from_len,         /* cells in from; MUKHADERO_MOST_HOA_EDGES are always enough, here and below */
    uint32_t *to,            /* receives the state each edge arrives at */
    size_t to_len,           /* cells in to */
    uint32_t *marks,         /* receives the marks on each edge */
    size_t marks_len         /* cells in marks */
);

/*
 * Writes a table under Buchi k as a text in the Hanoi format. Refused are tables that the judge refuses by causes 1 to 7, those above
 * 256 states or 512 edges (42), and an output that is too short (11). A refusal changes no lent cell. (The same holds for the other two.)
 */
mukhadero_text mukhadero_write_hoa_buchi(
    uint32_t n,              /* number of states */
    uint32_t start,          /* the start state */
    const uint32_t *from,    /* the state each edge leaves; never decreasing; only read */
    size_t from_len,         /* cells in from */
    const uint32_t *to,      /* the state each edge arrives at; only read */
    size_t to_len,           /* cells in to; must equal from_len */
    const uint32_t *marks,   /* the marks on each edge, mark i as bit i; only read */
    size_t marks_len,        /* cells in marks; must equal from_len */
    uint32_t k,              /* number of marks */
    uint8_t *out,            /* receives the text, then zeros to its end */
    size_t out_len           /* bytes in out; MUKHADERO_MOST_HOA_BYTES are always enough */
);

/* Writes a table under Streett p. With no pairs it is read back as Buchi with no marks. */
mukhadero_text mukhadero_write_hoa_streett(
    uint32_t n,              /* number of states */
    uint32_t start,          /* the start state */
    const uint32_t *from,    /* the state each edge leaves; never decreasing; only read */
    size_t from_len,         /* cells in from */
    const uint32_t *to,      /* the state each edge arrives at; only read */
    size_t to_len,           /* cells in to; must equal from_len */
    const uint32_t *marks,   /* the marks on each edge, mark i as bit i; only read */
    size_t marks_len,        /* cells in marks; must equal from_len */
    uint32_t p,              /* number of pairs */
    uint8_t *out,            /* receives the text, then zeros to its end */
    size_t out_len           /* bytes in out; MUKHADERO_MOST_HOA_BYTES are always enough */
);

/* Writes a table under Rabin p. */
mukhadero_text mukhadero_write_hoa_rabin(
    uint32_t n,              /* number of states */
    uint32_t start,          /* the start state */
    const uint32_t *from,    /* the state each edge leaves; never decreasing; only read */
    size_t from_len,         /* cells in from */
    const uint32_t *to,      /* the state each edge arrives at; only read */
    size_t to_len,           /* cells in to; must equal from_len */
    const uint32_t *marks,   /* the marks on each edge, mark i as bit i; only read */
    size_t marks_len,        /* cells in marks; must equal from_len */
    uint32_t p,              /* number of pairs */
    const uint32_t needs[8], /* needed marks of each pair; those from p on must be 0; only read; never NULL */
    uint8_t *out,            /* receives the text, then zeros to its end */
    size_t out_len           /* bytes in out; MUKHADERO_MOST_HOA_BYTES are always enough */
);

/*
 * Writes a table read as Buchi 1, which is what mukhadero_one_mark makes, as a job text: `form=2`, states, start, `kind=buchi`, `count=1`,
 * `need=-`, edges, the edge lines, `end=job`. Refused are tables that the judge refuses under Buchi 1 by causes 1 to 7 (a mark above 0 is
 * cause 7), those above 256 states or 512 edges (23), and an output that is too short (11). A refusal changes no lent cell.
 */
mukhadero_text mukhadero_write_job(
    uint32_t n,              /* number of states */
    uint32_t start,          /* the start state */
    const uint32_t *from,    /* the state each edge leaves; never decreasing; only read */
    size_t from_len,         /* cells in from */
    const uint32_t *to,      /* the state each edge arrives at; only read */
    size_t to_len,           /* cells in to; must equal from_len */
    const uint32_t *marks,   /* the marks on each edge: 1 if it bears mark 0, else 0; only read */
    size_t marks_len,        /* cells in marks; must equal from_len */
    uint8_t *out,            /* receives the text, then zeros to its end */
    size_t out_len           /* bytes in out; MUKHADERO_MOST_JOB_BYTES are always enough */
);

#ifdef __cplusplus
}
#endif

#endif
