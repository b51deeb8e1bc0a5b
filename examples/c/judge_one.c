/* Two benches and one barcode: is there a shift in which both marks come round for ever? From the root of a release, or of the sources
 * after `tools/build mukhadero`:
 *   cc -Iinclude examples/c/judge_one.c target/staticlib/libmukhadero.a -o target/judge_one && target/judge_one
 */
#include <stdio.h>
#include "mukhadero.h"

int main(void) {
    /* 0>1{}, 1>2{0}, 2>1{1} under Buchi 2 */
    const uint32_t from[] = {0, 1, 2}, to[] = {1, 2, 1}, marks[] = {0, 1, 2};
    enum { N = 3, M = 3, K = 2 };
    uint32_t room[MUKHADERO_ROOM_CELLS(K, N)], scratch[MUKHADERO_SCRATCH_WORDS(N, M)];
    mukhadero_answer a = mukhadero_judge_buchi(N, 0, from, M, to, M, marks, M, K, room, sizeof room / sizeof *room,
                                               scratch, sizeof scratch / sizeof *scratch);
    const char *verdicts[] = {"refused", "empty", "run"};
    printf("%s, number %u, place %u; prefix", verdicts[a.verdict], a.number, a.place);
    for (uint32_t i = 0; i < a.prefix_length; i++) printf(" %u", room[i]);
    printf("; cycle");
    for (uint32_t i = 0; i < a.cycle_length; i++) printf(" %u", room[a.prefix_length + i]);
    printf("\n");
    return a.verdict == MUKHADERO_VERDICT_RUN ? 0 : 1;
}
