/* Runs schedule W of three correct boards and a faulty one beside the echo table, and prints what it leaves: each board's state,
 * how many echoes it has from correct and from faulty boards, and the first step that is possible then. Compiles as C99 and as
 * C++17:
 *   cc -std=c99 -Icrates/capi crates/capi/example_run.c target/staticlib/libcapi.a */
#include "macaroosh.h"

#include <stdio.h>

static const uint8_t echo[] = {
    0x01, 0x00, 0x01, 0x00, 0x00, 0x01, 0x02, 0x01, 0x00, 0x00, 0x00, 0x00, 0x00, 0x00, 0x02, 0x00, 0x01,
    0x01, 0x00, 0x03, 0x01, 0xFF, 0x00, 0x01, 0x02, 0x00, 0x00, 0x00, 0x02, 0x02, 0x00, 0x00, 0x00, 0x02,
    0x03, 0x01, 0xFF, 0x00, 0x03, 0x03, 0x00, 0x00, 0x00, 0x2B, 0x00, 0x23, 0x00, 0x04, 0x07, 0x01, 0x03,
};

/* In counting form: three starts, five steps, n = 4, t = 1, f = 1. */
static const uint8_t w[] = {
    0x01, 0x01, 0x01, 0x00, 0x03, 0xFF, 0xFF, 0x01, 0x03, 0xFF, 0xFF, 0x02, 0x03, 0x00, 0x00, 0x02,
    0x04, 0x00, 0x01, 0x02, 0x05, 0x00, 0x00, 0x14, 0x00, 0x17, 0x00, 0x04, 0x01, 0x01, 0x01,
};

enum { BOARDS = 3 };

int main(void) {
    uint64_t words[MACAROOSH_MOST_WORDS];
    const uint64_t ran = macaroosh_run(w, sizeof w, echo, sizeof echo, words, MACAROOSH_MOST_WORDS);
    if (macaroosh_refusal(ran) != 0) {
        printf("refused with %u at %u\n", macaroosh_refusal(ran), (unsigned)macaroosh_place(ran));
        return 1;
    }
    printf("%u steps accepted\n", (unsigned)macaroosh_count(ran));
    for (unsigned p = 0; p < BOARDS; p++) {
        printf("board %u: state %u, %u correct, %u faulty\n", p, (unsigned)words[p], (unsigned)words[BOARDS + 2 * p],
               (unsigned)words[BOARDS + 2 * p + 1]);
    }
    printf("sent: %u\n", (unsigned)words[BOARDS + 2 * BOARDS]);

    const uint64_t first = macaroosh_first_step(w, sizeof w, echo, sizeof echo);
    if (macaroosh_step_given(first)) {
        printf("next: board %u by rule %u, type %u from %u\n", macaroosh_step_board(first), macaroosh_step_rule(first),
               macaroosh_step_type(first), macaroosh_step_source(first));
    } else {
        printf("next: nothing but waits\n");
    }
    return 0;
}
