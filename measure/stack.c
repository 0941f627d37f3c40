/* The deepest stack of each exported call, its return address included: each is called on a painted stack of its own, on
 * schedule W in each form and for each form asked for, or the echo table, its drawing and its second edition, or W's log, or a
 * search that goes eight steps deep, or a check of a list, and the lowest byte that lost its paint is looked up. Prints 'NAME BYTES'. */
#define _XOPEN_SOURCE 600
#include "macaroosh.h"

#include <stdio.h>
#include <string.h>
#include <ucontext.h>

#define PAINT 0xA5

static const uint8_t echo[] = {
    0x01, 0x00, 0x01, 0x00, 0x00, 0x01, 0x02, 0x01, 0x00, 0x00, 0x00, 0x00, 0x00, 0x00, 0x02, 0x00, 0x01,
    0x01, 0x00, 0x03, 0x01, 0xFF, 0x00, 0x01, 0x02, 0x00, 0x00, 0x00, 0x02, 0x02, 0x00, 0x00, 0x00, 0x02,
    0x03, 0x01, 0xFF, 0x00, 0x03, 0x03, 0x00, 0x00, 0x00, 0x2B, 0x00, 0x23, 0x00, 0x04, 0x07, 0x01, 0x03,
};
static const uint8_t forms[3][31] = {
    {
        0x01, 0x01, 0x01, 0x00, 0x03, 0xFF, 0xFF, 0x01, 0x03, 0xFF, 0xFF, 0x02, 0x03, 0x00, 0x00, 0x02,
        0x04, 0x00, 0x03, 0x02, 0x05, 0x00, 0x01, 0x14, 0x00, 0x17, 0x00, 0x04, 0x01, 0x01, 0x00,
    },
    {
        0x01, 0x01, 0x01, 0x00, 0x03, 0xFF, 0xFF, 0x01, 0x03, 0xFF, 0xFF, 0x02, 0x03, 0x00, 0x00, 0x02,
        0x04, 0x00, 0x01, 0x02, 0x05, 0x00, 0x00, 0x14, 0x00, 0x17, 0x00, 0x04, 0x01, 0x01, 0x01,
    },
    {
        0x01, 0x01, 0x01, 0x00, 0x03, 0xFF, 0xFF, 0x01, 0x03, 0xFF, 0xFF, 0x02, 0x03, 0x00, 0x00, 0x02,
        0x04, 0x00, 0x00, 0x02, 0x05, 0x00, 0x00, 0x14, 0x00, 0x17, 0x00, 0x04, 0x01, 0x01, 0x02,
    },
};

static const uint8_t without_steps[] = {0x01, 0x01, 0x01, 0x00, 0x00, 0x03, 0x00, 0x04, 0x01, 0x01, 0x00};
static const char service_log[] =
    "board 0 rule 3\n"
    "board 1 rule 3\n"
    "board 2 rule 3 type 0 from 0\n"
    "board 2 rule 4 type 0 from 3\n"
    "board 2 rule 5 type 0 from 1\n";

/* Six boards without an echo to send, of which each may hear two faulty ones: n = 8, t = f = 2, in counting form. */
static const uint8_t silent[] = {0x00, 0x00, 0x00, 0x00, 0x00, 0x00, 0x00, 0x00, 0x06, 0x00, 0x08, 0x02, 0x02, 0x01};

static uint8_t stack[1 << 16], out[32], text[MACAROOSH_MOST_DRAWING], table[MACAROOSH_MOST_TABLE], back[sizeof echo];
static size_t text_length, table_length;
static uint64_t words[MACAROOSH_MOST_WORDS], tried;
static const uint64_t start[20];
static const uint8_t *w;
static uint64_t asked;
static ucontext_t here, there;

/* Takes what a call takes at least, its return address; called by a pointer, so that it is called as the others are. */
static uint64_t idle(void) { return 0; }
static uint64_t (*volatile least)(void) = idle;

/* The result is looked at, so that no call is a jump. */
static volatile uint64_t answer;
static void nothing(void) { answer = least(); }
static void run(void) { answer = macaroosh_run(w, 31, echo, sizeof echo, words, MACAROOSH_MOST_WORDS); }
static void translate(void) { answer = macaroosh_translate(w, 31, echo, sizeof echo, out, sizeof out); }
static void translate_to(void) { answer = macaroosh_translate_to(w, 31, echo, sizeof echo, asked, out, sizeof out); }
static void first_step(void) { answer = macaroosh_first_step(w, 31, echo, sizeof echo); }
static void draw(void) { answer = macaroosh_draw(echo, sizeof echo, text, sizeof text); }
static void undraw(void) { answer = macaroosh_undraw(text, text_length, table, sizeof table); }
static void replay(void) {
    answer = macaroosh_replay(without_steps, sizeof without_steps, echo, sizeof echo, (const uint8_t *)service_log,
                              sizeof service_log - 1, out, sizeof out, words, MACAROOSH_MOST_WORDS);
}

static void search(void) {
    answer = macaroosh_search(silent, sizeof silent, echo, sizeof echo, MACAROOSH_MOST_DEPTH, 2000, out, sizeof out, &tried);
}

/* The start alone, from which a step leads outside. */
static void check(void) { answer = macaroosh_check_list(silent, sizeof silent, echo, sizeof echo, start, 20); }

static void to_second(void) { answer = macaroosh_to_second(echo, sizeof echo, table, sizeof table); }
static void to_first(void) { answer = macaroosh_to_first(table, table_length, back, sizeof back); }

/* How many bytes of the painted stack a call took. */
static size_t taken(void (*call)(void)) {
    size_t i = 0;
    memset(stack, PAINT, sizeof stack);
    getcontext(&there);
    there.uc_stack.ss_sp = stack;
    there.uc_stack.ss_size = sizeof stack;
    there.uc_link = &here;
    makecontext(&there, call, 0);
    swapcontext(&here, &there);
    while (stack[i] == PAINT) i++;
    return sizeof stack - i;
}

static void measure(const char *name, void (*call)(void)) {
    size_t base = taken(nothing), most = 0, form;
    for (form = 0; form < 3; form++) {
        w = forms[form];
        for (asked = 0; asked < 3; asked++) {
            size_t bytes = taken(call) - base + sizeof(void *);
            if (bytes > most) most = bytes;
        }
    }
    printf("%s %u\n", name, (unsigned)most);
}

int main(void) {
    measure("macaroosh_run", run);
    measure("macaroosh_translate", translate);
    measure("macaroosh_translate_to", translate_to);
    measure("macaroosh_first_step", first_step);
    measure("macaroosh_draw", draw);
    text_length = macaroosh_count(answer);
    measure("macaroosh_undraw", undraw);
    measure("macaroosh_replay", replay);
    measure("macaroosh_search", search);
    measure("macaroosh_check_list", check);
    measure("macaroosh_to_second", to_second);
    table_length = macaroosh_count(answer);
    measure("macaroosh_to_first", to_first);
    return 0;
}
