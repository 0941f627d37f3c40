/* The header from C: schedule W is run in each form, translated there and back and to each form, and asked for its first step,
 * as is a run that is quiet; the echo table is drawn and read back, and moved to the second edition and back; W's log is replayed;
 * a table with divisors is used and drawn; schedules are searched for; lists are checked; a board stops; receipts and sends are
 * counted; refusals leave lent memory alone. The last line is 'N passed, M failed'. */
#include "macaroosh.h"

#include <stdio.h>
#include <string.h>

static const uint8_t echo[] = {
    0x01, 0x00, 0x01, 0x00, 0x00, 0x01, 0x02, 0x01, 0x00, 0x00, 0x00, 0x00, 0x00, 0x00, 0x02, 0x00, 0x01,
    0x01, 0x00, 0x03, 0x01, 0xFF, 0x00, 0x01, 0x02, 0x00, 0x00, 0x00, 0x02, 0x02, 0x00, 0x00, 0x00, 0x02,
    0x03, 0x01, 0xFF, 0x00, 0x03, 0x03, 0x00, 0x00, 0x00, 0x2B, 0x00, 0x23, 0x00, 0x04, 0x07, 0x01, 0x03,
};
static const uint8_t w[] = {
    0x01, 0x01, 0x01, 0x00, 0x03, 0xFF, 0xFF, 0x01, 0x03, 0xFF, 0xFF, 0x02, 0x03, 0x00, 0x00, 0x02,
    0x04, 0x00, 0x03, 0x02, 0x05, 0x00, 0x01, 0x14, 0x00, 0x17, 0x00, 0x04, 0x01, 0x01, 0x00,
};
static const uint8_t counting[] = {
    0x01, 0x01, 0x01, 0x00, 0x03, 0xFF, 0xFF, 0x01, 0x03, 0xFF, 0xFF, 0x02, 0x03, 0x00, 0x00, 0x02,
    0x04, 0x00, 0x01, 0x02, 0x05, 0x00, 0x00, 0x14, 0x00, 0x17, 0x00, 0x04, 0x01, 0x01, 0x01,
};
static const uint8_t plain[] = {
    0x01, 0x01, 0x01, 0x00, 0x03, 0xFF, 0xFF, 0x01, 0x03, 0xFF, 0xFF, 0x02, 0x03, 0x00, 0x00, 0x02,
    0x04, 0x00, 0x00, 0x02, 0x05, 0x00, 0x00, 0x14, 0x00, 0x17, 0x00, 0x04, 0x01, 0x01, 0x02,
};
/* Plain W in counting form, where three correct echoes are in transit; and in message form, with their senders. */
static const uint8_t all_correct[] = {
    0x01, 0x01, 0x01, 0x00, 0x03, 0xFF, 0xFF, 0x01, 0x03, 0xFF, 0xFF, 0x02, 0x03, 0x00, 0x00, 0x02,
    0x04, 0x00, 0x00, 0x02, 0x05, 0x00, 0x00, 0x14, 0x00, 0x17, 0x00, 0x04, 0x01, 0x01, 0x01,
};
static const uint8_t of_0_1_2[] = {
    0x01, 0x01, 0x01, 0x00, 0x03, 0xFF, 0xFF, 0x01, 0x03, 0xFF, 0xFF, 0x02, 0x03, 0x00, 0x00, 0x02,
    0x04, 0x00, 0x01, 0x02, 0x05, 0x00, 0x02, 0x14, 0x00, 0x17, 0x00, 0x04, 0x01, 0x01, 0x00,
};
/* No board has an echo to send and none is faulty: n = 4, t = 1, f = 0, no steps. */
static const uint8_t quiet[] = {0x00, 0x00, 0x00, 0x00, 0x00, 0x00, 0x04, 0x00, 0x04, 0x01, 0x00, 0x00};

static const char drawing[] =
    "digraph t {\n"
    "T=1; k=3;\n"
    "s0 [label=\"1 0\"];\n"
    "s1 [label=\"1 0\"];\n"
    "s2 [label=\"0 1\"];\n"
    "s3 [label=\"2 1\"];\n"
    "s0 -> s0 [label=\"0 0 0\"];\n"
    "s0 -> s2 [label=\"0 1 1\"];\n"
    "s0 -> s3 [label=\"1 -1 0\"];\n"
    "s1 -> s2 [label=\"0 0 0\"];\n"
    "s2 -> s2 [label=\"0 0 0\"];\n"
    "s2 -> s3 [label=\"1 -1 0\"];\n"
    "s3 -> s3 [label=\"0 0 0\"];\n"
    "}\n";

/* W without its steps, and its log. */
static const uint8_t without_steps[] = {0x01, 0x01, 0x01, 0x00, 0x00, 0x03, 0x00, 0x04, 0x01, 0x01, 0x00};
static const char service_log[] =
    "board 0 rule 3\n"
    "board 1 rule 3\n"
    "board 2 rule 3 type 0 from 0\n"
    "board 2 rule 4 type 0 from 3\n"
    "board 2 rule 5 type 0 from 1\n";

/* The echo table in the second edition, where accepting takes more than (n + t)/2 echoes: (n + t + 1)/2, rounded up. */
static const uint8_t majority[] = {
    0x01, 0x00, 0x01, 0x00, 0x00, 0x01, 0x02, 0x01, 0x00, 0x00, 0x00, 0x00, 0x00, 0x01, 0x00, 0x02, 0x00, 0x01, 0x01, 0x01,
    0x00, 0x03, 0x01, 0x01, 0x01, 0x02, 0x01, 0x02, 0x00, 0x00, 0x00, 0x01, 0x02, 0x02, 0x00, 0x00, 0x00, 0x01, 0x02, 0x03,
    0x01, 0x01, 0x01, 0x02, 0x03, 0x03, 0x00, 0x00, 0x00, 0x01, 0x32, 0x00, 0x2A, 0x00, 0x04, 0x07, 0x11, 0x03,
};
/* n = 5, t = f = 1: board 2 hears boards 0, 1 and 4, and then itself. */
static const uint8_t four_of_five[] = {
    0x01, 0x01, 0x01, 0x01, 0x00, 0x03, 0xFF, 0xFF, 0x01, 0x03, 0xFF, 0xFF, 0x02, 0x03, 0xFF, 0xFF, 0x02, 0x04, 0x00, 0x00,
    0x02, 0x04, 0x00, 0x01, 0x02, 0x04, 0x00, 0x04, 0x02, 0x05, 0x00, 0x02, 0x1C, 0x00, 0x20, 0x00, 0x05, 0x01, 0x01, 0x00,
};
static const char majority_drawing[] =
    "digraph t {\n"
    "T=17; k=3;\n"
    "s0 [label=\"1 0\"];\n"
    "s1 [label=\"1 0\"];\n"
    "s2 [label=\"0 1\"];\n"
    "s3 [label=\"2 1\"];\n"
    "s0 -> s0 [label=\"0 0 0 1\"];\n"
    "s0 -> s2 [label=\"0 1 1 1\"];\n"
    "s0 -> s3 [label=\"1 1 1 2\"];\n"
    "s1 -> s2 [label=\"0 0 0 1\"];\n"
    "s2 -> s2 [label=\"0 0 0 1\"];\n"
    "s2 -> s3 [label=\"1 1 1 2\"];\n"
    "s3 -> s3 [label=\"0 0 0 1\"];\n"
    "}\n";

static int passed, failed;

static void check(const char *what, int holds) {
    if (holds) {
        passed++;
    } else {
        failed++;
        printf("c: %s\n", what);
    }
}

static int answers(uint64_t packed, unsigned refusal, uint32_t place, uint32_t count) {
    return macaroosh_refusal(packed) == refusal && macaroosh_place(packed) == place && macaroosh_count(packed) == count;
}

static void runs(void) {
    static const uint64_t message_words[] = {2, 2, 3, 0, 0, 11, 7, 0, 99};
    static const uint64_t counting_words[] = {2, 2, 3, 0, 0, 0, 0, 2, 1, 3, 0, 99};
    static const uint64_t plain_words[] = {2, 2, 3, 0, 0, 3, 3, 0, 99};
    uint64_t words[MACAROOSH_MOST_WORDS];
    size_t i;
    for (i = 0; i < MACAROOSH_MOST_WORDS; i++) words[i] = 99;
    check("W runs", answers(macaroosh_run(w, sizeof w, echo, sizeof echo, words, MACAROOSH_MOST_WORDS), 0, 0, 5));
    check("W's words, and none past them", memcmp(words, message_words, sizeof message_words) == 0);
    for (i = 0; i < MACAROOSH_MOST_WORDS; i++) words[i] = 99;
    check("W in counting form runs", answers(macaroosh_run(counting, sizeof counting, echo, sizeof echo, words, 11), 0, 0, 5));
    check("its words, and none past them", memcmp(words, counting_words, sizeof counting_words) == 0);
    for (i = 0; i < MACAROOSH_MOST_WORDS; i++) words[i] = 99;
    check("W in plain form runs", answers(macaroosh_run(plain, sizeof plain, echo, sizeof echo, words, 8), 0, 0, 5));
    check("its words, and none past them", memcmp(words, plain_words, sizeof plain_words) == 0);
}

/* The count that so many receipts and sends are packed in. */
static uint32_t both(uint32_t receipts, uint32_t sends) { return receipts + 65536 * sends; }

static void receipts(void) {
    static const uint64_t w_words[] = {2, 2, 3, 0, 0, 11, 7, 0, 99}, twice_words[] = {2, 2, 2, 0, 0, 9, 7, 0, 99};
    uint64_t words[] = {99, 99, 99, 99, 99, 99, 99, 99, 99}, wide[11];
    uint8_t twice[sizeof w];
    memcpy(twice, w, sizeof w);
    twice[22] = 0;
    check("seven words are too few for receipts", answers(macaroosh_receipts(w, sizeof w, echo, sizeof echo, words, 7), 30, 0, 0));
    check("no receipts without a bundle", answers(macaroosh_receipts(NULL, 0, echo, sizeof echo, words, 9), 10, 0, 0));
    check("the words of no receipts stay", words[0] == 99 && words[6] == 99);
    check("W has 3 receipts and 3 sends", answers(macaroosh_receipts(w, sizeof w, echo, sizeof echo, words, 9), 0, 0, both(3, 3)));
    check("and leaves what its run does", memcmp(words, w_words, sizeof words) == 0);
    check("the same in counting form",
          answers(macaroosh_receipts(counting, sizeof counting, echo, sizeof echo, wide, 11), 0, 0, both(3, 3)));
    check("the same in plain form", answers(macaroosh_receipts(plain, sizeof plain, echo, sizeof echo, words, 8), 0, 0, both(3, 3)));
    check("a refused step is none of them",
          answers(macaroosh_receipts(twice, sizeof twice, echo, sizeof echo, words, 9), 24, 4, both(2, 3)));
    check("and the words are those before it", memcmp(words, twice_words, sizeof words) == 0);
}

static void translations(void) {
    uint8_t there[sizeof w], back[sizeof w];
    check("W is translated", answers(macaroosh_translate(w, sizeof w, echo, sizeof echo, there, sizeof there), 0, 0, 31));
    check("to its counting form", memcmp(there, counting, sizeof w) == 0);
    check("and back", answers(macaroosh_translate(there, sizeof w, echo, sizeof echo, back, sizeof back), 0, 0, 31));
    check("to itself", memcmp(back, w, sizeof w) == 0);
    check("plain W is translated",
          answers(macaroosh_translate(plain, sizeof w, echo, sizeof echo, there, sizeof there), 0, 0, 31));
    check("to counting form", memcmp(there, all_correct, sizeof w) == 0);
}

/* Whether a form of W is written in the form asked for. */
static int becomes(const uint8_t *from, uint64_t form, const uint8_t *to) {
    uint8_t out[sizeof w];
    memset(out, 0xAA, sizeof out);
    return answers(macaroosh_translate_to(from, sizeof w, echo, sizeof echo, form, out, sizeof out), 0, 0, 31) &&
           memcmp(out, to, sizeof out) == 0;
}

/* Whether a form asked for is refused with a number and place, and nothing is written. */
static int refuses(const uint8_t *from, uint64_t form, size_t room, unsigned refusal, uint32_t place) {
    uint8_t out[sizeof w], as_it_was[sizeof w];
    memset(out, 0xAA, sizeof out);
    memset(as_it_was, 0xAA, sizeof as_it_was);
    return answers(macaroosh_translate_to(from, sizeof w, echo, sizeof echo, form, out, room), refusal, place, 0) &&
           memcmp(out, as_it_was, sizeof out) == 0;
}

static void forms(void) {
    uint8_t start[sizeof w], twice[sizeof w];
    check("W to counting form", becomes(w, MACAROOSH_COUNTING, counting));
    check("W to plain form", becomes(w, MACAROOSH_PLAIN, plain));
    check("counting W to message form", becomes(counting, MACAROOSH_MESSAGE, w));
    check("counting W to plain form", becomes(counting, MACAROOSH_PLAIN, plain));
    check("plain W to message form", becomes(plain, MACAROOSH_MESSAGE, of_0_1_2));
    check("plain W to counting form", becomes(plain, MACAROOSH_COUNTING, all_correct));
    check("and back to plain form", becomes(of_0_1_2, MACAROOSH_PLAIN, plain) && becomes(all_correct, MACAROOSH_PLAIN, plain));
    check("W to its own form", refuses(w, MACAROOSH_MESSAGE, sizeof w, 31, 0));
    check("counting W to its own form", refuses(counting, MACAROOSH_COUNTING, sizeof w, 31, 0));
    check("plain W to its own form", refuses(plain, MACAROOSH_PLAIN, sizeof w, 31, 0));
    check("no form 3", refuses(w, 3, sizeof w, 31, 0));
    check("no form 257", refuses(w, 0x101, sizeof w, 31, 0));
    check("no form 2^32 + 1", refuses(w, UINT64_C(0x100000001), sizeof w, 31, 0));
    check("no form 2^64 - 1", refuses(w, UINT64_MAX, sizeof w, 31, 0));
    check("its own form before too few bytes", refuses(w, MACAROOSH_MESSAGE, 30, 31, 0));
    check("too few bytes for plain form", refuses(w, MACAROOSH_PLAIN, 30, 30, 0));
    memcpy(start, w, sizeof w);
    start[1] = 2;
    check("a start before its own form", refuses(start, MACAROOSH_MESSAGE, sizeof w, 14, 1));
    memcpy(twice, w, sizeof w);
    twice[22] = 0;
    check("a step in the end", refuses(twice, MACAROOSH_PLAIN, sizeof w, 24, 4));
}

static void first_steps(void) {
    uint64_t step = macaroosh_first_step(w, sizeof w, echo, sizeof echo);
    check("a step is possible after W", macaroosh_refusal(step) == 0 && macaroosh_step_given(step));
    check("it is 00 04 00 00", macaroosh_step_board(step) == 0 && macaroosh_step_rule(step) == 4 &&
                                   macaroosh_step_type(step) == 0 && macaroosh_step_source(step) == 0);
    check("the same after W in plain form", macaroosh_first_step(plain, sizeof plain, echo, sizeof echo) == step);
    step = macaroosh_first_step(quiet, sizeof quiet, echo, sizeof echo);
    check("none where boards only wait", macaroosh_refusal(step) == 0 && !macaroosh_step_given(step));
}

/* Whether so many bytes are all the same. */
static int all(const uint8_t *bytes, size_t length, uint8_t byte) {
    size_t i;
    for (i = 0; i < length; i++) {
        if (bytes[i] != byte) return 0;
    }
    return 1;
}

static void drawings(void) {
    const size_t length = sizeof drawing - 1;
    uint8_t text[MACAROOSH_MOST_DRAWING], table[MACAROOSH_MOST_TABLE];
    memset(text, 0xAA, sizeof text);
    memset(table, 0xAA, sizeof table);
    check("279 bytes are too few for the drawing", answers(macaroosh_draw(echo, sizeof echo, text, 279), 61, 0, 0));
    check("without its last byte it is no table", answers(macaroosh_draw(echo, sizeof echo - 1, text, sizeof text), 2, 0, 0));
    check("no table is drawn", answers(macaroosh_draw(echo, 0, text, sizeof text), 1, 0, 0));
    check("the text stays", all(text, sizeof text, 0xAA));
    check("the echo table is drawn", answers(macaroosh_draw(echo, sizeof echo, text, sizeof text), 0, 0, 280));
    check("to the byte, and none past it",
          memcmp(text, drawing, length) == 0 && all(text + length, sizeof text - length, 0xAA));
    check("50 bytes are too few for the table", answers(macaroosh_undraw(text, length, table, 50), 61, 0, 0));
    check("the text ends too early", answers(macaroosh_undraw(text, 100, table, sizeof table), 60, 100, 0));
    text[20] = '=';
    check("a byte is wrong", answers(macaroosh_undraw(text, length, table, sizeof table), 60, 20, 0));
    text[20] = ';';
    check("the table stays", all(table, sizeof table, 0xAA));
    check("the drawing is read back", answers(macaroosh_undraw(text, length, table, sizeof table), 0, 0, 51));
    check("to the same bytes, and none past them",
          memcmp(table, echo, sizeof echo) == 0 && all(table + sizeof echo, sizeof table - sizeof echo, 0xAA));
}

/* Lent to replays: as many bytes as W has and a few words, with more behind each. */
static uint8_t made[sizeof w + 4];
static uint64_t left[10];

static void lend(void) {
    size_t i;
    memset(made, 0xAA, sizeof made);
    for (i = 0; i < 10; i++) left[i] = 99;
}

/* Whether nothing of what was lent has changed. */
static int untouched(void) {
    size_t i;
    for (i = 0; i < 10; i++) {
        if (left[i] != 99) return 0;
    }
    return all(made, sizeof made, 0xAA);
}

/* A log over W without its steps, with so many bytes and words. */
static uint64_t replay(const char *log, size_t length, size_t out_length, size_t words_length) {
    return macaroosh_replay(without_steps, sizeof without_steps, echo, sizeof echo, (const uint8_t *)log, length, made, out_length,
                            left, words_length);
}

static void logs(void) {
    static const uint64_t w_words[] = {2, 2, 3, 0, 0, 11, 7, 0, 99, 99}, twice_words[] = {2, 2, 2, 0, 0, 9, 7, 0, 99, 99};
    static const uint64_t start_words[] = {1, 1, 1, 0, 0, 0, 0, 0, 99, 99};
    const size_t length = sizeof service_log - 1;
    char log[sizeof service_log];
    lend();
    check("30 bytes are too few for a replay", answers(replay(service_log, length, 30, 8), 30, 0, 0));
    check("seven words are too few for it", answers(replay(service_log, length, sizeof made, 7), 30, 0, 0));
    check("the last line has no line feed", answers(replay(service_log, length - 1, sizeof made, 10), 50, 4, 0));
    check("the second line ends too early", answers(replay(service_log, 20, sizeof made, 10), 50, 1, 0));
    memcpy(log, service_log, sizeof log);
    log[20] = '0';
    check("a line is of another shape", answers(replay(log, length, sizeof made, 10), 50, 1, 0));
    check("W has steps", answers(macaroosh_replay(w, sizeof w, echo, sizeof echo, NULL, 0, made, sizeof made, left, 10), 52, 0, 0));
    check("bytes and words stay", untouched());
    check("W's log is replayed", answers(replay(service_log, length, sizeof made, 10), 0, 0, 5));
    check("to W, and no byte past it", memcmp(made, w, sizeof w) == 0 && all(made + sizeof w, sizeof made - sizeof w, 0xAA));
    check("with W's words, and none past them", memcmp(left, w_words, sizeof left) == 0);
    lend();
    memcpy(log, service_log, sizeof log);
    log[length - 2] = '0';
    check("a log with an echo twice", answers(replay(log, length, sizeof made, 10), 24, 4, 4));
    check("makes the whole bundle", memcmp(made, w, 22) == 0 && made[22] == 0 && memcmp(made + 23, w + 23, 8) == 0);
    check("and leaves the words after four steps", memcmp(left, twice_words, sizeof left) == 0);
    lend();
    check("a log of nothing", answers(replay(NULL, 0, sizeof without_steps, 8), 0, 0, 0));
    check("makes the same bundle", memcmp(made, without_steps, sizeof without_steps) == 0 && made[sizeof without_steps] == 0xAA);
    check("and leaves the starts", memcmp(left, start_words, sizeof left) == 0);
}

static void divisors(void) {
    static const uint64_t accepts[] = {2, 2, 3, 1, 0, 0, 23, 0, 7, 0, 99}, before[] = {2, 2, 2, 1, 0, 0, 19, 0, 7, 0, 99};
    const size_t length = sizeof majority_drawing - 1;
    uint8_t table[sizeof majority], text[MACAROOSH_MOST_DRAWING], back[MACAROOSH_MOST_TABLE];
    uint64_t words[] = {99, 99, 99, 99, 99, 99, 99, 99, 99, 99, 99};
    memcpy(table, majority, sizeof table);
    memset(text, 0xAA, sizeof text);
    memset(back, 0xAA, sizeof back);
    check("four of five accept",
          answers(macaroosh_run(four_of_five, sizeof four_of_five, table, sizeof table, words, 11), 0, 0, 7));
    check("with their words", memcmp(words, accepts, sizeof words) == 0);
    /* Rule 5 without its divisor asks for n + t + 1. */
    table[43] = 1;
    check("not without the divisor",
          answers(macaroosh_run(four_of_five, sizeof four_of_five, table, sizeof table, words, 11), 25, 6, 6));
    check("with the words before that step", memcmp(words, before, sizeof words) == 0);
    table[43] = 9;
    check("a divisor of 9", answers(macaroosh_run(four_of_five, sizeof four_of_five, table, sizeof table, words, 11), 9, 5, 0));
    check("nor is it drawn", answers(macaroosh_draw(table, sizeof table, text, sizeof text), 9, 5, 0));
    check("words and text stay", memcmp(words, before, sizeof words) == 0 && all(text, sizeof text, 0xAA));
    check("divisors are drawn", answers(macaroosh_draw(majority, sizeof majority, text, sizeof text), 0, 0, (uint32_t)length));
    check("each to the byte", memcmp(text, majority_drawing, length) == 0 && all(text + length, sizeof text - length, 0xAA));
    check("and read back", answers(macaroosh_undraw(text, length, back, sizeof back), 0, 0, sizeof majority));
    check("each to the same byte",
          memcmp(back, majority, sizeof majority) == 0 && all(back + sizeof majority, sizeof back - sizeof majority, 0xAA));
}

static void editions(void) {
    uint8_t second[sizeof majority], table[MACAROOSH_MOST_TABLE], back[sizeof echo + 2];
    uint64_t words[9] = {99, 99, 99, 99, 99, 99, 99, 99, 99};
    static const uint64_t w_words[] = {2, 2, 3, 0, 0, 11, 7, 0, 99};
    /* It is the table with divisors where those of rules 2 and 5 are 1, over the echo table's sums. */
    memcpy(second, majority, sizeof second);
    memcpy(second + 22, "\x01\xFF\x00\x01", 4);
    memcpy(second + 40, "\x01\xFF\x00\x01", 4);
    memset(table, 0xAA, sizeof table);
    memset(back, 0xAA, sizeof back);
    check("57 bytes are too few for the second edition", answers(macaroosh_to_second(echo, sizeof echo, table, 57), 30, 0, 0));
    check("without its last byte it is not moved",
          answers(macaroosh_to_second(echo, sizeof echo - 1, table, sizeof table), 2, 0, 0));
    check("it is in the second edition already",
          answers(macaroosh_to_second(majority, sizeof majority, table, sizeof table), 33, 0, 0));
    check("the bytes stay", all(table, sizeof table, 0xAA));
    check("the echo table is moved", answers(macaroosh_to_second(echo, sizeof echo, table, sizeof table), 0, 0, sizeof second));
    check("to the byte, and none past it",
          memcmp(table, second, sizeof second) == 0 && all(table + sizeof second, sizeof table - sizeof second, 0xAA));
    check("W runs beside it", answers(macaroosh_run(w, sizeof w, table, sizeof second, words, 9), 0, 0, 5));
    check("to its words", memcmp(words, w_words, sizeof words) == 0);
    check("50 bytes are too few for the first edition", answers(macaroosh_to_first(table, sizeof second, back, 50), 30, 0, 0));
    check("a divisor is not 1", answers(macaroosh_to_first(majority, sizeof majority, back, sizeof back), 32, 2, 0));
    check("it is in the first edition already", answers(macaroosh_to_first(echo, sizeof echo, back, sizeof back), 33, 0, 0));
    table[43] = 0;
    check("a divisor of 0", answers(macaroosh_to_first(table, sizeof second, back, sizeof back), 9, 5, 0));
    table[43] = 1;
    check("the table back stays", all(back, sizeof back, 0xAA));
    check("it is moved back", answers(macaroosh_to_first(table, sizeof second, back, sizeof back), 0, 0, sizeof echo));
    check("to the same bytes again, and none past them",
          memcmp(back, echo, sizeof echo) == 0 && all(back + sizeof echo, sizeof back - sizeof echo, 0xAA));
}

/* Lent to searches: room for eight steps and a byte more, and the number tried. */
static uint8_t steps[33];
static uint64_t tried;

/* A search after W's start in counting form, or another one of three boards, with fresh lent memory of so many bytes. */
static uint64_t search(uint8_t start, uint64_t depth, uint64_t budget, size_t out_length) {
    const uint8_t bundle[] = {start, start, start, 0x00, 0x00, 0x03, 0x00, 0x04, 0x01, 0x01, 0x01};
    memset(steps, 0xAA, sizeof steps);
    tried = 99;
    return macaroosh_search(bundle, sizeof bundle, echo, sizeof echo, depth, budget, steps, out_length, &tried);
}

/* Whether so many were tried, and the steps are the only bytes that were written. */
static int found(uint64_t count, const char *records, size_t length) {
    return tried == count && memcmp(steps, records, length) == 0 && all(steps + length, sizeof steps - length, 0xAA);
}

static void searches(void) {
    static const char four[] = "\x00\x03\xFF\xFF\x01\x03\x00\x00\x01\x04\x00\x00\x01\x05\x00\x01";
    static const char five[] = "\x00\x03\xFF\xFF\x00\x04\x00\x00\x00\x04\x00\x01\x01\x03\xFF\xFF\x00\x05\x00\x00";
    check("a schedule of four steps", answers(search(1, 4, UINT64_MAX, sizeof steps), 0, 0, 4));
    check("with its steps alone", found(1505, four, sizeof four - 1));
    check("one of five", answers(search(1, 5, 76, 20), 0, 0, 5));
    check("with its steps", found(76, five, sizeof five - 1));
    check("a budget of one less", answers(search(1, 5, 75, 20), 0, 0, MACAROOSH_SPENT));
    check("writes no step", found(75, "", 0));
    check("none from boards without an echo to send", answers(search(0, 3, 540, 12), 0, 0, MACAROOSH_NONE));
    check("of all that were tried", found(540, "", 0));
    check("a budget of nothing", answers(search(0, MACAROOSH_MOST_DEPTH, 0, sizeof steps), 0, 0, MACAROOSH_SPENT));
    check("tries nothing", found(0, "", 0));
    check("a depth of 9", answers(search(1, 9, 76, sizeof steps), 34, 0, 0));
    check("sets the number tried to 0", found(0, "", 0));
    check("a depth of all bits", answers(search(1, UINT64_MAX, 76, 0), 34, 0, 0));
    check("19 bytes are too few for five steps", answers(search(1, 5, 76, 19), 30, 0, 0));
    check("of which none changes", found(0, "", 0));
    tried = 99;
    check("message form", answers(macaroosh_search(w, sizeof w, echo, sizeof echo, 0, 0, NULL, 0, &tried), 35, 0, 0));
    check("tries nothing either", tried == 0);
    tried = 99;
    check("a board accepts already",
          answers(macaroosh_search(counting, sizeof counting, echo, sizeof echo, 0, 0, NULL, 0, &tried), 0, 0, 0));
    check("without a try", tried == 0);
}

/* Four boards that have an echo to send, t = 1, f = 0, with so many of these steps: board 0 sends, and then stops. */
static const uint8_t until_stopped[] = {0x00, 0x03, 0xFF, 0xFF, 0x00, 0xFE, 0xFF, 0xFF};

/* Runs that in a form, with a last step, in ten words, as many as message and plain form need. */
static uint64_t stops(uint8_t count, const char *last, uint8_t form) {
    uint8_t bundle[4 + sizeof until_stopped + 4 + 8] = {1, 1, 1, 1};
    const uint8_t steps = (uint8_t)(4 * (count + 1));
    const uint8_t trailer[] = {steps, 0, (uint8_t)(steps + 4), 0, 4, 1, 0, form};
    size_t i;
    memcpy(bundle + 4, until_stopped, 4 * (size_t)count);
    memcpy(bundle + 4 * (size_t)count + 4, last, 4);
    memcpy(bundle + 4 + steps, trailer, 8);
    for (i = 0; i < 10; i++) left[i] = 99;
    return macaroosh_run(bundle, 12 + (size_t)steps, echo, sizeof echo, left, 10);
}

/* The configurations that boards without an echo to send come to, n = 4, t = f = 1: each has heard the faulty board or not. */
static void listed(uint64_t *list, uint64_t many) {
    uint64_t i, p;
    for (i = 0; i < many; i++) {
        for (p = 0; p < 11; p++) list[11 * i + p] = 0;
        for (p = 0; p < 3; p++) list[11 * i + 4 + 2 * p] = i >> (2 - p) & 1;
    }
}

static const uint8_t no_bubble[] = {0x00, 0x00, 0x00, 0x00, 0x00, 0x03, 0x00, 0x04, 0x01, 0x01, 0x01};

/* Checks the first words of a list for that, beside a table. */
static uint64_t checks(const uint8_t *table, const uint64_t *list, size_t length) {
    return macaroosh_check_list(no_bubble, sizeof no_bubble, table, sizeof echo, list, length);
}

static void lists(void) {
    uint64_t list[88], as_it_was[88];
    uint8_t asks_t[sizeof echo];
    listed(list, 8);
    memcpy(as_it_was, list, sizeof list);
    memcpy(asks_t, echo, sizeof echo);
    asks_t[17] = 0;
    check("a list is accepted", answers(checks(echo, list, 88), 0, 0, 8));
    check("and stays as it was", memcmp(list, as_it_was, sizeof list) == 0);
    check("a step leads outside of it", answers(checks(asks_t, list, 88), 73, 0, 0));
    check("the last is missing", answers(checks(echo, list, 77), 73, 3, 0));
    check("the start is missing", answers(checks(echo, list + 11, 77), 72, 0, 0));
    check("a word is missing", answers(checks(echo, list, 87), 70, 0, 0));
    check("no bundle without steps", answers(macaroosh_check_list(counting, sizeof counting, echo, sizeof echo, list, 88), 70, 0, 0));
    list[77] = 3;
    check("an accepting board", answers(checks(echo, list, 88), 73, 3, 0));
    list[77] = 4;
    check("no such state", answers(checks(echo, list, 88), 71, 7, 0));
    memcpy(list + 77, list + 66, 11 * sizeof list[0]);
    check("twice the same", answers(checks(echo, list, 88), 70, 7, 0));
}

static void stopped_boards(void) {
    static const char stop_0[] = "\x00\xFE\xFF\xFF", stop_1[] = "\x01\xFE\xFF\xFF";
    static const uint64_t sent[] = {2, 1, 1, 1, 0, 0, 0, 0, 1, 0}, after[] = {2, 1, 1, 1, 0, 0, 0, 0, 1, 1};
    static const uint64_t heard[] = {2, 2, 1, 1, 0, 1, 0, 0, 3, 1};
    check("a board stops", answers(stops(1, stop_0, MACAROOSH_MESSAGE), 0, 0, 2));
    check("and the last word alone changes", memcmp(left, after, sizeof left) == 0);
    check("the same in plain form", answers(stops(1, stop_0, MACAROOSH_PLAIN), 0, 0, 2) && memcmp(left, after, sizeof left) == 0);
    check("what it has sent is heard", answers(stops(2, "\x01\x03\x00\x00", MACAROOSH_MESSAGE), 0, 0, 3));
    check("and it stays stopped", memcmp(left, heard, sizeof left) == 0);
    check("it stops once", answers(stops(2, stop_0, MACAROOSH_MESSAGE), 26, 2, 2));
    check("and takes no step", answers(stops(2, "\x00\x04\xFF\xFF", MACAROOSH_MESSAGE), 26, 2, 2));
    check("not even by no rule", answers(stops(2, "\x00\x07\xFF\xFF", MACAROOSH_PLAIN), 26, 2, 2));
    check("the words are those before", memcmp(left, after, sizeof left) == 0);
    check("no second board may stop", answers(stops(2, stop_1, MACAROOSH_MESSAGE), 27, 2, 2));
    check("the words are those of the first alone", memcmp(left, after, sizeof left) == 0);
    check("a stop has no message", answers(stops(1, "\x00\xFE\x00\x00", MACAROOSH_MESSAGE), 23, 1, 1));
    check("and stops nobody then", memcmp(left, sent, sizeof left) == 0);
}

/* NULL where the length is 0: no bundle, no standing table, nothing lent. */
static void nothing_lent(void) {
    uint64_t words[8] = {9, 9, 9, 9, 9, 9, 9, 9};
    uint8_t out[sizeof w];
    check("no bundle at all", answers(macaroosh_run(NULL, 0, echo, sizeof echo, words, 8), 10, 0, 0));
    check("no standing table at all", answers(macaroosh_run(w, sizeof w, NULL, 0, words, 8), 1, 0, 0));
    check("no words at all", answers(macaroosh_run(w, sizeof w, echo, sizeof echo, NULL, 0), 30, 0, 0));
    check("nothing to translate", answers(macaroosh_translate(NULL, 0, NULL, 0, out, sizeof out), 10, 0, 0));
    check("nowhere to write", answers(macaroosh_translate(w, sizeof w, echo, sizeof echo, NULL, 0), 30, 0, 0));
    check("nor in a form", answers(macaroosh_translate_to(w, sizeof w, echo, sizeof echo, MACAROOSH_PLAIN, NULL, 0), 30, 0, 0));
    check("no first step of nothing", macaroosh_refusal(macaroosh_first_step(NULL, 0, NULL, 0)) == 10);
    check("nothing to draw", answers(macaroosh_draw(NULL, 0, out, sizeof out), 1, 0, 0));
    check("nowhere to draw", answers(macaroosh_draw(echo, sizeof echo, NULL, 0), 61, 0, 0));
    check("nothing drawn", answers(macaroosh_undraw(NULL, 0, out, sizeof out), 60, 0, 0));
    check("nothing to move", answers(macaroosh_to_second(NULL, 0, out, sizeof out), 1, 0, 0));
    check("nothing to move back", answers(macaroosh_to_first(NULL, 0, out, sizeof out), 1, 0, 0));
    check("nowhere to move", answers(macaroosh_to_second(echo, sizeof echo, NULL, 0), 30, 0, 0));
    check("nothing to replay over", answers(macaroosh_replay(NULL, 0, NULL, 0, NULL, 0, out, sizeof out, words, 8), 10, 0, 0));
    tried = 99;
    check("nothing to search after", answers(macaroosh_search(NULL, 0, NULL, 0, 9, 9, NULL, 0, &tried), 10, 0, 0) && tried == 0);
    tried = 99;
    check("nowhere for what is found",
          answers(macaroosh_search(counting, sizeof counting, echo, sizeof echo, 1, 9, NULL, 0, &tried), 30, 0, 0) && tried == 0);
    check("nothing to check", answers(macaroosh_check_list(NULL, 0, NULL, 0, NULL, 0), 10, 0, 0));
    check("nothing listed", answers(macaroosh_check_list(no_bubble, sizeof no_bubble, echo, sizeof echo, NULL, 0), 72, 0, 0));
    check("nowhere to replay",
          answers(macaroosh_replay(without_steps, sizeof without_steps, echo, sizeof echo, NULL, 0, NULL, 0, NULL, 0), 30, 0, 0));
    check("nowhere for the table", answers(macaroosh_undraw((const uint8_t *)drawing, sizeof drawing - 1, NULL, 0), 61, 0, 0));
}

static void refusals(void) {
    uint8_t twice[sizeof w], out[sizeof w], as_it_was[sizeof w];
    uint64_t words[8] = {9, 9, 9, 9, 9, 9, 9, 9};
    static const uint64_t nines[8] = {9, 9, 9, 9, 9, 9, 9, 9}, left[8] = {2, 2, 2, 0, 0, 9, 7, 0};
    uint64_t step;
    memcpy(twice, w, sizeof w);
    twice[22] = 0;
    memset(out, 0xAA, sizeof out);
    memset(as_it_was, 0xAA, sizeof as_it_was);
    check("seven words are too few", answers(macaroosh_run(w, sizeof w, echo, sizeof echo, words, 7), 30, 0, 0));
    check("no standing table", answers(macaroosh_run(w, sizeof w, echo, 0, words, 8), 1, 0, 0));
    check("no bundle", answers(macaroosh_run(w, 0, echo, sizeof echo, words, 8), 10, 0, 0));
    check("the words stay", memcmp(words, nines, sizeof words) == 0);
    check("an echo twice", answers(macaroosh_run(twice, sizeof twice, echo, sizeof echo, words, 8), 24, 4, 4));
    check("the words are those after four steps", memcmp(words, left, sizeof words) == 0);
    check("it is not translated", answers(macaroosh_translate(twice, sizeof twice, echo, sizeof echo, out, sizeof out), 24, 4, 0));
    check("30 bytes are too few", answers(macaroosh_translate(w, sizeof w, echo, sizeof echo, out, 30), 30, 0, 0));
    check("the bytes stay", memcmp(out, as_it_was, sizeof out) == 0);
    step = macaroosh_first_step(twice, sizeof twice, echo, sizeof echo);
    check("and has no first step", macaroosh_refusal(step) == 24 && macaroosh_step_place(step) == 4 && !macaroosh_step_given(step));
}

int main(void) {
    runs();
    receipts();
    translations();
    forms();
    first_steps();
    drawings();
    logs();
    divisors();
    editions();
    searches();
    lists();
    stopped_boards();
    refusals();
    nothing_lent();
    printf("%d passed, %d failed\n", passed, failed);
    return failed != 0;
}
