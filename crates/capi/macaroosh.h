/* The proved bench for C programs. Link target/staticlib/libcapi.a, which 'tools/archive' writes, for x86-64 Linux.
 *
 * A bundle is read beside a standing table, which is looked at only where the bundle has no table in front. Any bytes may be
 * given: what is no bundle, table or drawing is refused by number. A pointer may be NULL where its length is 0, and only there;
 * lent memory does not overlap what is read. No call keeps a pointer, allocates or reads more than its arguments.
 * example_run.c and example_draw.c, beside this file, are whole programs. */
#ifndef MACAROOSH_H
#define MACAROOSH_H

#include <stddef.h>
#include <stdint.h>

#ifdef __cplusplus
extern "C" {
#endif

/* The most words that a configuration has: 64 states, 64 * 4 pairs of counts, 4 sent counts, the set of stopped boards. */
#define MACAROOSH_MOST_WORDS 581

/* The most bytes that a bundle has. */
#define MACAROOSH_MOST_BYTES 17648

/* The most bytes that a table part has, and those of its drawing. */
#define MACAROOSH_MOST_TABLE 1192
#define MACAROOSH_MOST_DRAWING 6286

/* Runs a bundle. With C = n - f boards and T types the configuration is left in the lent words, of which
 * MACAROOSH_MOST_WORDS are always enough (`words_length` counts words, not bytes):
 *   message form:  C states; C * T received sets, board by board, bit q for sender q; T sent sets;
 *   counting form: C states; for each board and type the correct count and then the faulty one; T sent counts;
 *   plain form:    C states; for each board and type one count; T sent counts;
 * and then in each form one word more, the set of stopped boards, bit p for board p. A step with rule 254 and no message stops its
 * board, which takes no further step; what it has sent stays sent.
 * Answers packed: refusal, place, steps accepted. A run refused at step i (20 to 27) leaves the configuration after i steps;
 * any other refusal leaves the words as they were. Words past the needed ones never change. */
uint64_t macaroosh_run(const uint8_t *bundle, size_t bundle_length, const uint8_t *standing, size_t standing_length,
                       uint64_t *words, size_t words_length);

/* The same run, but the count is receipts + 65,536 * sends: of the accepted steps those that receive a message, and those that send
 * a type which the state they leave has not sent. Waits and stops are neither. After a step's refusal they are those of the steps
 * before it; with any other they are 0. With C = n - f boards and T types there are at most C * T * n receipts and C * T sends,
 * whatever the schedule: at most 16,384 and 256. */
uint64_t macaroosh_receipts(const uint8_t *bundle, size_t bundle_length, const uint8_t *standing, size_t standing_length,
                            uint64_t *words, size_t words_length);

/* Writes the bundle in the other form (message to counting, counting to message, plain to counting) to the lent bytes; it is
 * as long as the bundle itself. Answers packed: refusal, place, bytes written. Any refusal leaves the bytes as they were. */
uint64_t macaroosh_translate(const uint8_t *bundle, size_t bundle_length, const uint8_t *standing, size_t standing_length,
                             uint8_t *out, size_t out_length);

/* The forms of a schedule, by number. */
#define MACAROOSH_MESSAGE 0
#define MACAROOSH_COUNTING 1
#define MACAROOSH_PLAIN 2

/* The same to the form asked for. The bundle's own form, and any number that is no form, is refused with 31; all 64 bits are
 * looked at. From message form each sender becomes 0 (correct) or 1 (faulty); to plain form every source becomes 0; from plain
 * form a message is a correct one where one is in transit, otherwise a faulty one; to message form it is the lowest sender of
 * its class in transit. Between message and plain form it goes by way of counting form. */
uint64_t macaroosh_translate_to(const uint8_t *bundle, size_t bundle_length, const uint8_t *standing, size_t standing_length,
                                uint64_t form, uint8_t *out, size_t out_length);

/* The first step that is possible after the whole schedule: by board, then rule, then no message before type and source. A
 * wait, which has no message and whose rule's from is its to, is accepted but is not possible, and neither is a stop. Answers a
 * packed step; none is given exactly when no step but waits and stops is accepted there, so that the run has gone quiet, or where
 * there is a refusal. */
uint64_t macaroosh_first_step(const uint8_t *bundle, size_t bundle_length, const uint8_t *standing, size_t standing_length);

/* Writes a table part as a drawing, a text in Graphviz's DOT language, to the lent bytes, of which MACAROOSH_MOST_DRAWING are
 * always enough:
 *   digraph t {
 *   T=1; k=3;
 *   s0 [label="1 0"];          a line for each state: flags, sent mask
 *   s0 -> s0 [label="0 1 1"];  a line for each rule: a b d of each type, the types joined by ", "
 *   }
 * without blanks before a line; one line feed ends each. T is followed by the types byte; from 16 on, in the second edition, a
 * label has a b d e of each type. Answers packed: refusal (1 to 9, 61), place, bytes written. Any refusal leaves the bytes as they
 * were. Bytes past the written ones never change. */
uint64_t macaroosh_draw(const uint8_t *table, size_t table_length, uint8_t *out, size_t out_length);

/* Writes the table part that a text draws to the lent bytes, of which MACAROOSH_MOST_TABLE are always enough. Between two
 * tokens the text may have any spaces, tabs, line feeds and carriage returns. Answers packed: refusal (60, 2, 4 to 9, 61),
 * place, bytes written. Any refusal leaves the bytes as they were. Bytes past the written ones never change.
 * The place of 60 is the length of the longest beginning of the text that some drawing begins with: the first byte that is
 * wrong, or the text's length where the whole text could still go on. From 2^24 - 1 on it is given as that. */
uint64_t macaroosh_undraw(const uint8_t *text, size_t text_length, uint8_t *out, size_t out_length);

/* Makes a bundle of one without steps, in message form, and a service log, whose lines become its steps; writes it to `out`, which
 * needs 4 bytes a line more than the bundle has (MACAROOSH_MOST_BYTES are always enough), and then runs it in `words` as
 * macaroosh_run does. A line is one of
 *   board P rule R
 *   board P rule R type M from Q
 * with single blanks, numbers from 0 to 254 in plain decimal without leading zeros, and one line feed at its end; an empty log has
 * no lines. Whether a board, rule, type or sender exists is the run's to say. Answers packed: refusal, place, steps accepted. Any
 * refusal but a step's (20 to 27) leaves both buffers as they were; after a step's, `out` has the whole bundle and `words` the
 * configuration before that step. Bytes and words past those needed never change. */
uint64_t macaroosh_replay(const uint8_t *bundle, size_t bundle_length, const uint8_t *standing, size_t standing_length,
                          const uint8_t *log, size_t log_length, uint8_t *out, size_t out_length, uint64_t *words,
                          size_t words_length);

/* The most steps that a search goes deep. */
#define MACAROOSH_MOST_DEPTH 8

/* What a search counts where there is no schedule as asked for, and where its budget was spent before. */
#define MACAROOSH_NONE 16
#define MACAROOSH_SPENT 17

/* Searches for a schedule of at most `depth` steps more, after the schedule of a bundle in counting form, that puts some board in
 * an accepting state. It goes depth first, in the order of macaroosh_first_step: at each configuration all rules of the table are
 * tried for each board, with no message, but not where the rule's from is its to, and then with each type and both sources. Each
 * try counts, accepted or refused, those of a stopped board too; before each it is asked whether as many as `budget` were tried.
 * Nothing is pruned, and no stop is tried. Where a board, stopped or not, is in an accepting state already, no step is needed and
 * none is tried. Answers packed: refusal, place, outcome: 0 to 8 for a schedule of so many steps, the first in that order, which
 * need not be the shortest; MACAROOSH_NONE, given exactly where there is no such schedule and the budget sufficed; or
 * MACAROOSH_SPENT. The steps found are written to `out`, 4 bytes each; no other byte
 * of it changes, and none with another outcome or with a refusal. `out` needs 4 * depth bytes, whatever is found. `tried`, which
 * may not be NULL, is set to the number tried, and to 0 with any refusal, which is the one thing that a refusal writes. The
 * refusals after 14 are 34 (all 64 bits are looked at), 35, 30, then a step's. */
uint64_t macaroosh_search(const uint8_t *bundle, size_t bundle_length, const uint8_t *standing, size_t standing_length,
                          uint64_t depth, uint64_t budget, uint8_t *out, size_t out_length, uint64_t *tried);

/* The most boards (n - f) and the most configurations of a list that is checked. */
#define MACAROOSH_MOST_LISTED_BOARDS 6
#define MACAROOSH_MOST_LISTED 512

/* Checks a list of configurations: words, one configuration after the other as macaroosh_run leaves them in counting form, sorted
 * strictly upward, the first word the most significant. The bundle, in counting form and without steps, gives the table, n, t, f
 * and the starts. It is accepted exactly where the start is listed, every possible step but a stop leads from a listed
 * configuration to a listed one, and no listed board is in an accepting state. Then no schedule of any length, in any form, leads
 * from these starts to an accepting state. Listed configurations need not be reached. Answers packed: refusal, place, number of
 * configurations (0 with any refusal). The refusals after 14 are 70 to 74, each over the whole list before the next. It writes
 * nothing. */
uint64_t macaroosh_check_list(const uint8_t *bundle, size_t bundle_length, const uint8_t *standing, size_t standing_length,
                              const uint64_t *list, size_t list_length);

/* Writes a first-edition table part in the second edition, with e = 1 for every rule and type, to the lent bytes, of which
 * MACAROOSH_MOST_TABLE are always enough; any schedule runs the same on both. Answers packed: refusal (1 to 9, 33, 30), place,
 * bytes written. Any refusal leaves the bytes as they were. Bytes past the written ones never change. */
uint64_t macaroosh_to_second(const uint8_t *table, size_t table_length, uint8_t *out, size_t out_length);

/* The way back: writes a second-edition table part whose every e is 1 in the first edition, in fewer bytes than it has. Answers
 * packed: refusal (1 to 9, 32, 33, 30), place, bytes written. The bytes are left as above. */
uint64_t macaroosh_to_first(const uint8_t *table, size_t table_length, uint8_t *out, size_t out_length);

/* Refusals, in the order of the checks; 0 is none. The place counts from 0 what stands in brackets, and is 0 elsewhere.
 *   60 the text is no drawing [byte] (undraw)
 *   10 bundle under 8 bytes                        11 second distance plus 8 exceeds the bundle
 *    1 table part under 8 bytes                     2 a trailer count or k out of range
 *    3 distances disagree with counts or length     4 a state's flags or sent mask [state]
 *    5 no initial state                             6 from or to is no state [rule]
 *    9 a divisor is not 1 to 8 [rule]               7 the rule forgets a sent type [rule]
 *    8 the rule sends two new types [rule]
 *   12 n, t, f not admitted, or form over 2        13 the schedule's distances
 *   14 a start is not an initial state [board]     31 its own form is asked for, or none (translate_to)
 *   52 the bundle has steps or is not in message form (replay)
 *   51 a line 4,096 is there [line] (replay)       50 a line of another shape, or a number over 254 [line] (replay)
 *   34 a depth over 8 (search)                     35 not in counting form (search)
 *   70 not counting form, steps, over 6 boards, no whole number of configurations, over 512; or out of order [the later one]
 *   71 a word out of range [configuration]         72 the start is not listed
 *   73 a step leads outside [configuration]        74 a board is accepting [configuration]  (70 to 74: check_list)
 *   32 a divisor is not 1 [rule] (to_first)        33 in that edition already (to_second, to_first)
 *   30 lent output too short (run, receipts, translate, translate_to, to_second, to_first, search, replay: either)
 *   20 board not below n - f [step]                26 the board is stopped [step]
 *   21 rule not in the table [step]                22 rule does not leave the state [step]
 *   23 type or source out of range, or a stop with a message [step]
 *   27 no more boards may stop: those and f may not exceed t [step]
 *   24 message not in transit [step]               25 a threshold is not met [step]
 *   61 lent output too short (draw, undraw) */

/* Packed, of all but first_step: the refusal in bits 0 to 7, the place in bits 8 to 31, the count in bits 32 to 63. */
static inline unsigned macaroosh_refusal(uint64_t packed) { return (unsigned)(packed & 0xFF); }
static inline uint32_t macaroosh_place(uint64_t packed) { return (uint32_t)(packed >> 8 & 0xFFFFFF); }
static inline uint32_t macaroosh_count(uint64_t packed) { return (uint32_t)(packed >> 32); }

/* A packed step: the refusal in bits 0 to 7 (by macaroosh_refusal), the place in bits 8 to 23; bit 24 is 1 where a step is
 * given; then its four bytes are in bits 32 to 63. Type and source are both 255 where the step receives nothing; the source
 * is the sender in message form, 0 for correct or 1 for faulty in counting form, and 0 in plain form. */
static inline uint32_t macaroosh_step_place(uint64_t packed) { return (uint32_t)(packed >> 8 & 0xFFFF); }
static inline int macaroosh_step_given(uint64_t packed) { return (int)(packed >> 24 & 1); }
static inline uint8_t macaroosh_step_board(uint64_t packed) { return (uint8_t)(packed >> 32); }
static inline uint8_t macaroosh_step_rule(uint64_t packed) { return (uint8_t)(packed >> 40); }
static inline uint8_t macaroosh_step_type(uint64_t packed) { return (uint8_t)(packed >> 48); }
static inline uint8_t macaroosh_step_source(uint64_t packed) { return (uint8_t)(packed >> 56); }

#ifdef __cplusplus
}
#endif

#endif
