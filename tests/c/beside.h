/* The calls of the static library beside the oracle's: what is lent lies between fences, the oracle works on copies, and numbers and all bytes
   are compared. */
#ifndef BESIDE_H
#define BESIDE_H

#include "damage.h"
#include "decks.h"
#include "fences.h"
#include "lines.h"
#include "oracle.h"
#include "prices.h"
#include "strigol.h"

#define SIZE(list) (sizeof(list) / sizeof((list)[0]))

/* A lent buffer, and its copy, as the numbers that it holds. */
#define NUMBERS_64(l, which) ((uint64_t *)(void *)(l)->b[which].at)
#define NUMBERS_32(l, which) ((uint32_t *)(void *)(l)->b[which].at)
#define COPIED_64(l, which) ((uint64_t *)(void *)kept(&(l)->b[which]))
#define COPIED_32(l, which) ((uint32_t *)(void *)kept(&(l)->b[which]))

/* A call, by what is lent: of one that answers trials, the most that it may make where it gives 0 (W8.2); the numbers that documents 01 and 02 let
   it give, as bits, the buffers lent to it, as bits, and how often each number was right so far. */
enum call { READ, START, STEP, RUN, SCAN, OPEN, OFFER, HAND_OUT, REPORT, TAKE, ASK, CALLS };
struct call_beside {
    const char *name;
    uint32_t (*call)(struct lent *), (*right)(struct lent *), (*most)(struct lent *);
    uint32_t numbers, buffers;
    long met[STRIGOL_LAST_NUMBER + 1];
};
extern struct call_beside calls[CALLS];

/* Begins a test: its name, and the fences about what it lends. */
void begin_test(const char *name, struct lent *l);

/* Begins what hangs on a seed. */
void begin_seed(struct draws *d, uint64_t seed);

/* Makes a call and looks at its number alone. */
uint32_t make(struct lent *l, enum call call);

/* Makes a call and compares its number and all bytes between the fences with what the oracle gives and leaves. The trials that it answers are no
   more than W8.2 allows, and none where it gives another number than 0. */
uint32_t make_right(struct lent *l, enum call call);

/* The most trials that a call answered so far. */
extern uint32_t trials_met;

/* How often the call got each number; if all are wanted, one that was never met is a failure. */
void show_met(enum call call, int all);

/* Laying out what is lent, flush against one fence or the other. */

/* A buffer with nothing in it yet. */
void lay_empty(struct lent *l, enum side side, enum which which, size_t length);

/* The small buffers, which have one size. */
void lay_small(struct lent *l, enum side side);

/* A deck, a table of this length with nothing in it yet, and the small buffers. */
void lay_deck(struct lent *l, enum side side, const struct deck *deck, size_t table_len);

/* An input; an output and a store with nothing in them yet. */
void lay_run(struct lent *l, enum side side, const uint8_t *input, size_t input_len, size_t output_len, size_t store_len);

/* The same, random: the output short or long, the store sometimes longer than it need be. */
enum { MOST_OUTPUT = 2000, MORE = 64 };
void lay_random_run(struct lent *l, enum side side, struct draws *d);

void lay_scan(struct lent *l, enum side side, const struct scan *s);

/* A register of this length, its further bytes being others; a house currency to open it with, and a line to offer. */
void lay_register(struct lent *l, enum side side, const uint8_t bytes[STRIGOL_REGISTER_SIZE], size_t length);
void lay_house(struct lent *l, enum side side, const struct line *house);
void lay_line(struct lent *l, enum side side, const struct line *line);

/* A window of this length, its further bytes being others, and a summary with nothing in it yet; such a summary alone. */
void lay_window(struct lent *l, enum side side, const uint8_t bytes[STRIGOL_WINDOW_SIZE], size_t length);
void lay_summary(struct lent *l, enum side side);

/* Lays the bytes of a buffer again, in another length: the bytes that fit, and others behind them. */
void lay_again(struct buffer *b, enum side side, size_t length);

/* A list of at most so many steps from a fresh start, beside the oracle's own machine: number, answer, state, output and store after each, and its
   trials as above. Behind its end one step more is turned down by 16. Answers how many were carried out. */
long list_right(struct lent *l, const struct oracle_program *p, long most);

#endif
