/* The calls of the static library beside the oracle's. */
#include "beside.h"

#include <stdio.h>
#include <string.h>

#define LENT(l, which) (l)->b[which].at, (l)->b[which].length
#define COPY(l, which) kept(&(l)->b[which]), (l)->b[which].length

static uint32_t call_read(struct lent *l)
{
    return strigol_read(LENT(l, DECK), LENT(l, TABLE), NUMBERS_32(l, CARD));
}

static uint32_t right_read(struct lent *l)
{
    return oracle_read_call(COPY(l, DECK), COPY(l, TABLE), COPIED_32(l, CARD));
}

static uint32_t call_start(struct lent *l)
{
    return strigol_start(LENT(l, STORE), NUMBERS_64(l, STATE));
}

static uint32_t right_start(struct lent *l)
{
    return oracle_start_call(COPY(l, STORE), COPIED_64(l, STATE));
}

static uint32_t call_step(struct lent *l)
{
    return strigol_step(LENT(l, TABLE), LENT(l, STORE), NUMBERS_64(l, STATE), LENT(l, INPUT), LENT(l, OUTPUT), NUMBERS_32(l, ANSWER));
}

static uint32_t right_step(struct lent *l)
{
    return oracle_step_call(COPY(l, TABLE), COPY(l, STORE), COPIED_64(l, STATE), COPY(l, INPUT), COPY(l, OUTPUT), COPIED_32(l, ANSWER));
}

static uint32_t most_in_step(struct lent *l)
{
    return oracle_most_in_step(l->b[TABLE].at, l->b[STORE].at, NUMBERS_64(l, STATE));
}

static uint32_t call_run(struct lent *l)
{
    return strigol_run(LENT(l, TABLE), LENT(l, STORE), NUMBERS_64(l, STATE), LENT(l, INPUT), LENT(l, OUTPUT), l->count,
                       NUMBERS_64(l, RESULT));
}

static uint32_t right_run(struct lent *l)
{
    oracle_run_call(COPY(l, TABLE), COPY(l, STORE), COPIED_64(l, STATE), COPY(l, INPUT), COPY(l, OUTPUT), l->count, COPIED_64(l, RESULT));
    return (uint32_t)COPIED_64(l, RESULT)[STRIGOL_BY];
}

static uint32_t call_scan(struct lent *l)
{
    return strigol_scan(LENT(l, REFERENCE), LENT(l, VALUES), LENT(l, ELEMENTS), NUMBERS_32(l, ANSWER));
}

static uint32_t right_scan(struct lent *l)
{
    return oracle_scan_call(COPY(l, REFERENCE), COPY(l, VALUES), COPY(l, ELEMENTS), COPIED_32(l, ANSWER));
}

static uint32_t most_in_scan(struct lent *l)
{
    return oracle_most_in_scan(l->b[REFERENCE].length, LENT(l, ELEMENTS));
}

static uint32_t call_open(struct lent *l)
{
    return strigol_register_open(LENT(l, REGISTER), LENT(l, HOUSE));
}

static uint32_t right_open(struct lent *l)
{
    return oracle_register_open(COPY(l, REGISTER), COPY(l, HOUSE));
}

static uint32_t call_offer(struct lent *l)
{
    return strigol_register_offer(LENT(l, REGISTER), LENT(l, OFFERED));
}

static uint32_t right_offer(struct lent *l)
{
    return oracle_register_offer(COPY(l, REGISTER), COPY(l, OFFERED));
}

static uint32_t call_hand_out(struct lent *l)
{
    return strigol_register_line(LENT(l, REGISTER), l->place, l->b[LINE].at, NUMBERS_32(l, LENGTH));
}

static uint32_t right_hand_out(struct lent *l)
{
    return oracle_register_line(COPY(l, REGISTER), l->place, kept(&l->b[LINE]), COPIED_32(l, LENGTH));
}

static uint32_t call_report(struct lent *l)
{
    return strigol_register_report(LENT(l, REGISTER), LENT(l, OUTPUT), NUMBERS_32(l, LENGTH));
}

static uint32_t right_report(struct lent *l)
{
    return oracle_register_report(COPY(l, REGISTER), COPY(l, OUTPUT), COPIED_32(l, LENGTH));
}

static uint32_t call_take(struct lent *l)
{
    return strigol_window_take(LENT(l, WINDOW), l->price, NUMBERS_64(l, SUMMARY));
}

static uint32_t right_take(struct lent *l)
{
    return oracle_window_take(COPY(l, WINDOW), l->price, COPIED_64(l, SUMMARY));
}

static uint32_t call_ask(struct lent *l)
{
    return strigol_window_ask(LENT(l, WINDOW), NUMBERS_64(l, SUMMARY));
}

static uint32_t right_ask(struct lent *l)
{
    return oracle_window_ask(COPY(l, WINDOW), COPIED_64(l, SUMMARY));
}

#define BIT(n) (1u << (n))
#define FROM_TO(from, to) (BIT((to) + 1) - BIT(from))
#define STEP_NUMBERS (BIT(0) | BIT(2) | FROM_TO(13, 21))
#define STEP_BUFFERS (BIT(TABLE) | BIT(STORE) | BIT(STATE) | BIT(INPUT) | BIT(OUTPUT))

struct call_beside calls[CALLS] = {
    {"strigol_read", call_read, right_read, NULL, FROM_TO(0, 12), BIT(DECK) | BIT(TABLE) | BIT(CARD), {0}},
    {"strigol_start", call_start, right_start, NULL, BIT(0) | BIT(14), BIT(STORE) | BIT(STATE), {0}},
    {"strigol_step", call_step, right_step, most_in_step, STEP_NUMBERS, STEP_BUFFERS | BIT(ANSWER), {0}},
    {"strigol_run", call_run, right_run, NULL, STEP_NUMBERS, STEP_BUFFERS | BIT(RESULT), {0}},
    {"strigol_scan", call_scan, right_scan, most_in_scan, BIT(0) | FROM_TO(22, 24), BIT(REFERENCE) | BIT(VALUES) | BIT(ELEMENTS) | BIT(ANSWER), {0}},
    {"strigol_register_open", call_open, right_open, NULL, BIT(0) | BIT(14) | BIT(29), BIT(REGISTER) | BIT(HOUSE), {0}},
    {"strigol_register_offer", call_offer, right_offer, NULL, BIT(0) | BIT(14) | FROM_TO(25, 27), BIT(REGISTER) | BIT(OFFERED), {0}},
    {"strigol_register_line", call_hand_out, right_hand_out, NULL, BIT(0) | BIT(14), BIT(REGISTER) | BIT(LINE) | BIT(LENGTH), {0}},
    {"strigol_register_report", call_report, right_report, NULL, BIT(0) | BIT(14) | BIT(21), BIT(REGISTER) | BIT(OUTPUT) | BIT(LENGTH), {0}},
    {"strigol_window_take", call_take, right_take, NULL, BIT(0) | BIT(14) | BIT(25), BIT(WINDOW) | BIT(SUMMARY), {0}},
    {"strigol_window_ask", call_ask, right_ask, NULL, BIT(0) | BIT(14), BIT(WINDOW) | BIT(SUMMARY), {0}},
};

void begin_test(const char *name, struct lent *l)
{
    test = name;
    catch_faults();
    make_fences(l);
}

void begin_seed(struct draws *d, uint64_t seed)
{
    doing.seed = seed;
    draws_from(d, seed);
}

uint32_t make(struct lent *l, enum call call)
{
    uint32_t number;
    doing.call = calls[call].name;
    number = calls[call].call(l);
    if (number > STRIGOL_LAST_NUMBER || (calls[call].numbers >> number & 1) == 0) fail("number %u, which this call can't give", number);
    return number;
}

uint32_t trials_met;

/* Whether the trials answered are at most so many. */
static void trials_within(const struct lent *l, uint32_t most)
{
    uint32_t trials = NUMBERS_32(l, ANSWER)[STRIGOL_TRIALS];
    if (trials > most) fail("%u trials, more than %u", trials, most);
    if (trials > trials_met) trials_met = trials;
}

/* The oracle goes first, on the copies: what is lent is then still as it was. */
uint32_t make_right(struct lent *l, enum call call)
{
    uint32_t number, right, most = 0;
    for (int i = 0; i < BUFFERS; i++)
        if (calls[call].buffers >> i & 1) keep(&l->b[i]);
    right = calls[call].right(l);
    if (right == 0 && calls[call].most != NULL) most = calls[call].most(l);
    number = make(l, call);
    calls[call].met[right]++;
    if (number != right) fail("number %u, not %u", number, right);
    for (int i = 0; i < BUFFERS; i++)
        if ((calls[call].buffers >> i & 1) && !same(l, (enum which)i)) break;
    if (calls[call].most != NULL) trials_within(l, most);
    return number;
}

void show_met(enum call call, int all)
{
    doing.call = calls[call].name;
    doing.deck = NULL;
    printf("%s: %s, numbers met:", test, calls[call].name);
    for (uint32_t number = 0; number <= STRIGOL_LAST_NUMBER; number++)
        if (calls[call].numbers >> number & 1) printf(" %u: %ld", number, calls[call].met[number]);
    printf("\n");
    for (uint32_t number = 0; number <= STRIGOL_LAST_NUMBER; number++)
        if (all && (calls[call].numbers >> number & 1) && calls[call].met[number] == 0) fail("number %u is never met", number);
}

void lay_empty(struct lent *l, enum side side, enum which which, size_t length)
{
    lay(&l->b[which], side, NULL, 0, length);
}

void lay_small(struct lent *l, enum side side)
{
    lay_empty(l, side, CARD, sizeof(uint32_t));
    lay_empty(l, side, STATE, STRIGOL_STATE_SIZE * sizeof(uint64_t));
    lay_empty(l, side, ANSWER, STRIGOL_ANSWER_SIZE * sizeof(uint32_t));
    lay_empty(l, side, RESULT, STRIGOL_RESULT_SIZE * sizeof(uint64_t));
    lay_empty(l, side, LINE, STRIGOL_LINE_SIZE);
    lay_empty(l, side, LENGTH, sizeof(uint32_t));
    lay_summary(l, side);
}

void lay_deck(struct lent *l, enum side side, const struct deck *deck, size_t table_len)
{
    doing.deck = deck;
    lay(&l->b[DECK], side, deck->bytes, deck->length, deck->length);
    lay_empty(l, side, TABLE, table_len);
    lay_small(l, side);
}

void lay_run(struct lent *l, enum side side, const uint8_t *input, size_t input_len, size_t output_len, size_t store_len)
{
    lay(&l->b[INPUT], side, input, input_len, input_len);
    lay_empty(l, side, OUTPUT, output_len);
    lay_empty(l, side, STORE, store_len);
}

void lay_random_run(struct lent *l, enum side side, struct draws *d)
{
    uint8_t input[INPUT_ROOM];
    size_t input_len = random_input(d, input), output_len = draw(d, 4) == 0 ? draw(d, 40) : draw(d, MOST_OUTPUT + 1);
    lay_run(l, side, input, input_len, output_len, STRIGOL_STORE_SIZE + (draw(d, 2) ? MORE : 0));
}

void lay_scan(struct lent *l, enum side side, const struct scan *s)
{
    doing.deck = NULL;
    lay(&l->b[REFERENCE], side, s->reference, s->reference_len, s->reference_len);
    lay(&l->b[VALUES], side, s->values, s->values_len, s->values_len);
    lay(&l->b[ELEMENTS], side, s->rows, s->rows_len, s->rows_len);
}

void lay_register(struct lent *l, enum side side, const uint8_t bytes[STRIGOL_REGISTER_SIZE], size_t length)
{
    doing.deck = NULL;
    lay(&l->b[REGISTER], side, bytes, STRIGOL_REGISTER_SIZE, length);
}

void lay_house(struct lent *l, enum side side, const struct line *house)
{
    lay(&l->b[HOUSE], side, house->bytes, house->length, house->length);
}

void lay_line(struct lent *l, enum side side, const struct line *line)
{
    lay(&l->b[OFFERED], side, line->bytes, line->length, line->length);
}

void lay_window(struct lent *l, enum side side, const uint8_t bytes[STRIGOL_WINDOW_SIZE], size_t length)
{
    doing.deck = NULL;
    lay(&l->b[WINDOW], side, bytes, STRIGOL_WINDOW_SIZE, length);
    lay_summary(l, side);
}

void lay_summary(struct lent *l, enum side side)
{
    lay_empty(l, side, SUMMARY, STRIGOL_SUMMARY_SIZE * sizeof(uint64_t));
}

void lay_again(struct buffer *b, enum side side, size_t length)
{
    static uint8_t bytes[STRIGOL_STORE_SIZE + PAGE];
    size_t have = b->length;
    memcpy(bytes, b->at, have);
    lay(b, side, bytes, have, length);
}

/* What a step answered and left, beside the oracle's machine. */
static int step_right(struct lent *l, const struct oracle_program *p, struct machine *m)
{
    static const enum which left[] = {ANSWER, STATE, OUTPUT, STORE};
    struct answer a;
    uint32_t number, most = oracle_most_trials(p, m);
    oracle_step(p, m, l->b[INPUT].at, l->b[INPUT].length, kept(&l->b[OUTPUT]), l->b[OUTPUT].length, &a);
    oracle_answer(&a, COPIED_32(l, ANSWER));
    oracle_state(m, COPIED_64(l, STATE));
    oracle_store(m, kept(&l->b[STORE]));
    number = make(l, STEP);
    calls[STEP].met[a.number]++;
    if (number != (uint32_t)a.number) {
        fail("number %u, not %d", number, a.number);
        return 0;
    }
    for (size_t i = 0; i < sizeof left / sizeof left[0]; i++)
        if (!same(l, left[i])) return 0;
    trials_within(l, number == 0 ? most : 0);
    return 1;
}

long list_right(struct lent *l, const struct oracle_program *p, long most)
{
    static struct machine m;
    long steps = 0;
    int ended = 0, right = 1;
    make_right(l, START);
    oracle_fresh(&m);
    keep(&l->b[ANSWER]);
    keep(&l->b[OUTPUT]);
    keep(&l->b[INPUT]);
    keep(&l->b[TABLE]);
    for (; steps < most && ended < 2 && right; steps++) {
        right = step_right(l, p, &m);
        ended += m.status != RUNNING;
    }
    if (right && same(l, INPUT)) same(l, TABLE);
    return steps - (ended == 2);
}
