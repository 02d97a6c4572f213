/* Load and fault test of the calls of the static library. All that is lent lies flush against pages that can't be touched, those behind it in
   a first round and those before it in a second, so that a call which goes outside is caught at once.

   steps        1,000,000 steps over many random decks, each step judged by the oracle
   faults       truncated, oversized, empty, damaged and random buffers to every call: its number must be one of the call's own, and every byte
                between the fences is what the oracle leaves
   far          lengths, places and prices past 2^32
   interleaved  two runs, step by step in turn, leave what each leaves alone
   threads      two threads at once on one table do, in every call, what one does alone
   stacks       how much stack each call takes at most, on decks made to take much; it must be what docs/GATEWAY.md says, or less

   The seeds are fixed. `load_test PART` does one part alone; `load_test PART SEED` does one seed of steps, faults, interleaved or stacks. */
#define _GNU_SOURCE
#include "beside.h"

#include <pthread.h>
#include <stdio.h>
#include <stdlib.h>
#include <string.h>
#include <sys/mman.h>

enum {
    STEPS = 1000000, RUNS_OF_A_DECK = 4, MOST_LIST = 120,
    FAULTS = 20000, FAULTY_STEPS = 6, INTERLEAVED = 1500, PAIRS = 800, SHARED = 40, PROBED = 200,
    SECONDS = 170
};

/* What docs/GATEWAY.md says of the stack, in bytes: what strigol_read takes at most, what any other call does, and what a thread should have. */
enum { STACK_OF_READ = 1280 << 10, STACK_OF_OTHERS = 128 << 10, STACK_TO_READ = 2 << 20 };

static struct lent first, second;
static uint64_t only_seed;

/* A part's seeds: all of them, or the one asked for. */
static uint64_t first_seed(void)
{
    return only_seed != 0 ? only_seed : 1;
}

static int more_seeds(uint64_t seed, uint64_t count)
{
    return only_seed != 0 ? seed == only_seed : seed <= count;
}

/* A deck and a table with nothing in it yet, some bytes longer than it need be in every other deck. */
static void lay_any_deck(struct lent *l, enum side side, const struct deck *deck)
{
    lay_deck(l, side, deck, STRIGOL_TABLE_SIZE + (deck->length % 2 ? MORE : 0));
}

/* Steps */

static void steps_on(enum side side)
{
    static struct oracle_program p;
    static struct deck deck;
    long steps = 0, decks = 0;
    uint32_t card;
    doing.part = side == BEHIND ? "steps, fences behind" : "steps, fences before";
    for (uint64_t seed = first_seed(); only_seed != 0 ? seed == only_seed : steps < STEPS / SIDES; seed++, decks++) {
        struct draws d;
        begin_seed(&d, seed);
        running_deck(&d, &deck);
        lay_any_deck(&first, side, &deck);
        if (make_right(&first, READ) != 0 || oracle_read(deck.bytes, deck.length, &p, &card) != 0) {
            fail("a sound deck is refused");
            return;
        }
        lock(&first.b[DECK]);
        lock(&first.b[TABLE]);
        for (int run = 0; run < RUNS_OF_A_DECK; run++) {
            lay_random_run(&first, side, &d);
            lock(&first.b[INPUT]);
            steps += list_right(&first, &p, MOST_LIST);
            unlock(&first.b[INPUT]);
        }
        unlock(&first.b[DECK]);
        unlock(&first.b[TABLE]);
        if (failures > 0) return;
    }
    printf("load test: %s: %ld steps carried out over %ld decks\n", doing.part, steps, decks);
}

static void steps(void)
{
    for (int side = 0; side < SIDES; side++) steps_on((enum side)side);
}

/* Faults */

/* A length about the right one: none, one, less, one off, the right one, more. */
static size_t a_length(struct draws *d, size_t right, size_t most)
{
    switch (draw(d, 8)) {
    case 0: return 0;
    case 1: return draw(d, 3);
    case 2: return draw(d, (uint32_t)right);
    case 3: return right - 1;
    case 4: return right + 1;
    case 5: return right + draw(d, (uint32_t)(most - right) + 1);
    default: return right;
    }
}

/* A deck of any bytes, of signs, of one sign, or a random one that is whole, cut off or too long. */
static void bad_deck(struct draws *d, struct deck *deck)
{
    static const char signs[] = "AN19 \"\"/,*=+-()[]<>$\n\n";
    uint8_t sign = (uint8_t)signs[draw(d, sizeof signs - 1)];
    uint32_t which = draw(d, 10);
    deck->length = draw(d, 4) == 0 ? a_length(d, STRIGOL_DECK_MOST, DECK_ROOM) : draw(d, 2000);
    if (which == 0) garbage(d, deck->bytes, deck->length);
    else if (which == 1) memset(deck->bytes, sign, deck->length);
    else if (which == 2) for (size_t i = 0; i < deck->length; i++) deck->bytes[i] = (uint8_t)signs[draw(d, sizeof signs - 1)];
    else random_deck(d, deck);
    if (which == 3) deck->length = draw(d, (uint32_t)deck->length + 1);
    if (which == 4) {
        size_t n = a_length(d, STRIGOL_DECK_MOST, DECK_ROOM);
        for (size_t i = deck->length; i < n; i++) deck->bytes[i] = ' ';
        deck->length = n;
    }
}

static void fault_read(struct draws *d, enum side side)
{
    static struct deck deck;
    bad_deck(d, &deck);
    lay_deck(&first, side, &deck, a_length(d, STRIGOL_TABLE_SIZE, STRIGOL_TABLE_SIZE + PAGE));
    make_right(&first, READ);
}

static void fault_start(struct draws *d, enum side side)
{
    lay_empty(&first, side, STORE, a_length(d, STRIGOL_STORE_SIZE, STRIGOL_STORE_SIZE + PAGE));
    if (draw(d, 2)) garbage(d, first.b[STATE].at, first.b[STATE].length);
    make_right(&first, START);
}

/* Damaged tables that keep the rules. */
static long kept_damaged;

static void damage_lent(struct draws *d, enum side side)
{
    struct buffer *b = first.b;
    uint64_t steps = count_in(b[TABLE].at, STEP_COUNT);
    switch (draw(d, 16)) {
    case 0: garbage(d, b[TABLE].at, STRIGOL_TABLE_SIZE); break;
    case 1: memset(b[TABLE].at, 0, STRIGOL_TABLE_SIZE); break;
    case 2: lay_again(&b[TABLE], side, a_length(d, STRIGOL_TABLE_SIZE, STRIGOL_TABLE_SIZE + PAGE)); break;
    case 3: case 4: case 5: case 6: damage_table(d, b[TABLE].at); break;
    case 7: case 8: case 9: case 10:
        damage_table(d, b[TABLE].at);
        damage_table(d, b[TABLE].at);
        break;
    default: break;
    }
    switch (draw(d, 6)) {
    case 0: garbage(d, b[STORE].at, STRIGOL_STORE_SIZE); break;
    case 1: damage_store(d, b[STORE].at); break;
    case 2: lay_again(&b[STORE], side, a_length(d, STRIGOL_STORE_SIZE, STRIGOL_STORE_SIZE + PAGE)); break;
    default: break;
    }
    switch (draw(d, 6)) {
    case 0: garbage(d, b[STATE].at, b[STATE].length); break;
    case 1: case 2: damage_state(d, NUMBERS_64(&first, STATE), steps, b[INPUT].length, b[OUTPUT].length); break;
    default: break;
    }
    if (draw(d, 8) == 0) lay_again(&b[INPUT], side, draw(d, (uint32_t)b[INPUT].length + 1));
    if (draw(d, 8) == 0) lay_again(&b[OUTPUT], side, draw(d, (uint32_t)b[OUTPUT].length + 1));
    if (draw(d, 16) == 0) garbage(d, b[INPUT].at, b[INPUT].length);
}

/* Some steps into a deck all may be damaged; then come some steps, until one isn't carried out, and a run. */
static void fault_step(struct draws *d, enum side side)
{
    static struct deck deck;
    static uint8_t sound[STRIGOL_TABLE_SIZE];
    const struct buffer *table = &first.b[TABLE];
    running_deck(d, &deck);
    lay_any_deck(&first, side, &deck);
    lay_random_run(&first, side, d);
    make(&first, READ);
    memcpy(sound, table->at, sizeof sound);
    make(&first, START);
    first.count = draw(d, 20);
    make(&first, RUN);
    if (draw(d, 4) > 0) damage_lent(d, side);
    kept_damaged += table->length >= sizeof sound && memcmp(sound, table->at, sizeof sound) != 0 && oracle_keeps(table->at);
    for (int step = 0; step < FAULTY_STEPS && make_right(&first, STEP) == 0; step++) continue;
    first.count = draw(d, 4) == 0 ? draw(d, 3) : draw(d, 60);
    make_right(&first, RUN);
}

/* Rows more than there may be, rows cut off, and whatever random_scan makes. */
static void fault_scan(struct draws *d, enum side side)
{
    static struct scan s;
    struct buffer *b = first.b;
    random_scan(d, &s);
    lay_scan(&first, side, &s);
    if (draw(d, 20) == 0) lay_again(&b[REFERENCE], side, a_length(d, STRIGOL_STRING_MOST, PAGE));
    if (draw(d, 20) == 0) lay_again(&b[VALUES], side, draw(d, (uint32_t)s.values_len + 1));
    if (draw(d, 20) == 0) lay_again(&b[ELEMENTS], side, a_length(d, STRIGOL_ELEMENTS_MOST * STRIGOL_ROW_SIZE, PAGE));
    if (draw(d, 20) == 0) garbage(d, b[ELEMENTS].at, b[ELEMENTS].length);
    make_right(&first, SCAN);
}

/* A register of few lines, full or nearly so, opened or not, sound or damaged, of any size. Every other one is opened first, or again. */
static void fault_register(struct draws *d, enum side side)
{
    static uint8_t bytes[STRIGOL_REGISTER_SIZE];
    struct line line, house;
    random_register(d, draw(d, 3) > 0, bytes);
    if (draw(d, 3) == 0) damage_register(d, bytes);
    random_line(d, bytes, &line);
    random_house(d, &house);
    lay_register(&first, side, bytes, draw(d, 4) ? sizeof bytes : a_length(d, sizeof bytes, sizeof bytes + PAGE));
    lay_line(&first, side, &line);
    lay_house(&first, side, &house);
    if (draw(d, 2)) make_right(&first, OPEN);
    make_right(&first, OFFER);
    first.place = random_place(d, bytes);
    make_right(&first, HAND_OUT);
    lay_empty(&first, side, OUTPUT, draw(d, 2) ? draw(d, 100) : a_length(d, STRIGOL_REPORT_MOST, STRIGOL_REPORT_MOST + PAGE));
    make_right(&first, REPORT);
}

/* A window of any count of prices, sound or damaged, of any size. */
static void fault_window(struct draws *d, enum side side)
{
    uint8_t bytes[STRIGOL_WINDOW_SIZE];
    random_window(d, bytes);
    if (draw(d, 3) == 0) damage_window(d, bytes);
    lay_window(&first, side, bytes, draw(d, 4) ? sizeof bytes : a_length(d, sizeof bytes, PAGE));
    first.price = random_price(d);
    make_right(&first, ASK);
    make_right(&first, TAKE);
    make_right(&first, ASK);
}

static void faults_on(enum side side)
{
    doing.part = side == BEHIND ? "faults, fences behind" : "faults, fences before";
    for (uint64_t seed = first_seed(); more_seeds(seed, FAULTS); seed++) {
        struct draws d;
        begin_seed(&d, seed);
        fault_read(&d, side);
        fault_start(&d, side);
        fault_step(&d, side);
        fault_scan(&d, side);
        fault_register(&d, side);
        fault_window(&d, side);
    }
}

/* Both rounds, and whether every number was met that can be met. */
static void faults(void)
{
    for (int i = 0; i < CALLS; i++) memset(calls[i].met, 0, sizeof calls[i].met);
    for (int side = 0; side < SIDES; side++) faults_on((enum side)side);
    for (int i = 0; i < CALLS; i++) show_met((enum call)i, only_seed == 0);
    printf("load test: faults: %ld damaged tables keep the rules\n", kept_damaged);
}

/* Lengths, places and prices past 2^32 */

static const uint64_t far = (uint64_t)1 << 32;
static uint8_t far_table[STRIGOL_TABLE_SIZE], far_store[STRIGOL_STORE_SIZE], far_output[100];
static uint64_t far_state[STRIGOL_STATE_SIZE];

/* READ and PRINT, with input or output at a place past 2^32. */
static void far_step(const uint8_t *input, size_t input_len, uint64_t taken, uint8_t *output, size_t output_len, uint64_t put)
{
    uint32_t answer[STRIGOL_ANSWER_SIZE], numbers[2];
    strigol_start(far_store, sizeof far_store, far_state);
    far_state[STRIGOL_TAKEN] = taken;
    far_state[STRIGOL_PUT] = put;
    doing.call = "strigol_step";
    for (int i = 0; i < 2; i++)
        numbers[i] = strigol_step(far_table, sizeof far_table, far_store, sizeof far_store, far_state, input, input_len, output, output_len,
                                  answer);
    if (numbers[0] != 0 || numbers[1] != 0) fail("numbers %u and %u, not 0 and 0", numbers[0], numbers[1]);
    else if (memcmp(output + put, "XYZ\n", 4) != 0) fail("the record isn't at its place");
    else if (far_state[STRIGOL_TAKEN] != taken + 4 || far_state[STRIGOL_PUT] != put + 4) fail("input place or output length");
}

/* Buffers longer than 2^32 bytes that are right but for that. */
static void far_buffers(uint8_t *long_one)
{
    static struct deck deck;
    uint32_t answer[STRIGOL_ANSWER_SIZE], card = 5, number;
    uint8_t row[STRIGOL_ROW_SIZE];
    uint64_t result[STRIGOL_RESULT_SIZE];
    short_deck("PROGRAM P|READ A|PRINT A|END|", &deck);
    memcpy(long_one, deck.bytes, deck.length);
    doing.call = "strigol_read";
    memset(far_table, 7, sizeof far_table);
    number = strigol_read(long_one, far + deck.length, far_table, sizeof far_table, &card);
    if (number != STRIGOL_DECK_TOO_LONG || card != 0) fail("number %u and card %u, not 1 and 0, for a deck of over 2^32 bytes", number, card);
    for (size_t i = 0; i < sizeof far_table; i++)
        if (far_table[i] != 7) fail("the table is written, at %zu", i);
    number = strigol_read(deck.bytes, deck.length, long_one, far + 100, &card);
    if (number != 0) fail("number %u, not 0, for a table of over 2^32 bytes", number);
    memcpy(far_table, long_one, sizeof far_table);
    doing.call = "strigol_run";
    strigol_start(far_store, sizeof far_store, far_state);
    number = strigol_run(long_one, far + 100, far_store, sizeof far_store, far_state, deck.bytes, 9, far_output, sizeof far_output, 100,
                         result);
    if (number != 0 || result[STRIGOL_DONE] != 3) fail("number %u, not 0, with a table of over 2^32 bytes", number);
    number = strigol_start(long_one, far + 100, far_state);
    if (number == 0) number = strigol_run(far_table, sizeof far_table, long_one, far + 100, far_state, deck.bytes, 9, far_output,
                                          sizeof far_output, 100, result);
    if (number != 0 || result[STRIGOL_DONE] != 3) fail("number %u, not 0, with a store of over 2^32 bytes", number);
    doing.call = "strigol_scan";
    strigol_put_element(row, STRIGOL_STRING, 0, 3);
    memcpy(long_one, "XYZ", 3);
    number = strigol_scan(long_one, far + 3, (const uint8_t *)"XYZ", 3, row, sizeof row, answer);
    if (number != STRIGOL_REFERENCE_TOO_LONG) fail("number %u, not 22, for a reference of over 2^32 bytes", number);
    number = strigol_scan((const uint8_t *)"AXYZ", 4, long_one, far + 3, row, sizeof row, answer);
    if (number != 0 || answer[STRIGOL_START] != 1) fail("number %u, not 0, for values of over 2^32 bytes", number);
    number = strigol_scan((const uint8_t *)"XYZ", 3, (const uint8_t *)"XYZ", 3, long_one, far + STRIGOL_ROW_SIZE, answer);
    if (number != STRIGOL_TOO_MANY_ELEMENTS) fail("number %u, not 23, for rows of over 2^32 bytes", number);
}

/* A register's buffer, a house currency, a line and an output that are right but for being so long, and places past 2^32. */
static void far_register(uint8_t *long_one)
{
    static const uint8_t house[] = "EUR", line[] = "A,WH,1,1", held[] = "A,WH,1,1,EUR", report[] = "A,WH,1,1,EUR\nTOTAL,EUR,1,1,1\n";
    uint8_t handed[STRIGOL_LINE_SIZE];
    uint32_t length, number;
    doing.call = "strigol_register_open";
    memset(long_one, 0, STRIGOL_REGISTER_SIZE);
    number = strigol_register_open(long_one, far + 100, house, 3);
    if (number != 0) fail("number %u, not 0, for a buffer of over 2^32 bytes", number);
    doing.call = "strigol_register_offer";
    number = strigol_register_offer(long_one, far + 100, line, 8);
    if (number != 0) fail("number %u, not 0, for a buffer of over 2^32 bytes", number);
    doing.call = "strigol_register_line";
    number = strigol_register_line(long_one, far + 100, 0, handed, &length);
    if (number != 0 || length != 12 || memcmp(handed, held, 12) != 0) fail("number %u and length %u, not 0 and 12, for such a one", number, length);
    for (uint64_t place = far; place != 0; place <<= 1) {
        number = strigol_register_line(long_one, STRIGOL_REGISTER_SIZE, place, handed, &length);
        if (number != 0 || length != 0) fail("number %u and length %u, not 0 and 0, for place %llu", number, length, (unsigned long long)place);
    }
    doing.call = "strigol_register_report";
    number = strigol_register_report(long_one, far + 100, far_output, sizeof far_output, &length);
    if (number != 0 || length != 29) fail("number %u and length %u, not 0 and 29, with a buffer of over 2^32 bytes", number, length);
    memcpy(far_table, long_one, STRIGOL_REGISTER_SIZE);
    number = strigol_register_report(far_table, sizeof far_table, long_one, far + 3, &length);
    if (number != 0 || length != 29) fail("number %u and length %u, not 0 and 29, with an output of over 2^32 bytes", number, length);
    if (memcmp(long_one, report, 29) != 0 || memcmp(far_output, long_one, 29) != 0) fail("not the report");
    doing.call = "strigol_register_offer";
    memcpy(long_one, "B,WH,1,1", 8);
    number = strigol_register_offer(far_table, sizeof far_table, long_one, far + 8);
    if (number != STRIGOL_BAD_LINE) fail("number %u, not 25, for a line of over 2^32 bytes", number);
    doing.call = "strigol_register_open";
    memcpy(long_one, house, 3);
    number = strigol_register_open(far_table, sizeof far_table, long_one, far + 3);
    if (number != STRIGOL_BAD_CURRENCY) fail("number %u, not 29, for a house currency of over 2^32 bytes", number);
}

/* A window's buffer of over 2^32 bytes, and prices past 2^32. */
static void far_window(uint8_t *long_one)
{
    uint64_t summary[STRIGOL_SUMMARY_SIZE];
    uint32_t number;
    doing.call = "strigol_window_take";
    memset(long_one, 0, STRIGOL_WINDOW_SIZE);
    number = strigol_window_take(long_one, far + 100, 7, summary);
    if (number != 0 || summary[STRIGOL_SUM] != 7) fail("number %u, not 0, for a window of over 2^32 bytes", number);
    for (uint64_t price = far; price != 0; price <<= 1) {
        number = strigol_window_take(long_one, far + 100, price + 7, summary);
        if (number != STRIGOL_BAD_PRICE) fail("number %u, not 25, for price %llu", number, (unsigned long long)price + 7);
    }
    doing.call = "strigol_window_ask";
    number = strigol_window_ask(long_one, far + 100, summary);
    if (number != 0 || summary[STRIGOL_PRICES_HELD] != 1) fail("number %u, not 0, for a window of over 2^32 bytes", number);
}

static void far_away(void)
{
    size_t pages = (size_t)far + 16 * PAGE;
    uint8_t *long_one = mmap(NULL, pages, PROT_READ | PROT_WRITE, MAP_PRIVATE | MAP_ANONYMOUS | MAP_NORESERVE, -1, 0);
    doing.part = "far";
    doing.seed = 0;
    doing.deck = NULL;
    if (long_one == MAP_FAILED) {
        fail("no 4 GiB of addresses");
        return;
    }
    far_buffers(long_one);
    memcpy(long_one + far + 6, "XYZ\nAB", 6);
    far_step(long_one, far + 12, far + 6, far_output, sizeof far_output, 1);
    far_step((const uint8_t *)"A\nXYZ\n", 6, 2, long_one, far + 50, far + 3);
    far_register(long_one);
    far_window(long_one);
    munmap(long_one, pages);
    printf("load test: far: buffers, places and prices past 2^32\n");
}

/* One run beside another */

/* What was given and left, as one number. */
static uint64_t mixed(uint64_t so_far, const void *bytes, size_t n)
{
    const uint8_t *at = bytes;
    uint64_t word;
    for (; n >= sizeof word; at += sizeof word, n -= sizeof word) {
        memcpy(&word, at, sizeof word);
        so_far = (so_far ^ word) * 0x9e3779b97f4a7c15u;
        so_far ^= so_far >> 29;
    }
    while (n-- > 0) so_far = (so_far ^ *at++) * 0x9e3779b97f4a7c15u;
    return so_far;
}

static uint64_t mixed_buffer(uint64_t so_far, const struct lent *l, enum which which)
{
    return mixed(so_far, l->b[which].at, l->b[which].length);
}

/* What a step or a run left, with what it answered. */
static uint64_t mixed_run(uint64_t so_far, const struct lent *l, enum which answer)
{
    const enum which left[] = {STORE, STATE, OUTPUT, answer};
    for (size_t i = 0; i < sizeof left / sizeof left[0]; i++) so_far = mixed_buffer(so_far, l, left[i]);
    return so_far;
}

/* A step, and all that it answered and left. */
static uint64_t mixed_step(struct lent *l, uint32_t *number)
{
    *number = make(l, STEP);
    return mixed_run(*number, l, ANSWER);
}

/* The steps of a run until it ends, or so many. */
struct trail { int steps; uint64_t step[MOST_LIST]; };

static void follow(struct lent *l, struct trail *trail)
{
    uint32_t number = 0;
    make(l, START);
    for (trail->steps = 0; trail->steps < MOST_LIST && number == 0; trail->steps++) trail->step[trail->steps] = mixed_step(l, &number);
}

static int next_in(struct lent *l, const struct trail *trail, int step)
{
    uint32_t number;
    if (mixed_step(l, &number) != trail->step[step]) fail("step %d differs from that of the run alone", step + 1);
    return step + 1;
}

/* Two runs of one deck, or of two. Each is made alone first. */
static void interleave(struct draws *d, int one_deck)
{
    static struct deck decks[2];
    static struct trail trails[2];
    struct lent *const l[2] = {&first, &second};
    struct buffer own_table;
    int done[2] = {0, 0};
    for (int i = 0; i < 2; i++) {
        running_deck(d, &decks[i]);
        lay_any_deck(l[i], (enum side)i, &decks[i]);
        make(l[i], READ);
        lay_random_run(l[i], (enum side)i, d);
        lock(&l[i]->b[TABLE]);
    }
    own_table = second.b[TABLE];
    if (one_deck) second.b[TABLE] = first.b[TABLE];
    for (int i = 0; i < 2; i++) {
        follow(l[i], &trails[i]);
        lay_empty(l[i], (enum side)i, OUTPUT, l[i]->b[OUTPUT].length);
        lay_empty(l[i], (enum side)i, STORE, l[i]->b[STORE].length);
        make(l[i], START);
    }
    while (done[0] < trails[0].steps || done[1] < trails[1].steps) {
        int i = (int)draw(d, 2);
        if (done[i] == trails[i].steps) i = 1 - i;
        done[i] = next_in(l[i], &trails[i], done[i]);
    }
    second.b[TABLE] = own_table;
    for (int i = 0; i < 2; i++) unlock(&l[i]->b[TABLE]);
}

static void interleaved(void)
{
    doing.part = "interleaved";
    for (uint64_t seed = first_seed(); more_seeds(seed, INTERLEAVED); seed++) {
        struct draws d;
        begin_seed(&d, seed);
        interleave(&d, seed % 2 == 0);
    }
    printf("load test: interleaved: %d pairs of runs\n", INTERLEAVED);
}

/* Two threads at once */

/* A run of a deck that is read already, on a table that others use too; and what came of it alone. */
struct job { const struct deck *deck; const struct buffer *table; uint64_t seed, alone; };

/* Steps and runs, on the table shared. */
static uint64_t run_job(struct lent *l, uint64_t all)
{
    uint32_t number = 0;
    all = all * 31 + make(l, START);
    for (int step = 0; step < MOST_LIST / 4 && number == 0; step++) all = all * 31 + mixed_step(l, &number);
    all = all * 31 + make(l, START);
    all = all * 31 + make(l, RUN);
    return mixed_run(all, l, RESULT);
}

/* A register of the job's own, opened; lines offered to it, one handed out, and the report. */
static uint64_t register_job(struct lent *l, enum side side, struct draws *d, uint64_t all)
{
    uint8_t bytes[STRIGOL_REGISTER_SIZE];
    struct line line;
    random_register(d, draw(d, 2) > 0, bytes);
    lay_register(l, side, bytes, sizeof bytes);
    random_house(d, &line);
    lay_house(l, side, &line);
    all = all * 31 + make(l, OPEN);
    for (int i = 0; i < 4; i++) {
        random_line(d, bytes, &line);
        lay_line(l, side, &line);
        all = all * 31 + make(l, OFFER);
    }
    l->place = random_place(d, bytes);
    all = mixed_buffer(mixed_buffer(all * 31 + make(l, HAND_OUT), l, LINE), l, LENGTH);
    lay_empty(l, side, OUTPUT, STRIGOL_REPORT_MOST);
    all = mixed_buffer(mixed_buffer(all * 31 + make(l, REPORT), l, OUTPUT), l, LENGTH);
    return mixed_buffer(all, l, REGISTER);
}

/* A window of the job's own, given some prices, and asked. */
static uint64_t window_job(struct lent *l, enum side side, struct draws *d, uint64_t all)
{
    uint8_t bytes[STRIGOL_WINDOW_SIZE];
    random_window(d, bytes);
    lay_window(l, side, bytes, sizeof bytes);
    for (int i = 0; i < 4; i++) {
        l->price = random_price(d);
        all = mixed_buffer(all * 31 + make(l, TAKE), l, SUMMARY);
    }
    all = mixed_buffer(all * 31 + make(l, ASK), l, SUMMARY);
    return mixed_buffer(all, l, WINDOW);
}

/* All calls: the deck is read into a table of the run's own, then come steps and a run on the table shared, a scan, a register, and a window. Gives
   what was given and left, as one number. */
static uint64_t do_job(struct lent *l, const struct job *job, enum side side)
{
    uint8_t input[INPUT_ROOM];
    struct scan s;
    struct draws d;
    struct buffer own_table;
    uint64_t all;
    begin_seed(&d, job->seed);
    lay_any_deck(l, side, job->deck);
    all = make(l, READ);
    all = mixed_buffer(mixed(all, l->b[TABLE].at, STRIGOL_TABLE_SIZE), l, CARD);
    own_table = l->b[TABLE];
    l->b[TABLE] = *job->table;
    lay_run(l, side, input, random_input(&d, input), MOST_OUTPUT, STRIGOL_STORE_SIZE);
    l->count = 1000;
    all = run_job(l, all);
    l->b[TABLE] = own_table;
    random_scan(&d, &s);
    lay_scan(l, side, &s);
    all = all * 31 + make(l, SCAN);
    all = register_job(l, side, &d, mixed_buffer(all, l, ANSWER));
    return window_job(l, side, &d, all);
}

static struct job jobs[2 * PAIRS];
static pthread_barrier_t together;

/* One of the two threads: the even jobs or the odd ones. Both begin a job at the same time, on the same table. */
static void *work(void *lent)
{
    static uint8_t stacks[2][SAYING_STACK];
    int which = lent == &second;
    lend_stack(stacks[which]);
    doing.part = which ? "threads, the second" : "threads, the first";
    for (int i = which; i < 2 * PAIRS; i += 2) {
        pthread_barrier_wait(&together);
        if (do_job(lent, &jobs[i], (enum side)which) != jobs[i].alone) fail("something differs from the run alone");
    }
    return NULL;
}

/* Reads the decks that are shared, and makes every job alone. */
static void prepare_jobs(struct deck *decks, struct buffer *tables)
{
    doing.part = "threads, alone";
    for (int i = 0; i < SHARED; i++) {
        struct draws d;
        begin_seed(&d, (uint64_t)i + 1);
        running_deck(&d, &decks[i]);
        lay_any_deck(&first, BEHIND, &decks[i]);
        make(&first, READ);
        make_fence(&tables[i], STRIGOL_TABLE_SIZE);
        lay(&tables[i], (enum side)(i % SIDES), first.b[TABLE].at, STRIGOL_TABLE_SIZE, STRIGOL_TABLE_SIZE);
        lock(&tables[i]);
    }
    for (int i = 0; i < 2 * PAIRS; i++) {
        int shared = i / 2 % SHARED;
        jobs[i] = (struct job){&decks[shared], &tables[shared], (uint64_t)i + 1, 0};
        jobs[i].alone = do_job(i % 2 ? &second : &first, &jobs[i], (enum side)(i % 2));
    }
}

static void threads(void)
{
    static struct deck decks[SHARED];
    static struct buffer tables[SHARED];
    pthread_t thread[2];
    pthread_attr_t attributes;
    prepare_jobs(decks, tables);
    pthread_barrier_init(&together, NULL, 2);
    pthread_attr_init(&attributes);
    pthread_attr_setstacksize(&attributes, STACK_TO_READ);
    if (pthread_create(&thread[0], &attributes, work, &first) != 0 || pthread_create(&thread[1], &attributes, work, &second) != 0) {
        fail("can't make two threads");
        exit(1);
    }
    for (int i = 0; i < 2; i++) pthread_join(thread[i], NULL);
    printf("load test: threads: %d jobs on each of two threads at once, %d tables shared\n", PAIRS, SHARED);
}

/* Stacks */

/* A call made on a painted stack: where its caller's frame was. */
struct probe { enum call call; struct lent *l; uint8_t *top; };

static void *probed(void *probe)
{
    static uint8_t stack[SAYING_STACK];
    struct probe *p = probe;
    lend_stack(stack);
    doing.part = "stacks";
    doing.call = calls[p->call].name;
    p->top = __builtin_frame_address(0);
    calls[p->call].call(p->l);
    return NULL;
}

static struct { size_t most; const char *by; } stack_use[CALLS];

/* Makes the call on a stack of its own and finds the lowest byte that it wrote. */
static void probe_stack(enum call call, struct lent *l, const char *by)
{
    enum { PAINTED = 16 << 20, PAINT = 0xa7 };
    static struct buffer stack;
    static uint8_t *clean_to, paint[64];
    struct probe p = {call, l, NULL};
    pthread_attr_t attributes;
    pthread_t thread;
    uint8_t *from;
    size_t size = call == READ ? PAINTED : PAINTED / 32;
    int error;
    if (stack.from == NULL) {
        make_fence(&stack, PAINTED);
        clean_to = stack.from;
        memset(paint, PAINT, sizeof paint);
    }
    memset(clean_to, PAINT, (size_t)(stack.to - clean_to));
    from = stack.to - size;
    pthread_attr_init(&attributes);
    pthread_attr_setstack(&attributes, from, size);
    error = pthread_create(&thread, &attributes, probed, &p);
    if (error != 0) {
        fail("can't make a thread: %s", strerror(error));
        exit(1);
    }
    pthread_join(thread, NULL);
    while (memcmp(from, paint, sizeof paint) == 0) from += sizeof paint;
    while (*from == PAINT) from++;
    clean_to = from;
    if (p.top > from && (size_t)(p.top - from) > stack_use[call].most) {
        stack_use[call].most = (size_t)(p.top - from);
        stack_use[call].by = by;
    }
}

/* Decks made to take much stack: those that one statement fills, and those at the edges. */
static void probe_deck(const struct deck *deck)
{
    lay_any_deck(&first, BEHIND, deck);
    probe_stack(READ, &first, deck->name);
}

static void probe_decks(void)
{
    static struct deck deck;
    for (int i = 0; long_deck(i, &deck); i++) probe_deck(&deck);
    for (int i = 0; edge_deck(i, &deck); i++) probe_deck(&deck);
}

/* One that isn't opened is opened first, so that all calls find one to work on. */
static void probe_register(struct draws *d)
{
    static uint8_t bytes[STRIGOL_REGISTER_SIZE];
    static const struct line house = {3, "EUR"};
    struct line line;
    random_register(d, draw(d, 2) > 0, bytes);
    random_line(d, bytes, &line);
    lay_register(&first, BEHIND, bytes, sizeof bytes);
    lay_line(&first, BEHIND, &line);
    lay_house(&first, BEHIND, &house);
    first.place = random_place(d, bytes);
    probe_stack(OPEN, &first, "a random register");
    probe_stack(OFFER, &first, "a random register");
    probe_stack(HAND_OUT, &first, "a random register");
    lay_empty(&first, BEHIND, OUTPUT, STRIGOL_REPORT_MOST);
    probe_stack(REPORT, &first, "a random register");
}

static void probe_window(struct draws *d)
{
    uint8_t bytes[STRIGOL_WINDOW_SIZE];
    random_window(d, bytes);
    lay_window(&first, BEHIND, bytes, sizeof bytes);
    first.price = random_price(d);
    probe_stack(TAKE, &first, "a random window");
    probe_stack(ASK, &first, "a random window");
}

/* Random decks, their steps and runs, scans, registers and windows. */
static void probe_random(uint64_t seed)
{
    static struct deck deck;
    static struct scan s;
    struct draws d;
    begin_seed(&d, seed);
    running_deck(&d, &deck);
    lay_any_deck(&first, BEHIND, &deck);
    lay_random_run(&first, BEHIND, &d);
    probe_stack(READ, &first, "a random deck");
    probe_stack(START, &first, "any store");
    for (int step = 0; step < 20; step++) probe_stack(STEP, &first, "a random deck");
    make(&first, START);
    first.count = 1000;
    probe_stack(RUN, &first, "a random deck");
    random_scan(&d, &s);
    lay_scan(&first, BEHIND, &s);
    probe_stack(SCAN, &first, "a random scan");
    probe_register(&d);
    probe_window(&d);
}

static void show_stacks(const char *on)
{
    printf("load test: stacks, most bytes used on %s:", on);
    for (int i = 0; i < CALLS; i++) printf(" %s %zu%s", calls[i].name, stack_use[i].most, i + 1 < CALLS ? "," : "\n");
}

static void stacks(void)
{
    doing.part = "stacks";
    for (uint64_t seed = first_seed(); more_seeds(seed, PROBED); seed++) probe_random(seed);
    show_stacks("random decks");
    probe_decks();
    show_stacks(stack_use[READ].by);
    for (int i = 0; i < CALLS; i++) {
        size_t most = i == READ ? STACK_OF_READ : STACK_OF_OTHERS;
        doing.call = calls[i].name;
        if (stack_use[i].most > most) fail("%zu bytes of stack, more than the %zu that docs/GATEWAY.md says", stack_use[i].most, most);
    }
}

int main(int argc, char **argv)
{
    static const struct { const char *name; void (*part)(void); } parts[] = {
        {"steps", steps}, {"faults", faults}, {"far", far_away}, {"interleaved", interleaved}, {"threads", threads}, {"stacks", stacks},
    };
    setvbuf(stdout, NULL, _IOLBF, 0);
    end_after(SECONDS);
    begin_test("load test", &first);
    make_fences(&second);
    if (argc > 2) only_seed = strtoull(argv[2], NULL, 10);
    for (size_t i = 0; i < sizeof parts / sizeof parts[0]; i++)
        if (argc < 2 || strcmp(argv[1], parts[i].name) == 0) parts[i].part();
    printf("load test: %d failures\n", failures);
    return failures != 0;
}
