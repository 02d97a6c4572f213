/* The window's calls, each with its check of all rules: a price taken into a full window, of which the first leaves, and into windows of 0, 1 and 16
   prices, and a full window asked, beside one pass over its 256 bytes. Then, for the record, the same beside a plain window in C that checks nothing.
   Prices are random, the same in every run. Each figure is the best of many rounds in one run. Both windows must give the same summaries. Printed are
   tables in Markdown. */
#include "decks.h"
#include "figures.h"
#include "strigol.h"

#include <string.h>

/* Windows take turns, so that a call doesn't wait for what the one before has written. The number of prices drawn is a prime, so that no window gets
   the same ones always. */
enum { ROUNDS = 10000, CALLS = 1000, MOST_PASSES = 4, WINDOWS = 64, DRAWN = 1009, COMPARED = 3 * STRIGOL_PRICES_MOST };

static uint64_t drawn[DRAWN], summary[STRIGOL_SUMMARY_SIZE], plain_summary[STRIGOL_SUMMARY_SIZE];
static uint8_t windows[WINDOWS][STRIGOL_WINDOW_SIZE];
static unsigned held; /* how many prices stand in each window before one is taken */
static volatile uint64_t sink;

/* The plain window, as one would write it: a ring with a running sum; lowest and highest are worked out from the ring. */
static struct ring { uint64_t prices[STRIGOL_PRICES_MOST], sum; unsigned count, next; } rings[WINDOWS];

__attribute__((noipa)) static void ask_ring(const struct ring *ring, uint64_t *answer)
{
    uint64_t lowest = ring->count > 0 ? ring->prices[0] : 0, highest = lowest;
    for (unsigned i = 1; i < ring->count; i++) {
        if (ring->prices[i] < lowest) lowest = ring->prices[i];
        if (ring->prices[i] > highest) highest = ring->prices[i];
    }
    answer[STRIGOL_PRICES_HELD] = ring->count;
    answer[STRIGOL_LOWEST] = lowest;
    answer[STRIGOL_HIGHEST] = highest;
    answer[STRIGOL_SUM] = ring->sum;
}

__attribute__((noipa)) static void take_into_ring(struct ring *ring, uint64_t price, uint64_t *answer)
{
    if (ring->count < STRIGOL_PRICES_MOST) ring->count++;
    else ring->sum -= ring->prices[ring->next];
    ring->prices[ring->next] = price;
    ring->next = (ring->next + 1) % STRIGOL_PRICES_MOST;
    ring->sum += price;
    ask_ring(ring, answer);
}

static void draw_prices(void)
{
    struct draws d;
    draws_from(&d, 1);
    for (int i = 0; i < DRAWN; i++) drawn[i] = 1 + draw(&d, STRIGOL_PRICE_LIMIT);
}

/* The next price and the next window, round and round. */

static uint64_t next_price(void)
{
    static int place;
    return drawn[place = (place + 1) % DRAWN];
}

static int next_window(void)
{
    static int place;
    return place = (place + 1) % WINDOWS;
}

static void take_into(uint8_t *window, uint64_t price)
{
    if (strigol_window_take(window, STRIGOL_WINDOW_SIZE, price, summary) != 0) give_up("a price is declined");
}

static void ask_for(const uint8_t *window)
{
    if (strigol_window_ask(window, STRIGOL_WINDOW_SIZE, summary) != 0) give_up("a window is declined");
}

static void compare(void)
{
    if (memcmp(summary, plain_summary, sizeof summary) != 0) give_up("the windows give two summaries");
}

/* Fills each window and its ring with so many prices; both take the same, and agree after each. */
static void fill(unsigned count)
{
    held = count < STRIGOL_PRICES_MOST ? count : STRIGOL_PRICES_MOST;
    memset(windows, 0, sizeof windows);
    memset(rings, 0, sizeof rings);
    for (int i = 0; i < WINDOWS; i++)
        for (unsigned taken = 0; taken < count; taken++) {
            uint64_t price = next_price();
            take_into(windows[i], price);
            take_into_ring(&rings[i], price, plain_summary);
            compare();
            ask_for(windows[i]);
            ask_ring(&rings[i], plain_summary);
            compare();
        }
}

/* Takes a price; it is zeroed again where the window isn't full. */
static void take(void)
{
    uint8_t *window = windows[next_window()];
    take_into(window, next_price());
    if (held < STRIGOL_PRICES_MOST) memset(window + held * STRIGOL_PRICE_SIZE, 0, STRIGOL_PRICE_SIZE);
    sink = summary[STRIGOL_SUM];
}

static void ask(void)
{
    ask_for(windows[next_window()]);
    sink = summary[STRIGOL_SUM];
}

static void plain_take(void)
{
    struct ring *ring = &rings[next_window()];
    take_into_ring(ring, next_price(), plain_summary);
    if (held < STRIGOL_PRICES_MOST) {
        ring->sum -= ring->prices[held];
        ring->count = ring->next = held;
    }
    sink = plain_summary[STRIGOL_SUM];
}

static void plain_ask(void)
{
    ask_ring(&rings[next_window()], plain_summary);
    sink = plain_summary[STRIGOL_SUM];
}

static void pass(void)
{
    sink = pass_over(windows[next_window()], STRIGOL_WINDOW_SIZE);
}

static void vector_pass(void)
{
    sink = vector_pass_over(windows[next_window()], STRIGOL_WINDOW_SIZE);
}

static const struct row { const char *name; unsigned count; void (*call)(void), (*plain)(void); } rows[] = {
    {"a price taken into a full window: the first leaves", STRIGOL_PRICES_MOST, take, plain_take},
    {"a price taken into an empty window", 0, take, plain_take},
    {"a price taken into a window of 1", 1, take, plain_take},
    {"a price taken into a window of 16", 16, take, plain_take},
    {"a full window asked", STRIGOL_PRICES_MOST, ask, plain_ask},
};
enum { ROWS = sizeof rows / sizeof rows[0] };

enum { OURS, PLAIN, PASS, VECTORS, TIMED };

/* Nanoseconds for one of each, by turns, and by the clock on the wall: the best rounds are those that nothing else came into. Of processor time, what
   the host takes from a virtual processor can be taken off another round, and one as short as these then comes to nothing. */
static void time_row(const struct row *row, double best[TIMED])
{
    void (*const timed[TIMED])(void) = {row->call, row->plain, pass, vector_pass};
    fill(row->count);
    for (int i = 0; i < TIMED; i++) best[i] = 1e18;
    for (int round = 0; round < ROUNDS; round++)
        for (int i = 0; i < TIMED; i++) {
            double time;
            BEST_BY(CLOCK_MONOTONIC, time, 1, CALLS, timed[i]());
            keep_less(&best[i], time);
        }
}

int main(void)
{
    double best[ROWS][TIMED];
    draw_prices();
    fill(COMPARED);
    for (size_t i = 0; i < ROWS; i++) time_row(&rows[i], best[i]);
    show_passes_head("with all rules checked", "ns", STRIGOL_WINDOW_SIZE, MOST_PASSES);
    for (size_t i = 0; i < ROWS; i++) show_passes(rows[i].name, best[i][OURS], best[i][PASS], best[i][VECTORS], MOST_PASSES);
    printf("\n| for the record | call, ns | plain window, ns | ratio |\n|---|---|---|---|\n");
    for (size_t i = 0; i < ROWS; i++)
        printf("| %s | %s | %s | %.2f |\n", rows[i].name, figure(best[i][OURS]), figure(best[i][PLAIN]), best[i][PLAIN] / best[i][OURS]);
    return 0;
}
