/* Helpers of bench/run and bench/read.

   run_bench values DECK: runs the deck for 1,000,000 steps on no input and prints all its strings, then its numbers, a line each.
   run_bench step NAME DECK NAME DECK..: times one step of each deck through the stepping call, with all its checks, beside one pass over as many
   bytes as table and store have; the best of several rounds. A run that has finished starts anew.
   run_bench check NAME DECK..: times the check of the deck's table, by a step that is turned down by 14 right behind it, beside one pass over the
   table.
   Both print a table in Markdown with the deck's name in each row. */
#include "figures.h"
#include "strigol.h"

#include <inttypes.h>
#include <stdio.h>
#include <string.h>

enum { STEPS = 1000000, ROUNDS = 200, CALLS = 100, MOST_PASSES = 3 };

static uint8_t table[STRIGOL_TABLE_SIZE], store[STRIGOL_STORE_SIZE], output[16384];
static uint64_t state[STRIGOL_STATE_SIZE];
static const uint8_t input[1];
static volatile uint32_t sink;
static size_t stored = sizeof store; /* bytes of the store lent, and passed over */
static uint32_t wanted;              /* the number that steps get */

static void read_deck(const char *name)
{
    load_table(name, table);
    strigol_start(store, sizeof store, state);
}

static void values(const char *name)
{
    uint64_t result[STRIGOL_RESULT_SIZE];
    read_deck(name);
    strigol_run(table, sizeof table, store, sizeof store, state, input, 0, output, sizeof output, STEPS, result);
    for (unsigned i = 0; i < table[STRIGOL_STRING_COUNT_AT]; i++) {
        size_t n;
        const uint8_t *s = strigol_string_in(store, i, &n);
        printf("%.*s\n", (int)n, s);
    }
    for (unsigned i = 0; i < table[STRIGOL_NUMBER_COUNT_AT]; i++) printf("%" PRId64 "\n", strigol_number_in(state, i));
}

/* One step. */
static void step(void)
{
    uint32_t answer[STRIGOL_ANSWER_SIZE];
    if (state[STRIGOL_STATUS] == STRIGOL_ENDED) strigol_start(store, sizeof store, state);
    if (strigol_step(table, sizeof table, store, stored, state, input, 0, output, sizeof output, answer) != wanted)
        give_up("a step gets another number than it should");
}

/* One pass over table and store, a byte at a time, and with vector instructions. */
static void pass(void)
{
    sink = pass_over(table, sizeof table) + pass_over(store, stored);
}

static void vector_pass(void)
{
    sink = vector_pass_over(table, sizeof table) + vector_pass_over(store, stored);
}

/* Microseconds for one. */
static double time_one(void (*one)(void))
{
    double best;
    BEST_NS(best, ROUNDS, CALLS, one());
    return best / 1e3;
}

/* Steps of decks, given as a name and a file each, on the bytes lent, beside passes over these bytes. */
static void beside_passes(const char *what, int count, char **decks)
{
    show_passes_head(what, "us", sizeof table + stored, MOST_PASSES);
    for (int i = 0; i + 1 < count; i += 2) {
        read_deck(decks[i + 1]);
        double ours = time_one(step), plain = time_one(pass), vectors = time_one(vector_pass);
        show_passes(decks[i], ours, plain, vectors, MOST_PASSES);
    }
}

int main(int argc, char **argv)
{
    if (argc == 3 && strcmp(argv[1], "values") == 0) {
        values(argv[2]);
        return 0;
    }
    if (argc > 3 && strcmp(argv[1], "step") == 0) {
        beside_passes("one step of", argc - 2, argv + 2);
        return 0;
    }
    if (argc > 3 && strcmp(argv[1], "check") == 0) {
        stored = 0;
        wanted = STRIGOL_BAD_STORE;
        beside_passes("the check of the table of", argc - 2, argv + 2);
        return 0;
    }
    fprintf(stderr, "usage: run_bench values DECK, run_bench step NAME DECK.., run_bench check NAME DECK..\n");
    return 2;
}
