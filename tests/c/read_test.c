/* Tries the reading call of the static library against the oracle: number, card and every byte of the table, on all edge decks, on decks that
   one statement fills, and on random ones. Bytes past the table stay; a table too small stays and gets 2. A first argument is the seed of the
   only random deck to try. */
#include "beside.h"

#include <stdio.h>
#include <stdlib.h>

enum { RANDOM_DECKS = 10000 };

static struct lent lent;

/* Reads the deck into a table of this size, between fences, by the call and by the oracle. */
static void try_size(const struct deck *d, enum side side, size_t size)
{
    doing.part = d->name;
    lay_deck(&lent, side, d, size);
    make_right(&lent, READ);
}

static void try_deck(const struct deck *d, enum side side)
{
    static const size_t sizes[] = {0, 1, STRIGOL_TABLE_SIZE / 2, STRIGOL_TABLE_SIZE - 1, STRIGOL_TABLE_SIZE + 1};
    uint64_t seed = doing.seed;
    try_size(d, side, STRIGOL_TABLE_SIZE);
    if (seed % 20 == 0) try_size(d, side, sizes[seed / 20 % 5]);
    if (seed % 50 == 1) try_size(d, side, STRIGOL_TABLE_SIZE + MORE);
}

/* All decks of a kind: how many. */
static int try_all(int (*deck_at)(int, struct deck *))
{
    static struct deck d;
    int tried = 0;
    for (; deck_at(tried, &d); tried++) {
        doing.seed = (uint64_t)tried;
        try_deck(&d, (enum side)(tried % SIDES));
        try_size(&d, (enum side)(tried % SIDES), STRIGOL_TABLE_SIZE - 1);
    }
    return tried;
}

static void try_random(uint64_t seed)
{
    static struct deck d;
    struct draws draws;
    begin_seed(&draws, seed);
    random_deck(&draws, &d);
    try_deck(&d, (enum side)(seed % SIDES));
}

int main(int argc, char **argv)
{
    int edges = 0, filled = 0, decks = argc > 1 ? 1 : RANDOM_DECKS;
    begin_test("read test", &lent);
    if (argc == 1) {
        edges = try_all(edge_deck);
        filled = try_all(long_deck);
    }
    for (int i = 1; i <= decks; i++) try_random(argc > 1 ? strtoull(argv[1], NULL, 10) : (uint64_t)i);
    show_met(READ, argc == 1);
    printf("read test: %d edges, %d filled decks, %d random decks, %d failures\n", edges, filled, decks, failures);
    return failures != 0;
}
