/* The reading call beside a plain reader of the same grammar in C (tests/oracle/reader.c), on decks of up to 32,768 bytes: accepted ones, and
   refused ones made to cost as much as can be before they are refused. Each figure is the best of several rounds in one run. A ratio above
   1 means that the reading call is the faster of the two. Both must give the same number, card and table. The argument is LOTS. Printed are
   tables in Markdown. */
#include "decks.h"
#include "figures.h"
#include "oracle.h"
#include "strigol.h"

#include <stdarg.h>
#include <stdio.h>
#include <stdlib.h>
#include <string.h>

enum { ROUNDS = 40 };

static struct deck deck;
static int numbered;

/* Building a deck. A statement longer than a card goes on over joined cards. */

static void put(const char *label, const char *form, ...)
{
    char text[1024];
    va_list values;
    va_start(values, form);
    int n = vsnprintf(text, sizeof text, form, values);
    va_end(values);
    put_statement(&deck, label, text, (size_t)n, numbered);
}

/* Comments up to the last byte but so many. */
static void fill(size_t room)
{
    pad_to(&deck, STRIGOL_DECK_MOST - room);
}

static void begin(void)
{
    start_deck(&deck, "");
    numbered = 0;
    put("", "PROGRAM FULL");
}

/* The statements of a full deck: 31 strings, 32 numbers, 30 labels, 16 routines, 244 steps of all kinds. */
static void full_statements(int recursive)
{
    char label[9], target[9];
    begin();
    numbered = 1;
    put("", "NUMBER N0,N1,N2,N3,N4,N5,N6,N7,N8,N9,N10,N11,N12,N13,N14,N15,N16,N17,N18,N19,N20,N21,N22,N23,N24,N25,N26,N27,N28,N29,N30,N31");
    for (int i = 0; i < 30; i++) {
        snprintf(label, sizeof label, "LAB%d", i);
        snprintf(target, sizeof target, "LAB%d", (i * 7 + 3) % 30);
        put(label, "READ(60) STR%d$N%d / %s , %s", i % 15, i % 32, target, label);
        put("", "SCAN STR%d [ (FIL%d) , \"LOT%02d\" , (FIX%d$4) , STR%d$N%d ] = FIL%d , \"=\" , STRING(-6,N%d) / %s , LAB%d", i % 15, i % 8,
            i, i % 8, (i + 1) % 15, i % 32, i % 8, i % 32, target, (i + 5) % 30);
        put("", "N%d = -( N%d + LENGTH( STR%d ) * 3 ) / ( 1 + NUMBER( STR%d$5 ) ) - %d", i, (i + 1) % 32, i % 15, (i + 2) % 15, i * 1000);
        put("", "IF ( NUMBER( STR%d$N%d ) <= LENGTH( STR%d ) ) / %s , LAB%d", i % 15, i % 32, (i + 3) % 15, target, (i + 11) % 30);
        put("", "PRINT STR%d , \" IN DECK ORDER AND BY NAME \" , STR%d$7 , STRING(N%d)", i % 15, (i + 4) % 15, i % 32);
        put("", "BACKSCAN STR%d$N%d [ \" \" , (FIL%d) ] = FIL%d / %s", i % 15, i % 32, i % 8, i % 8, target);
    }
    for (int i = 0; i < 16; i++) {
        put("", "ROUTINE ROUT%d", i);
        if (i < 15 || recursive) put("", "EXECUTE ROUT%d", (i + 1) % 16);
        put("", "ENDROUTINE");
    }
    for (int i = 0; i < 16; i++) put("", "EXECUTE ROUT%d", i);
}

static void full_deck(void)
{
    full_statements(0);
    fill(81);
    put("", "END");
}

static void full_recursive(void)
{
    full_statements(1);
    fill(81);
    put("", "END");
}

static void full_broken(void)
{
    full_statements(0);
    fill(81);
    put("", "PRINT STR1,,STR2");
}

static void comments(void)
{
    begin();
    fill(13);
    put("", "END");
}

static void lines(void)
{
    begin();
    while (deck.length < STRIGOL_DECK_MOST) put_byte(&deck, 10);
}
static void short_joins(void)
{
    begin();
    while (STRIGOL_DECK_MOST - deck.length > 40)
        for (const char *card = "        +A\n"; *card != 0; card++) put_byte(&deck, (uint8_t)*card);
    put("", "B");
}
static void routines(void)
{
    begin();
    for (int i = 0; i < 250; i++) put("", "EXECUTE R%d", i % 16);
    fill(13);
    put("", "END");
}

static void undefined_labels(void)
{
    begin();
    for (int i = 0; i < 250; i++) put("", "IF ( LENGTH(STR) <> %d ) / Y%s , Z%s", i, made_name(i), made_name(i));
    fill(13);
    put("", "END");
}

/* Decks that are made here; those that one statement fills are timed between them. */
struct made { const char *name; void (*make)(void); };
static const struct made full_decks[] = {
    {"a full deck, accepted", full_deck},
    {"comments up to the last byte, accepted", comments},
    {"the full deck with a recursion", full_recursive},
    {"the full deck, its last statement broken", full_broken},
};
static const struct made other_decks[] = {
    {"empty lines up to the last byte", lines},
    {"thousands of joined cards of one byte", short_joins},
    {"250 EXECUTEs of undefined routines", routines},
    {"250 IFs to 500 undefined labels", undefined_labels},
};

/* A reader, what it leaves, its best round so far in microseconds a call, and how many calls a round has: as many as take some milliseconds. */
struct timed {
    uint32_t (*read)(const uint8_t *, size_t, uint8_t *, size_t, uint32_t *);
    uint32_t number, card;
    uint8_t table[STRIGOL_TABLE_SIZE];
    double best;
    int calls;
};

static void time_round(struct timed *r)
{
    double t;
    BEST_NS(t, 1, r->calls, r->number = r->read(deck.bytes, deck.length, r->table, STRIGOL_TABLE_SIZE, &r->card));
    t /= 1e3;
    if (t < r->best) r->best = t;
    r->calls = t > 2000 ? 1 : (int)(2000 / t) + 1;
}

/* Both read the deck, a round each in turn. */
static void time_both(struct timed *call, struct timed *plain)
{
    call->best = plain->best = 1e18;
    call->calls = plain->calls = 1;
    for (int round = 0; round < ROUNDS; round++) {
        time_round(call);
        time_round(plain);
    }
}

/* What reading a deck took. */
struct reading { const char *what; double call, plain; };

static double times(struct reading r)
{
    return r.call / r.plain;
}

static void show_demand(const char *which, struct reading r)
{
    printf("| %s%s | %.2f | %s |\n", which, r.what, times(r), met(times(r) <= 2));
}

/* The full deck's reading, and of refused ones those two that take longest and the one that is furthest behind. */
static struct reading full = {"", 0, 1}, costliest = {"", 0, 1}, next = {"", 0, 1}, furthest = {"", 0, 1};

static void time_deck(const char *what)
{
    static struct timed call = {.read = strigol_read}, plain = {.read = oracle_read_call};
    struct reading r;
    time_both(&call, &plain);
    r = (struct reading){what, call.best, plain.best};
    if (call.number != plain.number || call.card != plain.card || memcmp(call.table, plain.table, sizeof call.table) != 0) {
        fprintf(stderr, "%s: the two disagree: %u %u, %u %u\n", what, call.number, call.card, plain.number, plain.card);
        exit(1);
    }
    printf("| %s | %s | %u | %s | %s | %.2f |\n", what, whole(deck.length), call.number, figure(r.call), figure(r.plain), r.plain / r.call);
    if (what == full_decks[0].name) full = r;
    if (call.number == 0) return;
    if (times(r) > times(furthest)) furthest = r;
    if (r.call > costliest.call) {
        next = costliest;
        costliest = r;
    } else if (r.call > next.call) {
        next = r;
    }
}

static void time_made(const struct made *decks, size_t count)
{
    for (size_t i = 0; i < count; i++) {
        decks[i].make();
        time_deck(decks[i].name);
    }
}

int main(int argc, char **argv)
{
    if (argc != 2) {
        fprintf(stderr, "usage: read_bench LOTS\n");
        return 2;
    }
    printf("| deck | bytes | number | call, us | plain reader, us | ratio |\n|---|---|---|---|---|---|\n");
    deck.length = load(argv[1], deck.bytes, STRIGOL_DECK_MOST);
    time_deck("LOTS");
    time_made(full_decks, sizeof full_decks / sizeof full_decks[0]);
    for (int i = 0; i < COSTLY_DECKS && long_deck(i, &deck); i++) time_deck(deck.name);
    time_made(other_decks, sizeof other_decks / sizeof other_decks[0]);
    printf("\n| demanded: at most 2 times the plain reader's time | times | |\n|---|---|---|\n");
    show_demand("", full);
    show_demand("the refused deck that takes longest: ", costliest);
    show_demand("the one after it: ", next);
    show_demand("the refused deck that is furthest behind: ", furthest);
    return 0;
}
