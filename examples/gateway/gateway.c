/* A worked example of a gateway in C over the proved library. It reads a deck, runs the records of standard input through it, writes the
   deck's own records to standard output, and says on standard error how it went:

       gateway DECK [STEPS] <RECORDS

   The outcome comes with document 01's words for its number, and with the card's line under it. Notes are warned of: the run is then made
   again step by step, to say on which cards they came. Exit status: 0 finished, 1 refused, stopped or spent, 2 nothing was run. */
#include "strigol.h"

#include <errno.h>
#include <inttypes.h>
#include <stdio.h>
#include <stdlib.h>
#include <string.h>

enum { LENT_OUTPUT = 1 << 20, USUAL_STEPS = 1000000, MOST_WARNINGS = 5 };

/* Bytes of a file. */
struct bytes { uint8_t *at; size_t length; };

/* One run: what the calls write. One table serves any number of these. */
struct run {
    uint8_t store[STRIGOL_STORE_SIZE];
    uint64_t state[STRIGOL_STATE_SIZE];
    uint8_t output[LENT_OUTPUT];
};

static uint8_t table[STRIGOL_TABLE_SIZE];

static void give_up(const char *what)
{
    fprintf(stderr, "gateway: %s: %s\n", what, strerror(errno));
    exit(2);
}

/* The whole of a file. The buffer is never NULL, as the calls ask for. */
static struct bytes whole(FILE *file, const char *name)
{
    struct bytes all = {NULL, 0};
    size_t room = 0, n;
    do {
        if (all.length == room) {
            uint8_t *more = realloc(all.at, room = 2 * room + 4096);
            if (more == NULL) give_up(name);
            all.at = more;
        }
        n = fread(all.at + all.length, 1, room - all.length, file);
        all.length += n;
    } while (n > 0);
    if (ferror(file)) give_up(name);
    return all;
}

static struct bytes file_named(const char *name)
{
    struct bytes all;
    FILE *file = fopen(name, "rb");
    if (file == NULL) give_up(name);
    all = whole(file, name);
    fclose(file);
    return all;
}

/* Shows a card: the line of the deck with this number, from 1. Bytes that are no text are shown as '?'. */
static void show_card(struct bytes deck, uint32_t card)
{
    size_t from = 0;
    uint32_t line = 1;
    if (card == 0) return;
    for (; line < card && from < deck.length; from++)
        if (deck.at[from] == '\n') line++;
    fprintf(stderr, "  card %" PRIu32 ": ", card);
    for (; from < deck.length && deck.at[from] != '\n'; from++)
        fputc(deck.at[from] >= 32 && deck.at[from] < 127 ? deck.at[from] : '?', stderr);
    fputc('\n', stderr);
}

/* Warns of notes: makes the steps of the run again, one by one, and shows the card of each that has a note. */
static void warn_of_notes(struct bytes deck, struct bytes input, struct run *r, uint64_t steps, uint64_t notes)
{
    uint32_t answer[STRIGOL_ANSWER_SIZE];
    uint64_t shown = 0, done;
    fprintf(stderr, "gateway: warning: %" PRIu64 " %s\n", notes, notes == 1 ? "note" : "notes");
    strigol_start(r->store, sizeof r->store, r->state);
    for (done = 0; done < steps && shown < MOST_WARNINGS; done++) {
        uint32_t card = strigol_card_of(table, r->state[STRIGOL_NEXT]);
        uint32_t number = strigol_step(table, sizeof table, r->store, sizeof r->store, r->state, input.at, input.length, r->output,
                                       sizeof r->output, answer);
        if (number != 0) return;
        if (answer[STRIGOL_NOTES] == 0) continue;
        show_card(deck, card);
        shown++;
    }
}

/* Says how the run went, and answers whether it finished. */
static int told(struct bytes deck, const struct run *r, const uint64_t result[STRIGOL_RESULT_SIZE])
{
    uint32_t number = (uint32_t)result[STRIGOL_BY];
    switch (result[STRIGOL_OUTCOME]) {
    case STRIGOL_FINISHED: fprintf(stderr, "gateway: finished after %" PRIu64 " steps\n", result[STRIGOL_DONE]); return 1;
    case STRIGOL_STOPPED:
        fprintf(stderr, "gateway: stopped by %" PRIu32 " at step %" PRIu64 ": %s\n", number, result[STRIGOL_DONE], strigol_words(number));
        break;
    case STRIGOL_SPENT: fprintf(stderr, "gateway: all %" PRIu64 " steps are spent; next comes\n", result[STRIGOL_DONE]); break;
    default: fprintf(stderr, "gateway: a step was refused by %" PRIu32 ": %s\n", number, strigol_words(number)); break;
    }
    show_card(deck, strigol_card_of(table, r->state[STRIGOL_NEXT]));
    return 0;
}

static int carry_out(struct bytes deck, struct bytes input, struct run *r, uint32_t steps)
{
    uint64_t result[STRIGOL_RESULT_SIZE];
    int finished;
    strigol_start(r->store, sizeof r->store, r->state);
    strigol_run(table, sizeof table, r->store, sizeof r->store, r->state, input.at, input.length, r->output, sizeof r->output, steps, result);
    fwrite(r->output, 1, (size_t)r->state[STRIGOL_PUT], stdout);
    if (fflush(stdout) != 0) give_up("standard output");
    finished = told(deck, r, result);
    if (result[STRIGOL_NOTED] > 0) warn_of_notes(deck, input, r, result[STRIGOL_DONE], result[STRIGOL_NOTED]);
    return finished;
}

/* The count of steps in an argument; 0 for what is none. */
static uint32_t steps_in(const char *argument)
{
    char *end;
    unsigned long long steps = strtoull(argument, &end, 10);
    return *end == 0 && argument[0] != '-' && steps <= UINT32_MAX ? (uint32_t)steps : 0;
}

int main(int argc, char **argv)
{
    uint32_t steps = argc == 3 ? steps_in(argv[2]) : USUAL_STEPS;
    struct bytes deck, input;
    struct run *r;
    uint32_t number, card;
    int finished = 0;
    if (argc < 2 || argc > 3 || steps == 0) {
        fprintf(stderr, "usage: gateway DECK [STEPS] <RECORDS\n");
        return 2;
    }
    deck = file_named(argv[1]);
    number = strigol_read(deck.at, deck.length, table, sizeof table, &card);
    if (number != 0) {
        fprintf(stderr, "gateway: the deck is refused by %" PRIu32 ": %s\n", number, strigol_words(number));
        show_card(deck, card);
    } else {
        input = whole(stdin, "standard input");
        r = malloc(sizeof *r);
        if (r == NULL) give_up("a run");
        finished = carry_out(deck, input, r, steps);
        free(r);
        free(input.at);
    }
    free(deck.at);
    return finished ? 0 : 1;
}
