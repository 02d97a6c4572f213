/* What the benchmarks share: the time, decks read from files, and figures as they are printed. */
#ifndef FIGURES_H
#define FIGURES_H

#include "strigol.h"

#include <stdint.h>
#include <stdio.h>
#include <stdlib.h>
#include <time.h>

/* A clock's time in nanoseconds. CLOCK_PROCESS_CPUTIME_ID has the processor time that this process used; it stands still while others run. */
static inline double now(clockid_t clock)
{
    struct timespec t;
    clock_gettime(clock, &t);
    return (double)t.tv_sec * 1e9 + (double)t.tv_nsec;
}

/* Sets `best` to the nanoseconds by a clock that what is called takes once: the best of so many rounds of so many calls. */
#define BEST_BY(clock, best, rounds, calls, ...)                                                                                               \
    do {                                                                                                                                       \
        best = 1e18;                                                                                                                           \
        for (int round_ = 0; round_ < (rounds); round_++) {                                                                                    \
            double from_ = now(clock), time_;                                                                                                  \
            for (int call_ = 0; call_ < (calls); call_++) { __VA_ARGS__; }                                                                     \
            time_ = (now(clock) - from_) / (calls);                                                                                            \
            if (time_ < best) best = time_;                                                                                                    \
        }                                                                                                                                      \
    } while (0)

/* The same in processor time. */
#define BEST_NS(best, rounds, calls, ...) BEST_BY(CLOCK_PROCESS_CPUTIME_ID, best, rounds, calls, __VA_ARGS__)

static inline void keep_less(double *best, double time)
{
    if (time < *best) *best = time;
}

static inline void give_up(const char *what)
{
    fprintf(stderr, "bench: %s\n", what);
    exit(1);
}

/* The bytes of a file, as many as fit; and the table of the deck in one. */
static inline size_t load(const char *name, uint8_t *to, size_t most)
{
    FILE *file = fopen(name, "rb");
    size_t n;
    if (file == NULL) give_up(name);
    n = fread(to, 1, most, file);
    fclose(file);
    return n;
}

static inline void load_table(const char *name, uint8_t table[STRIGOL_TABLE_SIZE])
{
    static uint8_t deck[STRIGOL_DECK_MOST + 1];
    uint32_t card;
    if (strigol_read(deck, load(name, deck, sizeof deck), table, STRIGOL_TABLE_SIZE, &card) != 0) give_up(name);
}

/* Room for a text that lasts for eight calls, so that one printf may have several. */
enum { TEXT_ROOM = 32 };
static inline char *next_text(void)
{
    static char texts[8][TEXT_ROOM];
    static unsigned next;
    return texts[next++ % 8];
}

/* A whole number with a comma between thousands. */
static inline const char *whole(uint64_t n)
{
    char *at = next_text() + TEXT_ROOM - 1;
    int digits = 0;
    *at = 0;
    do {
        if (digits > 0 && digits % 3 == 0) *--at = ',';
        *--at = (char)('0' + n % 10);
        digits++;
    } while ((n /= 10) > 0);
    return at;
}

/* A figure to three digits. */
static inline const char *figure(double x)
{
    uint64_t unit = 1;
    if (x < 100) {
        char *text = next_text();
        snprintf(text, TEXT_ROOM, "%.*f", x < 10 ? 2 : 1, x);
        return text;
    }
    while (x >= 1000 * (double)unit) unit *= 10;
    return whole((uint64_t)(x / (double)unit + 0.5) * unit);
}

/* Whether a demand is met. */
static inline const char *met(int yes)
{
    return yes ? "met" : "not met";
}

/* One pass over bytes, which are added up: one at a time, and with vector instructions. */
#define PASS                                                                                                                                   \
    uint32_t sum = 0;                                                                                                                          \
    for (size_t i = 0; i < n; i++) sum += bytes[i];                                                                                            \
    return sum;
__attribute__((optimize("no-tree-vectorize"), unused)) static uint32_t pass_over(const uint8_t *bytes, size_t n) { PASS }
__attribute__((optimize("O3"), unused)) static uint32_t vector_pass_over(const uint8_t *bytes, size_t n) { PASS }
#undef PASS

/* A table of calls beside passes over so many bytes: its head, and a call's row with all times in the head's unit. */
static inline void show_passes_head(const char *what, const char *unit, size_t bytes, int most)
{
    printf("| %s | %s | one pass over %s bytes, %s | in passes; demanded: at most %d | | a pass in vectors, %s | in passes |\n", what, unit,
           whole(bytes), unit, most, unit);
    printf("|---|---|---|---|---|---|---|\n");
}

static inline void show_passes(const char *what, double ours, double pass, double vectors, int most)
{
    printf("| %s | %s | %s | %.2f | %s | %s | %.2f |\n", what, figure(ours), figure(pass), ours / pass, met(ours <= most * pass), figure(vectors),
           ours / vectors);
}

#endif
