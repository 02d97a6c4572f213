/* The part of the store that replaces a stretch of a string, beside a loop that copies a cell's 1,026 bytes one by one. The part is called alone,
   through the library of the crate replace_bench: so many replacements a call, one string after the other, in a store of 32 strings of 1,000 bytes,
   which is put back before each call. Such a call looks once whether the store is good; so the time of a call that replaces nothing is taken off.
   First each call's store is compared with what a plain loop makes of it. Printed are tables in Markdown. */
#include "figures.h"
#include "strigol.h"

#include <string.h>

/* Replaces the n bytes of a string from a place on, or its last n where fewer stand there, so many times; a store that isn't good stays. */
void strigol_bench_replace(uint8_t *store, size_t store_len, size_t from, size_t n, const uint8_t *v, size_t v_len, uint32_t times);

enum {
    ROUNDS = 2000, LENGTH = 1000, GROWN = STRIGOL_STRING_MOST - LENGTH, TIMES = GROWN * STRIGOL_STRINGS, COPIES = 100, BEHIND = 64,
    LAST = STRIGOL_STRING_MOST /* a place behind any string's last byte */
};

static const struct row { const char *name; size_t from, n, v_len; int demanded; } rows[] = {
    {"a byte by one, at the start", 0, 1, 1, 1},
    {"a byte by one, in the middle", LENGTH / 2, 1, 1, 1},
    {"a byte by one, at the end", LAST, 1, 1, 1},
    {"the last byte by two", LAST, 1, 2, 1},
    {"the first byte by two", 0, 1, 2, 0},
    {"the first two bytes by one", 0, 2, 1, 0},
    {"the first byte by none", 0, 1, 0, 0},
};
enum { ROWS = sizeof rows / sizeof rows[0] };

/* The store with its strings, with some bytes behind it; what is lent; what must be left. */
static uint8_t fresh[STRIGOL_STORE_SIZE + BEHIND], store[sizeof fresh], right[sizeof fresh], v[] = "=+";

static uint8_t *cell_of(uint8_t *s, uint32_t place)
{
    return s + place * STRIGOL_CELL_SIZE;
}

static size_t length_of(const uint8_t *cell)
{
    return cell[0] + 256u * cell[1];
}

/* Bytes in a row that look like chance, the same in every run, and nothing behind a string. */
static void make_strings(void)
{
    uint32_t state = 1;
    for (size_t i = 0; i < sizeof fresh; i++) fresh[i] = (uint8_t)((state = state * 1664525 + 1013904223) >> 24);
    for (uint32_t place = 0; place < STRIGOL_STRINGS; place++) {
        uint8_t *cell = cell_of(fresh, place);
        cell[0] = LENGTH % 256;
        cell[1] = LENGTH / 256;
        memset(cell + 2 + LENGTH, 0, GROWN);
    }
}

static void replace(uint8_t *s, size_t s_len, const struct row *r, uint32_t times)
{
    strigol_bench_replace(s, s_len, r->from, r->n, v, r->v_len, times);
}

/* What so many replacements must leave of s: each string is put together anew. */
static void replace_plainly(uint8_t *s, const struct row *r, uint32_t times)
{
    for (uint32_t i = 0; i < times; i++) {
        uint8_t made[STRIGOL_CELL_SIZE] = {0}, *cell = cell_of(s, i % STRIGOL_STRINGS);
        size_t old = length_of(cell), from = r->from < old - r->n ? r->from : old - r->n, length = 0;
        for (size_t j = 0; j < from; j++) made[2 + length++] = cell[2 + j];
        for (size_t j = 0; j < r->v_len; j++) made[2 + length++] = v[j];
        for (size_t j = from + r->n; j < old; j++) made[2 + length++] = cell[2 + j];
        made[0] = (uint8_t)(length % 256);
        made[1] = (uint8_t)(length / 256);
        memcpy(cell, made, sizeof made);
    }
}

static void check(const struct row *r)
{
    static const uint32_t times[] = {0, 1, STRIGOL_STRINGS + 1, TIMES};
    for (size_t i = 0; i < sizeof times / sizeof times[0]; i++) {
        memcpy(store, fresh, sizeof store);
        memcpy(right, fresh, sizeof right);
        replace(store, sizeof store, r, times[i]);
        replace_plainly(right, r, times[i]);
        if (memcmp(store, right, sizeof store) != 0) give_up(r->name);
    }
    /* a byte behind the last string isn't zero: all stays */
    memcpy(right, fresh, sizeof right);
    right[STRIGOL_STORE_SIZE - 1] = 1;
    memcpy(store, right, sizeof store);
    replace(store, sizeof store, r, TIMES);
    if (memcmp(store, right, sizeof store) != 0) give_up("a store that isn't good is changed");
}

/* The loop, which stays one by one: no vectors, no call of memcpy in its place, no turn that copies several. */
__attribute__((noipa, optimize("no-tree-vectorize", "no-tree-loop-distribute-patterns", "no-unroll-loops"))) static void
copy_one_by_one(uint8_t *to, const uint8_t *from)
{
    for (size_t i = 0; i < STRIGOL_CELL_SIZE; i++) to[i] = from[i];
}

static uint8_t copied[STRIGOL_CELL_SIZE];
static volatile uint32_t sink;

static void copy_next(void)
{
    static uint32_t next;
    copy_one_by_one(copied, cell_of(store, next++ % STRIGOL_STRINGS));
    sink = copied[LENGTH];
}

/* Nanoseconds of a call with so many replacements, in strings of 1,000 bytes. */
static double time_call(const struct row *r, uint32_t times)
{
    double time;
    memcpy(store, fresh, sizeof store);
    BEST_NS(time, 1, 1, replace(store, sizeof store, r, times));
    sink = store[0];
    return time;
}

/* Nanoseconds of one replacement and of the loop over one cell, measured by turns. */
static void time_row(const struct row *r, double *part, double *loop)
{
    double none = 1e18, all = 1e18, time;
    *loop = 1e18;
    for (int i = 0; i < ROUNDS; i++) {
        keep_less(&none, time_call(r, 0));
        keep_less(&all, time_call(r, TIMES));
        BEST_NS(time, 1, COPIES, copy_next());
        keep_less(loop, time);
    }
    *part = (all - none) / TIMES;
}

int main(void)
{
    make_strings();
    for (size_t i = 0; i < ROWS; i++) check(&rows[i]);
    for (int demanded = 1; demanded >= 0; demanded--) {
        printf(demanded ? "| in a string of 1,000 bytes | part, ns | loop, ns | times; demanded: less than 0.5 | |\n|---|---|---|---|---|\n"
                        : "\n| for the record, with bytes behind that move | part, ns | loop, ns | times |\n|---|---|---|---|\n");
        for (size_t i = 0; i < ROWS; i++) {
            double part, loop;
            if (rows[i].demanded != demanded) continue;
            time_row(&rows[i], &part, &loop);
            printf("| %s | %s | %s | %.3f |", rows[i].name, figure(part), figure(loop), part / loop);
            if (demanded) printf(" %s |", met(2 * part < loop));
            printf("\n");
        }
    }
    return 0;
}
