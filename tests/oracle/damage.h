/* Damage to what is lent to the step: tables, stores and states near sound ones. Random scans for the scan call. */
#ifndef DAMAGE_H
#define DAMAGE_H

#include "decks.h"
#include "oracle.h"

/* Changes a table in a byte or a few; it may stay sound. One whose counts are too large stays. */
void damage_table(struct draws *d, uint8_t table[TABLE_SIZE]);

/* Changes the length or a byte of one cell. */
void damage_store(struct draws *d, uint8_t store[STORE_SIZE]);

/* Changes a number of the state, mostly to one at the edge of its range. */
void damage_state(struct draws *d, uint64_t state[STATE_SIZE], uint64_t steps, uint64_t input_len, uint64_t output_len);

/* A scan as it is lent to the scan call: mostly in range, sometimes with a row at the edge of its range or past it, sometimes too long. */
enum { MOST_SCAN_ROWS = 23, SCAN_VALUES = 2048, SCAN_REFERENCE = 1100 };
struct scan {
    uint8_t reference[SCAN_REFERENCE], values[SCAN_VALUES], rows[MOST_SCAN_ROWS * SCAN_ROW];
    size_t reference_len, values_len, rows_len;
};
void random_scan(struct draws *d, struct scan *s);

/* Any bytes. */
void garbage(struct draws *d, void *at, size_t bytes);

#endif
