/* Damage to what is lent to the step, and random scans. Places that hold something are met more often than those that are zero. */
#include "damage.h"

#include <string.h>

enum { LONG_REFERENCE = 64, PAST_KINDS = 128 };

/* The regions of a table, by what they count. */
static const struct { uint32_t at, row, most; } regions[COUNTS] = {
    [STEP_COUNT] = {STEPS_AT, ROW_SIZE, MOST_STEPS},
    [ELEMENT_COUNT] = {ELEMENTS_AT, CELL, MOST_ELEMENTS},
    [ITEM_COUNT] = {ITEMS_AT, CELL, MOST_ITEMS},
    [LITERAL_COUNT] = {LITERALS_AT, 1, MOST_LITERALS},
};

static uint32_t used(const uint8_t *table, enum count region)
{
    return (uint32_t)count_in(table, region);
}

/* A byte of the header, or of the rows in use of one region or just behind them. */
static uint32_t a_place(struct draws *d, const uint8_t *table)
{
    static const enum count likely[] = {STEP_COUNT, STEP_COUNT, STEP_COUNT, ELEMENT_COUNT, ELEMENT_COUNT, ITEM_COUNT, LITERAL_COUNT};
    uint32_t which = draw(d, 10);
    enum count region;
    if (which == 0) return draw(d, STEPS_AT);
    if (which == 1) return draw(d, TABLE_SIZE);
    if (which == 9) return COUNTS_AT + draw(d, COUNTS_END - COUNTS_AT);
    region = likely[which - 2];
    return regions[region].at + draw(d, (used(table, region) + 1) * regions[region].row);
}

static void change_byte(struct draws *d, uint8_t *byte)
{
    switch (draw(d, 7)) {
    case 0: *byte = (uint8_t)draw(d, 256); break;
    case 1: *byte = (uint8_t)(*byte + 1); break;
    case 2: *byte = (uint8_t)(*byte - 1); break;
    case 3: *byte = 0; break;
    case 4: *byte = (uint8_t)draw(d, 24); break;
    case 5: *byte = (uint8_t)draw(d, PAST_KINDS); break;
    default: *byte = (uint8_t)(*byte ^ (1u << draw(d, 8))); break;
    }
}

/* Turns one kind of a pair into the other: rows of the same cells, cells with a place and value of the same form, which often leaves the table sound
   and lets its program do what no deck can say; or a constant and a number, where the value falls out of range. */
static void change_kind(struct draws *d, uint8_t *table)
{
    static const uint8_t rows[][2] = {{GOES, EXECUTES}, {FINISHES, RETURNS}, {IF_NUMERIC, READS}, {IF_NULL, IF_NUMERIC}, {SCANS, REPLACES}};
    static const uint8_t cells[][2] = {{STRING_CELL, FREE_CELL}, {CONSTANT_PART, CONSTANT_FIXED}, {VARIABLE_PART, VARIABLE_FIXED},
                                       {LENGTH_CELL, VALUE_CELL}, {LENGTH_CELL, NUMBER_CELL}, {CONSTANT_CELL, NUMBER_CELL},
                                       {CONSTANT_VALUE, VARIABLE_VALUE}, {CONSTANT_TEXT, VARIABLE_TEXT}, {ADD_CELL, SUBTRACT_CELL},
                                       {SUBTRACT_CELL, MULTIPLY_CELL}, {MULTIPLY_CELL, DIVIDE_CELL}, {DIVIDE_CELL, ADD_CELL},
                                       {PLUS_CELL, MINUS_CELL}};
    enum { ROWS = sizeof rows / sizeof rows[0], CELLS = sizeof cells / sizeof cells[0] };
    static const enum count with_kinds[] = {STEP_COUNT, ELEMENT_COUNT, ITEM_COUNT};
    enum count region = with_kinds[draw(d, 3)];
    uint32_t count = used(table, region);
    uint8_t *kind;
    if (count == 0) return;
    kind = table + regions[region].at + draw(d, count) * regions[region].row;
    for (uint32_t tries = 0; tries < 40; tries++) {
        const uint8_t *pair = region == STEP_COUNT ? rows[draw(d, ROWS)] : cells[draw(d, CELLS)];
        if (*kind == pair[0] || *kind == pair[1]) {
            *kind = *kind == pair[0] ? pair[1] : pair[0];
            return;
        }
    }
}

/* Lets a row lead to another step. */
static void change_branch(struct draws *d, uint8_t *table)
{
    uint32_t steps = used(table, STEP_COUNT);
    uint8_t *row = table + STEPS_AT + draw(d, steps) * ROW_SIZE;
    uint32_t to = draw(d, steps + 1);
    put_number(row + (draw(d, 2) ? SUCCESS_AT : FAILURE_AT), 2, to);
}

/* Whether what is counted lies in the table. */
static int counts_hold(const uint8_t *table)
{
    static const enum count counted[] = {STEP_COUNT, ELEMENT_COUNT, ITEM_COUNT, LITERAL_COUNT};
    for (int i = 0; i < 4; i++)
        if (used(table, counted[i]) > regions[counted[i]].most) return 0;
    return 1;
}

void damage_table(struct draws *d, uint8_t table[TABLE_SIZE])
{
    for (uint32_t times = 1 + draw(d, 2); times > 0 && counts_hold(table); times--) {
        uint32_t which = draw(d, 8);
        if (which < 3) change_kind(d, table);
        else if (which == 3 && used(table, STEP_COUNT) > 0) change_branch(d, table);
        else change_byte(d, table + a_place(d, table));
    }
}

void damage_store(struct draws *d, uint8_t store[STORE_SIZE])
{
    static const uint32_t lengths[] = {0, 1, 3, 255, 256, 1023, 1024, 1025, 1026, 65535};
    uint8_t *cell = store + draw(d, MOST_STRINGS) * CELL_SIZE;
    uint32_t length = lengths[draw(d, 10)], was = (uint32_t)get_number(cell, 2);
    switch (draw(d, 4)) {
    case 0: put_number(cell, 2, length); break;
    case 1: cell[CELL_SIZE - 1] = (uint8_t)(1 + draw(d, 255)); break;
    case 2: cell[2 + (was < MOST_STRING ? was : MOST_STRING - 1)] = (uint8_t)draw(d, 256); break;
    default: cell[draw(d, CELL_SIZE)] = (uint8_t)draw(d, 256); break;
    }
}

static uint64_t near(struct draws *d, uint64_t edge)
{
    switch (draw(d, 6)) {
    case 0: return edge + 1;
    case 1: return edge - 1;
    case 2: return UINT64_MAX;
    case 3: return (uint64_t)draw(d, 100) << 32;
    default: return edge;
    }
}

void damage_state(struct draws *d, uint64_t state[STATE_SIZE], uint64_t steps, uint64_t input_len, uint64_t output_len)
{
    switch (draw(d, 8)) {
    case 0: state[STATUS_AT] = near(d, draw(d, 3)); break;
    case 1: state[NEXT_AT] = near(d, draw(d, 2) ? steps : draw(d, (uint32_t)steps)); break;
    case 2: state[HELD_AT] = near(d, MOST_HELD); break;
    case 3: state[TAKEN_AT] = near(d, input_len); break;
    case 4: state[PUT_AT] = near(d, output_len); break;
    case 5:
        state[HELD_AT] = 1 + draw(d, MOST_HELD);
        for (int i = 0; i < MOST_HELD; i++) state[RETURNS_AT + i] = draw(d, (uint32_t)steps);
        state[RETURNS_AT + draw(d, MOST_HELD)] = near(d, steps);
        break;
    case 6: state[NUMBERS_AT + draw(d, MOST_NUMBERS)] = near(d, (uint64_t)(draw(d, 2) ? BIAS + LIMIT : BIAS - LIMIT)); break;
    default: state[draw(d, 2) ? draw(d, STATE_SIZE) : NUMBERS_END + draw(d, STATE_SIZE - NUMBERS_END)] = near(d, draw(d, 2)); break;
    }
}

void garbage(struct draws *d, void *at, size_t bytes)
{
    uint8_t *to = at;
    for (size_t i = 0; i < bytes; i++) to[i] = (uint8_t)draw(d, 256);
}

/* Scans */

static void put_row(uint8_t *row, enum scan_kind kind, uint32_t first, uint32_t second)
{
    row[0] = (uint8_t)kind;
    put_number(row + SCAN_FIRST_AT, 4, first);
    put_number(row + SCAN_SECOND_AT, 4, second);
}

/* Mostly short ones of few letters; of the long ones every other has one letter up to its last 40 bytes. */
static void make_reference(struct draws *d, struct scan *s)
{
    uint32_t letters = 1 + draw(d, 3), which = draw(d, 40);
    s->reference_len = which == 0 ? MOST_STRING + draw(d, 3) : which < 4 ? draw(d, MOST_STRING + 1) : draw(d, 30);
    s->values_len = draw(d, 20) == 0 ? draw(d, 3) : draw(d, 20) == 0 ? draw(d, SCAN_VALUES + 1) : 100 + draw(d, 157);
    for (size_t i = 0; i < s->reference_len; i++) s->reference[i] = (uint8_t)('A' + draw(d, letters));
    for (size_t i = 0; i < s->values_len; i++) s->values[i] = (uint8_t)('A' + draw(d, letters));
    if (s->reference_len > LONG_REFERENCE && draw(d, 2)) memset(s->reference, 'A', s->reference_len - draw(d, 40));
}

/* A row that mostly is in range; what doesn't count is any byte. */
static void make_row(struct draws *d, struct scan *s, uint8_t *row)
{
    uint32_t kind = draw(d, 5), room = (uint32_t)s->values_len, from = draw(d, room + 1), length = draw(d, 3);
    garbage(d, row, SCAN_ROW);
    if (draw(d, s->reference_len > LONG_REFERENCE ? 2 : 25) == 0) length = draw(d, 40);
    row[0] = (uint8_t)(kind < 2 ? SCAN_STRING : kind < 3 ? SCAN_FIXED : SCAN_FREE);
    if (row[0] == SCAN_STRING) put_row(row, SCAN_STRING, from, from + length <= room ? from + length : room);
    if (row[0] == SCAN_FIXED) put_number(row + SCAN_FIRST_AT, 4, length);
}

/* Puts a row at the edge of its range, or past it. */
static void spoil_row(struct draws *d, struct scan *s, uint8_t *row)
{
    static const uint32_t lengths[] = {0, 1024, 1025, 0x7fffffffu, 0x80000000u, 0xffffffffu};
    uint32_t end = (uint32_t)s->values_len;
    switch (draw(d, 6)) {
    case 0: row[0] = (uint8_t)draw(d, 256); break;
    case 1: row[0] = SCAN_FIXED; put_number(row + SCAN_FIRST_AT, 4, lengths[draw(d, 6)]); break;
    case 2: put_row(row, SCAN_STRING, 2, 1); break;
    case 3: put_row(row, SCAN_STRING, 0, end + draw(d, 2)); break;
    case 4: put_row(row, SCAN_STRING, end, end); break;
    default: garbage(d, row, SCAN_ROW); break;
    }
}

void random_scan(struct draws *d, struct scan *s)
{
    uint32_t which = draw(d, 30), rows = which == 0 ? 20 + draw(d, 3) : which < 6 ? draw(d, 21) : draw(d, 7);
    make_reference(d, s);
    for (uint32_t i = 0; i < rows; i++) make_row(d, s, s->rows + i * SCAN_ROW);
    s->rows_len = rows * SCAN_ROW;
    if (rows > 0 && draw(d, 12) == 0) spoil_row(d, s, s->rows + draw(d, rows) * SCAN_ROW);
    if (rows > 0 && draw(d, 40) == 0) s->rows_len -= draw(d, SCAN_ROW);
}
