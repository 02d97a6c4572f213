/* The table of docs/TABLE.md: a program to bytes, the rules that bytes keep, and bytes to a program. */
#include "oracle.h"

#include <string.h>

enum { LEFT = 8, RIGHT = 16 }; /* the cells of a row */

/* Where the ranges of kinds begin that a place for a cell takes; each ends where the next one begins. */
enum { OPERATORS = 16, SIGNS = 24, OPERANDS = 32, PARTS = 64, OTHERS = 80, FILLERS = 96, RANGES = 112 };

int is_scan(enum step_kind kind)
{
    return kind == SCANS || kind == REPLACES;
}

int has_part(enum step_kind kind)
{
    return kind == SET_STRING || kind == IF_NULL || kind == IF_NUMERIC || is_scan(kind) || kind == READS;
}

void put_number(uint8_t *at, int bytes, uint64_t n)
{
    for (int i = 0; i < bytes; i++) at[i] = (uint8_t)(n >> (8 * i));
}

uint64_t get_number(const uint8_t *at, int bytes)
{
    uint64_t n = 0;
    for (int i = 0; i < bytes; i++) n |= (uint64_t)at[i] << (8 * i);
    return n;
}

uint64_t count_in(const uint8_t *table, enum count count)
{
    return get_number(table + COUNTS_AT + 2 * count, 2);
}

/* Writing */

static void put_cell(uint8_t *at, int kind, int place, uint64_t value)
{
    put_number(at, 1, (uint64_t)kind);
    put_number(at + 1, 1, (uint64_t)place);
    put_number(at + 2, 6, value);
}

static void put_range(uint8_t *at, int kind, int from, int count, int more)
{
    put_cell(at, kind, 0, 0);
    put_number(at + 2, 2, (uint64_t)from);
    put_number(at + 4, 2, (uint64_t)count);
    put_number(at + 6, 2, (uint64_t)more);
}

/* A cell with a place and a length: its kind depends on whether the length is none, a constant or a number. */
static void put_bound(uint8_t *at, int whole, int constant, int variable, int place, enum bound bound, int32_t n)
{
    if (bound == WHOLE) put_cell(at, whole, place, 0);
    else if (bound == CONSTANT) put_cell(at, constant, place, (uint64_t)(n + BIAS));
    else put_cell(at, variable, place, (uint64_t)n);
}

static void put_part(uint8_t *at, struct part p)
{
    put_bound(at, STRING_CELL, CONSTANT_PART, VARIABLE_PART, p.string, p.bound, p.n);
}

static void put_operand(uint8_t *at, struct operand o)
{
    switch (o.kind) {
    case OPERAND_CONSTANT: put_cell(at, CONSTANT_CELL, 0, (uint64_t)(o.constant + BIAS)); break;
    case OPERAND_NUMBER: put_cell(at, NUMBER_CELL, o.number, 0); break;
    case OPERAND_LENGTH: put_cell(at, LENGTH_CELL, o.part.string, 0); break;
    case OPERAND_VALUE: put_bound(at, VALUE_CELL, CONSTANT_VALUE, VARIABLE_VALUE, o.part.string, o.part.bound, o.part.n); break;
    }
}

static void put_item(uint8_t *at, struct item i)
{
    static const int kinds[] = {NO_CELL, ADD_CELL, SUBTRACT_CELL, MULTIPLY_CELL, DIVIDE_CELL, PLUS_CELL, MINUS_CELL};
    if (i.kind == ITEM_OPERAND) put_operand(at, i.operand);
    else put_cell(at, kinds[i.kind], 0, 0);
}

static void put_element(uint8_t *at, struct element e)
{
    switch (e.kind) {
    case ELEMENT_LITERAL: put_range(at, LITERAL_CELL, e.from, e.length, 0); break;
    case ELEMENT_PART: put_part(at, e.part); break;
    case ELEMENT_TEXT: put_bound(at, NO_CELL, CONSTANT_TEXT, VARIABLE_TEXT, e.number, e.bound, e.n); break;
    case ELEMENT_FREE: case ELEMENT_FIXED:
        put_bound(at, FREE_CELL, CONSTANT_FIXED, VARIABLE_FIXED, e.part.string, e.part.bound, e.part.n);
        break;
    }
}

static int flag_of(const struct step *s)
{
    if (s->kind == IF_COMPARES) return (int)s->comparison;
    if (is_scan(s->kind)) return 1 + s->backwards;
    return 0;
}

static void put_step(uint8_t *row, const struct step *s)
{
    put_number(row, 1, s->kind);
    put_number(row + 1, 1, (uint64_t)flag_of(s));
    put_number(row + CARD_AT, 2, s->card);
    put_number(row + SUCCESS_AT, 2, (uint64_t)s->success);
    put_number(row + FAILURE_AT, 2, (uint64_t)s->failure);
    if (s->kind == SET_NUMBER) put_cell(row + LEFT, NUMBER_CELL, s->number, 0);
    if (has_part(s->kind)) put_part(row + LEFT, s->part);
    if (s->kind == IF_COMPARES) {
        put_operand(row + LEFT, s->left);
        put_operand(row + RIGHT, s->right);
    }
    if (s->kind == SET_NUMBER || s->kind == SET_STRING || is_scan(s->kind) || s->kind == WRITES)
        put_range(row + RIGHT, RANGE_CELL, s->first, s->count, s->more);
}

void oracle_table(const struct oracle_program *p, uint8_t table[TABLE_SIZE])
{
    const int counts[] = {p->steps, p->strings, p->numbers, p->elements, p->items, p->literals};
    memset(table, 0, TABLE_SIZE);
    table[0] = 1;
    for (int i = 0; i < COUNTS; i++) put_number(table + COUNTS_AT + 2 * i, 2, (uint64_t)counts[i]);
    for (int i = 0; i < p->steps; i++) put_step(table + STEPS_AT + i * ROW_SIZE, &p->step[i]);
    for (int i = 0; i < p->elements; i++) put_element(table + ELEMENTS_AT + i * CELL, p->element[i]);
    for (int i = 0; i < p->items; i++) put_item(table + ITEMS_AT + i * CELL, p->item[i]);
    memcpy(table + LITERALS_AT, p->literal, (size_t)p->literals);
}

/* The rules 1 to 13, on the bytes. `seen` counts what the ranges so far cover. */

struct rules {
    const uint8_t *table;
    uint64_t steps, strings, numbers, elements, items, literals;
    uint64_t elements_seen, items_seen, literals_seen;
};

static int all_zero(const uint8_t *at, size_t count)
{
    static const uint8_t zeros[TABLE_SIZE];
    return memcmp(at, zeros, count) == 0;
}

static int kind_of(const uint8_t *cell)
{
    return cell[0];
}

static uint64_t place_of(const uint8_t *cell)
{
    return cell[1];
}

static uint64_t value_of(const uint8_t *cell)
{
    return get_number(cell + 2, 6);
}

/* A biased constant between the two. */
static int constant_in(const uint8_t *cell, int64_t lowest, int64_t highest)
{
    int64_t z = (int64_t)value_of(cell) - BIAS;
    return z >= lowest && z <= highest;
}

/* What place and value a cell of each kind may have (rules 1, 5, 6, 7), but for the ranges. Other numbers are no kinds (rule 3). */
static int cell_holds(const struct rules *k, const uint8_t *cell)
{
    int of_string = place_of(cell) < k->strings, of_number = place_of(cell) < k->numbers, none = place_of(cell) == 0;
    int no_value = value_of(cell) == 0, number_value = value_of(cell) < k->numbers;
    switch (kind_of(cell)) {
    case STRING_CELL: case LENGTH_CELL: case VALUE_CELL: case FREE_CELL: return of_string && no_value;
    case CONSTANT_PART: case CONSTANT_VALUE: case CONSTANT_FIXED: return of_string && constant_in(cell, 0, LIMIT);
    case VARIABLE_PART: case VARIABLE_VALUE: case VARIABLE_FIXED: return of_string && number_value;
    case CONSTANT_CELL: return none && constant_in(cell, -LIMIT, LIMIT);
    case NUMBER_CELL: return of_number && no_value;
    case NO_CELL: case ADD_CELL: case SUBTRACT_CELL: case MULTIPLY_CELL: case DIVIDE_CELL: case PLUS_CELL: case MINUS_CELL:
        return none && no_value;
    case CONSTANT_TEXT: return of_number && constant_in(cell, -LIMIT, LIMIT);
    case VARIABLE_TEXT: return of_number && number_value;
    default: return 0;
    }
}

/* A number from `first` on and under `end`; it need not be a kind. */
static int kind_in(const uint8_t *cell, int first, int end)
{
    return kind_of(cell) >= first && kind_of(cell) < end;
}

static int part_holds(const struct rules *k, const uint8_t *cell)
{
    return kind_in(cell, PARTS, OTHERS) && cell_holds(k, cell);
}

static int operand_holds(const struct rules *k, const uint8_t *cell)
{
    return kind_in(cell, OPERANDS, PARTS) && cell_holds(k, cell);
}

static int is_nothing(const uint8_t *cell)
{
    return all_zero(cell, CELL);
}

/* A range that starts where those before it ended (rule 4). */
static int range_follows(const uint8_t *cell, int kind, uint64_t *seen, uint64_t all)
{
    uint64_t from = get_number(cell + 2, 2), count = get_number(cell + 4, 2), more = get_number(cell + 6, 2);
    if (kind_of(cell) != kind || place_of(cell) != 0 || from != *seen || from + count + more > all) return 0;
    *seen += count + more;
    return 1;
}

static uint64_t range_count(const uint8_t *cell)
{
    return get_number(cell + 4, 2);
}

static uint64_t range_more(const uint8_t *cell)
{
    return get_number(cell + 6, 2);
}

static const uint8_t *element_at(const struct rules *k, uint64_t i)
{
    return k->table + ELEMENTS_AT + i * CELL;
}

/* One element, of a kind under `end` (rules 3, 9, 10). */
static int element_holds(struct rules *k, const uint8_t *cell, int end)
{
    if (kind_of(cell) == LITERAL_CELL)
        return range_follows(cell, LITERAL_CELL, &k->literals_seen, k->literals) && range_count(cell) >= 1 && range_more(cell) == 0;
    return kind_in(cell, PARTS, end) && cell_holds(k, cell);
}

static int elements_hold(struct rules *k, uint64_t from, uint64_t count, int end)
{
    if (count > MOST_ROW) return 0;
    for (uint64_t i = from; i < from + count; i++)
        if (!element_holds(k, element_at(k, i), end)) return 0;
    return 1;
}

/* No filler of a pattern is the string searched, and no string stands at the place of a filler left of it (rule 11). */
static int roles_hold(const struct rules *k, uint64_t from, uint64_t count, uint64_t searched)
{
    for (uint64_t i = from; i < from + count; i++) {
        const uint8_t *filler = element_at(k, i);
        if (!kind_in(filler, FILLERS, RANGES)) continue;
        if (place_of(filler) == searched) return 0;
        for (uint64_t j = i + 1; j < from + count; j++)
            if (kind_in(element_at(k, j), PARTS, OTHERS) && place_of(element_at(k, j)) == place_of(filler)) return 0;
    }
    return 1;
}

/* The items of one expression (rule 12). */
static int items_hold(const struct rules *k, uint64_t from, uint64_t count)
{
    int waiting = 0;
    for (uint64_t i = from; i < from + count; i++) {
        const uint8_t *cell = k->table + ITEMS_AT + i * CELL;
        if (!kind_in(cell, OPERATORS, PARTS) || !cell_holds(k, cell)) return 0;
        if (kind_in(cell, OPERANDS, PARTS)) {
            waiting++;
        } else if (kind_in(cell, OPERATORS, SIGNS)) {
            if (waiting < 2) return 0;
            waiting--;
        } else if (waiting < 1) {
            return 0;
        }
        if (waiting > MOST_WAITING) return 0;
    }
    return waiting == 1;
}

/* A row's elements: an expression with no more behind it. */
static int expression_holds(struct rules *k, const uint8_t *cell)
{
    uint64_t from = k->elements_seen;
    return range_follows(cell, RANGE_CELL, &k->elements_seen, k->elements) && range_more(cell) == 0 &&
           elements_hold(k, from, range_count(cell), FILLERS);
}

static int scan_holds(struct rules *k, const uint8_t *row)
{
    const uint8_t *cell = row + RIGHT;
    uint64_t from = k->elements_seen, count = range_count(cell), more = range_more(cell);
    if (row[1] < 1 || row[1] > 2 || !range_follows(cell, RANGE_CELL, &k->elements_seen, k->elements)) return 0;
    if (row[0] == SCANS && more != 0) return 0;
    return elements_hold(k, from, count, RANGES) && roles_hold(k, from, count, place_of(row + LEFT)) &&
           elements_hold(k, from + count, more, FILLERS);
}

static int number_holds(struct rules *k, const uint8_t *cell)
{
    uint64_t from = k->items_seen;
    return range_follows(cell, RANGE_CELL, &k->items_seen, k->items) && range_more(cell) == 0 && items_hold(k, from, range_count(cell));
}

static int row_holds(struct rules *k, const uint8_t *row)
{
    const uint8_t *left = row + LEFT, *right = row + RIGHT;
    int no_flag = row[1] == 0;
    uint64_t success = get_number(row + SUCCESS_AT, 2), failure = get_number(row + FAILURE_AT, 2);
    int no_success = success == 0, no_failure = failure == 0;
    int leads = success < k->steps, branches = leads && failure < k->steps;
    int no_branch = no_success && no_failure;
    switch (row[0]) {
    case SET_NUMBER:
        return no_flag && no_branch && kind_of(left) == NUMBER_CELL && cell_holds(k, left) && number_holds(k, right);
    case SET_STRING: return no_flag && no_branch && part_holds(k, left) && expression_holds(k, right);
    case GOES: case EXECUTES: return no_flag && leads && no_failure && is_nothing(left) && is_nothing(right);
    case FINISHES: case RETURNS: return no_flag && no_branch && is_nothing(left) && is_nothing(right);
    case IF_NULL: return no_flag && branches && kind_of(left) == STRING_CELL && cell_holds(k, left) && is_nothing(right);
    case IF_NUMERIC: case READS: return no_flag && branches && part_holds(k, left) && is_nothing(right);
    case IF_COMPARES: return row[1] >= 1 && row[1] <= 6 && branches && operand_holds(k, left) && operand_holds(k, right);
    case SCANS: case REPLACES: return branches && part_holds(k, left) && scan_holds(k, row);
    case WRITES: return no_flag && no_branch && is_nothing(left) && expression_holds(k, right);
    default: return 0;
    }
}

static int rest_is_zero(const struct rules *k)
{
    const uint8_t *t = k->table;
    return all_zero(t + STEPS_AT + k->steps * ROW_SIZE, ELEMENTS_AT - STEPS_AT - k->steps * ROW_SIZE) &&
           all_zero(t + ELEMENTS_AT + k->elements * CELL, ITEMS_AT - ELEMENTS_AT - k->elements * CELL) &&
           all_zero(t + ITEMS_AT + k->items * CELL, LITERALS_AT - ITEMS_AT - k->items * CELL) &&
           all_zero(t + LITERALS_AT + k->literals, LITERALS_END - LITERALS_AT - k->literals) &&
           all_zero(t + LITERALS_END, TABLE_SIZE - LITERALS_END);
}

int oracle_keeps(const uint8_t table[TABLE_SIZE])
{
    struct rules k = {table,
                      count_in(table, STEP_COUNT), count_in(table, STRING_COUNT), count_in(table, NUMBER_COUNT),
                      count_in(table, ELEMENT_COUNT), count_in(table, ITEM_COUNT), count_in(table, LITERAL_COUNT),
                      0, 0, 0};
    if (table[0] != 1 || table[1] != 0 || !all_zero(table + COUNTS_END, STEPS_AT - COUNTS_END)) return 0;
    if (k.steps < 1 || k.steps > MOST_STEPS || k.strings > MOST_STRINGS || k.numbers > MOST_NUMBERS) return 0;
    if (k.elements > MOST_ELEMENTS || k.items > MOST_ITEMS || k.literals > MOST_LITERALS) return 0;
    for (uint64_t i = 0; i < k.steps; i++)
        if (!row_holds(&k, table + STEPS_AT + i * ROW_SIZE)) return 0;
    if (k.elements_seen != k.elements || k.items_seen != k.items || k.literals_seen != k.literals) return 0;
    return rest_is_zero(&k) && table[STEPS_AT + (k.steps - 1) * ROW_SIZE] == FINISHES;
}

/* Reading a table that keeps the rules */

static int32_t unbiased(const uint8_t *cell)
{
    return (int32_t)((int64_t)value_of(cell) - BIAS);
}

/* The length of a cell whose three kinds begin at `whole`. */
static enum bound bound_of(const uint8_t *cell, int whole, int32_t *n)
{
    enum bound bound = (enum bound)(kind_of(cell) - whole);
    *n = bound == WHOLE ? 0 : bound == CONSTANT ? unbiased(cell) : (int32_t)value_of(cell);
    return bound;
}

static struct part part_in(const uint8_t *cell, int whole)
{
    struct part p = {(int)place_of(cell), WHOLE, 0};
    p.bound = bound_of(cell, whole, &p.n);
    return p;
}

static struct operand operand_in(const uint8_t *cell)
{
    struct operand o = {OPERAND_VALUE, 0, 0, {0, WHOLE, 0}};
    switch (kind_of(cell)) {
    case CONSTANT_CELL: o.kind = OPERAND_CONSTANT; o.constant = unbiased(cell); break;
    case NUMBER_CELL: o.kind = OPERAND_NUMBER; o.number = (int)place_of(cell); break;
    case LENGTH_CELL: o.kind = OPERAND_LENGTH; o.part.string = (int)place_of(cell); break;
    default: o.part = part_in(cell, VALUE_CELL); break;
    }
    return o;
}

static struct item item_in(const uint8_t *cell)
{
    struct item i = {ITEM_OPERAND, {OPERAND_CONSTANT, 0, 0, {0, WHOLE, 0}}};
    if (kind_of(cell) >= OPERANDS) i.operand = operand_in(cell);
    else if (kind_of(cell) >= SIGNS) i.kind = (enum item_kind)(ITEM_PLUS + kind_of(cell) - PLUS_CELL);
    else i.kind = (enum item_kind)(ITEM_ADD + kind_of(cell) - ADD_CELL);
    return i;
}

static struct element element_in(const uint8_t *cell)
{
    struct element e;
    memset(&e, 0, sizeof e);
    if (kind_of(cell) == LITERAL_CELL) {
        e.kind = ELEMENT_LITERAL;
        e.from = (int)get_number(cell + 2, 2);
        e.length = (int)range_count(cell);
    } else if (kind_of(cell) == CONSTANT_TEXT || kind_of(cell) == VARIABLE_TEXT) {
        e.kind = ELEMENT_TEXT;
        e.number = (int)place_of(cell);
        e.bound = bound_of(cell, CONSTANT_TEXT - 1, &e.n);
    } else if (kind_of(cell) >= FILLERS) {
        e.kind = kind_of(cell) == FREE_CELL ? ELEMENT_FREE : ELEMENT_FIXED;
        e.part = part_in(cell, FREE_CELL);
    } else {
        e.kind = ELEMENT_PART;
        e.part = part_in(cell, STRING_CELL);
    }
    return e;
}

static struct step step_in(const uint8_t *row)
{
    struct step s;
    memset(&s, 0, sizeof s);
    s.kind = (enum step_kind)row[0];
    s.card = (uint32_t)get_number(row + CARD_AT, 2);
    s.success = (int)get_number(row + SUCCESS_AT, 2);
    s.failure = (int)get_number(row + FAILURE_AT, 2);
    if (s.kind == SET_NUMBER) s.number = (int)place_of(row + LEFT);
    if (has_part(s.kind)) s.part = part_in(row + LEFT, STRING_CELL);
    if (s.kind == IF_COMPARES) {
        s.comparison = (enum comparison)row[1];
        s.left = operand_in(row + LEFT);
        s.right = operand_in(row + RIGHT);
    }
    if (is_scan(s.kind)) s.backwards = row[1] == 2;
    if (kind_of(row + RIGHT) == RANGE_CELL) {
        s.first = (int)get_number(row + RIGHT + 2, 2);
        s.count = (int)range_count(row + RIGHT);
        s.more = (int)range_more(row + RIGHT);
    }
    return s;
}

void oracle_program_of(const uint8_t table[TABLE_SIZE], struct oracle_program *p)
{
    int *const counts[] = {&p->steps, &p->strings, &p->numbers, &p->elements, &p->items, &p->literals};
    memset(p, 0, sizeof *p);
    for (int i = 0; i < COUNTS; i++) *counts[i] = (int)count_in(table, (enum count)i);
    for (int i = 0; i < p->steps; i++) p->step[i] = step_in(table + STEPS_AT + i * ROW_SIZE);
    for (int i = 0; i < p->elements; i++) p->element[i] = element_in(table + ELEMENTS_AT + i * CELL);
    for (int i = 0; i < p->items; i++) p->item[i] = item_in(table + ITEMS_AT + i * CELL);
    memcpy(p->literal, table + LITERALS_AT, (size_t)p->literals);
}
