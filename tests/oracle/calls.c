/* The calls of docs/TABLE.md over byte slices and numbers, answered by the reader and interpreter next to this file. */
#include "oracle.h"

#include <string.h>

void oracle_store(const struct machine *m, uint8_t store[STORE_SIZE])
{
    for (int i = 0; i < MOST_STRINGS; i++) {
        uint8_t *cell = store + i * CELL_SIZE;
        const struct text *t = &m->strings[i];
        memset(cell, 0, CELL_SIZE);
        put_number(cell, 2, (uint64_t)t->length);
        memcpy(cell + 2, t->bytes, (size_t)t->length);
    }
}

/* Writes the numbers of a state that count; the others stay, those of the returns behind the count too. */
void oracle_state(const struct machine *m, uint64_t state[STATE_SIZE])
{
    const uint64_t first[] = {m->status, m->next, m->held, m->taken, m->put};
    for (int i = 0; i < RETURNS_AT; i++) state[i] = first[i];
    for (uint64_t i = 0; i < m->held && i < MOST_HELD; i++) state[RETURNS_AT + i] = m->returns[i];
    for (int i = 0; i < MOST_NUMBERS; i++) state[NUMBERS_AT + i] = (uint64_t)(m->numbers[i] + BIAS);
}

void oracle_answer(const struct answer *a, uint32_t numbers[ANSWER_SIZE])
{
    memset(numbers, 0, ANSWER_SIZE * sizeof numbers[0]);
    numbers[TRIALS_AT] = a->trials;
    numbers[NOTES_AT] = a->notes;
    if (!a->found) return;
    numbers[SPLIT_AT] = 1;
    numbers[START_AT] = (uint32_t)a->start;
    for (int i = 0; i < a->pieces; i++) numbers[LENGTHS_AT + i] = (uint32_t)a->lengths[i];
}

static int cell_keeps(const uint8_t *cell)
{
    static const uint8_t zeros[MOST_STRING];
    int length = (int)get_number(cell, 2);
    return length <= MOST_STRING && memcmp(cell + 2 + length, zeros, (size_t)(MOST_STRING - length)) == 0;
}

static int store_keeps(const uint8_t *store, size_t store_len)
{
    if (store_len < STORE_SIZE) return 0;
    for (int i = 0; i < MOST_STRINGS; i++)
        if (!cell_keeps(store + i * CELL_SIZE)) return 0;
    return 1;
}

void oracle_machine_of(const uint8_t store[STORE_SIZE], const uint64_t state[STATE_SIZE], struct machine *m)
{
    uint64_t *const first[] = {&m->status, &m->next, &m->held, &m->taken, &m->put};
    oracle_fresh(m);
    for (int i = 0; i < RETURNS_AT; i++) *first[i] = state[i];
    for (int i = 0; i < MOST_HELD; i++) m->returns[i] = state[RETURNS_AT + i];
    for (int i = 0; i < MOST_NUMBERS; i++) m->numbers[i] = (int64_t)(state[NUMBERS_AT + i] - (uint64_t)BIAS);
    for (int i = 0; i < MOST_STRINGS; i++) {
        const uint8_t *cell = store + i * CELL_SIZE;
        m->strings[i].length = (int)get_number(cell, 2);
        memcpy(m->strings[i].bytes, cell + 2, (size_t)m->strings[i].length);
    }
}

uint32_t oracle_read_call(const uint8_t *deck, size_t n, uint8_t *table, size_t table_len, uint32_t *card)
{
    static struct oracle_program p;
    int number;
    *card = 0;
    if (n > MOST_DECK) return 1;
    if (table_len < TABLE_SIZE) return 2;
    number = oracle_read(deck, n, &p, card);
    if (number == 0) oracle_table(&p, table);
    else memset(table, 0, TABLE_SIZE);
    return (uint32_t)number;
}

uint32_t oracle_start_call(uint8_t *store, size_t store_len, uint64_t *state)
{
    static struct machine m;
    memset(state, 0, STATE_SIZE * sizeof state[0]);
    oracle_fresh(&m);
    oracle_state(&m, state);
    if (store_len < STORE_SIZE) return 14;
    memset(store, 0, STORE_SIZE);
    return 0;
}

uint32_t oracle_step_call(const uint8_t *table, size_t table_len, uint8_t *store, size_t store_len, uint64_t *state, const uint8_t *input,
                          size_t input_len, uint8_t *output, size_t output_len, uint32_t *answer)
{
    static struct oracle_program p;
    static struct machine m;
    struct answer a;
    memset(answer, 0, ANSWER_SIZE * sizeof answer[0]);
    if (table_len < TABLE_SIZE) return 2;
    if (!oracle_keeps(table)) return 13;
    if (!store_keeps(store, store_len)) return 14;
    oracle_program_of(table, &p);
    oracle_machine_of(store, state, &m);
    oracle_step(&p, &m, input, input_len, output, output_len, &a);
    if (a.number == 15 || a.number == 16) return (uint32_t)a.number;
    oracle_store(&m, store);
    oracle_state(&m, state);
    oracle_answer(&a, answer);
    return (uint32_t)a.number;
}

/* The outcome, the number, the steps done and their notes. */
void oracle_run_call(const uint8_t *table, size_t table_len, uint8_t *store, size_t store_len, uint64_t *state, const uint8_t *input,
                     size_t input_len, uint8_t *output, size_t output_len, uint32_t count, uint64_t *result)
{
    enum { OUTCOME_FINISHED, OUTCOME_STOPPED, OUTCOME_SPENT, OUTCOME_REFUSED };
    uint32_t answer[ANSWER_SIZE];
    result[OUTCOME_AT] = OUTCOME_SPENT;
    result[BY_AT] = result[DONE_AT] = result[NOTED_AT] = 0;
    while (result[OUTCOME_AT] == OUTCOME_SPENT && result[DONE_AT] < count) {
        uint32_t number =
            oracle_step_call(table, table_len, store, store_len, state, input, input_len, output, output_len, answer);
        result[BY_AT] = number;
        if (number != 0 && number < 17) {
            result[OUTCOME_AT] = OUTCOME_REFUSED;
            return;
        }
        result[DONE_AT]++;
        result[NOTED_AT] += answer[NOTES_AT];
        if (number != 0) result[OUTCOME_AT] = OUTCOME_STOPPED;
        else if (state[STATUS_AT] == FINISHED) result[OUTCOME_AT] = OUTCOME_FINISHED;
    }
}

/* The scan call */

/* The element of a row, from as many of its bytes as were lent: 0 for one that is turned down by 24. */
static int element_of(const uint8_t *row, size_t row_len, const uint8_t *values, size_t values_len, struct scan_element *e)
{
    uint64_t first, second;
    if (row_len < SCAN_ROW) return 0;
    first = get_number(row + SCAN_FIRST_AT, 4);
    second = get_number(row + SCAN_SECOND_AT, 4);
    *e = (struct scan_element){SCAN_FREE, 0, NULL};
    if (row[0] == SCAN_FREE) return 1;
    if (row[0] == SCAN_FIXED) {
        *e = (struct scan_element){SCAN_FIXED, (int)(first & 0x7fffffff), NULL};
        return first < 0x80000000u;
    }
    if (row[0] != SCAN_STRING || first > second || second > values_len) return 0;
    *e = (struct scan_element){SCAN_STRING, (int)(second - first), values + first};
    return 1;
}

uint32_t oracle_scan_call(const uint8_t *reference, size_t reference_len, const uint8_t *values, size_t values_len, const uint8_t *elements,
                          size_t elements_len, uint32_t *answer)
{
    struct scan_element e[MOST_ROW];
    struct answer a;
    size_t count = (elements_len + SCAN_ROW - 1) / SCAN_ROW;
    memset(answer, 0, ANSWER_SIZE * sizeof answer[0]);
    if (reference_len > MOST_STRING) return 22;
    if (count > MOST_ROW) return 23;
    for (size_t i = 0; i < count; i++)
        if (!element_of(elements + i * SCAN_ROW, elements_len - i * SCAN_ROW, values, values_len, &e[i])) return 24;
    memset(&a, 0, sizeof a);
    oracle_scan(reference, (int)reference_len, e, (int)count, &a);
    oracle_answer(&a, answer);
    return 0;
}
