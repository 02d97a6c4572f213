/* The most trials that a scan may make, told by what it is given (document 02, wish 8). Nothing is scanned here. */
#include "oracle.h"

/* W8.2: n bytes in the reference, m elements that aren't free fillers. */
static uint32_t most_trials(uint64_t m, uint64_t n)
{
    return (uint32_t)(m * (n + 1));
}

/* How many bytes of S a scan of S or S$n looks through (V3, V5); a negative n stops it. */
static uint64_t reference_bytes(const struct machine *m, struct part p)
{
    uint64_t whole = (uint64_t)m->strings[p.string].length, n;
    if (p.bound == WHOLE) return whole;
    n = (uint64_t)(p.bound == CONSTANT ? p.n : m->numbers[p.n]);
    return n < whole ? n : whole;
}

uint32_t oracle_most_trials(const struct oracle_program *p, const struct machine *m)
{
    const struct step *s = &p->step[m->next];
    uint64_t tested = 0;
    if (!is_scan(s->kind)) return 0;
    for (int i = 0; i < s->count; i++) tested += p->element[s->first + i].kind != ELEMENT_FREE;
    return most_trials(tested, reference_bytes(m, s->part));
}

uint32_t oracle_most_in_step(const uint8_t table[TABLE_SIZE], const uint8_t store[STORE_SIZE], const uint64_t state[STATE_SIZE])
{
    static struct oracle_program p;
    static struct machine m;
    oracle_program_of(table, &p);
    oracle_machine_of(store, state, &m);
    return oracle_most_trials(&p, &m);
}

uint32_t oracle_most_in_scan(size_t reference_len, const uint8_t *elements, size_t elements_len)
{
    uint64_t tested = 0;
    for (size_t at = 0; at < elements_len; at += SCAN_ROW) tested += elements[at] != SCAN_FREE;
    return most_trials(tested, reference_len);
}
