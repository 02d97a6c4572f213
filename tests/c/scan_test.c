/* Tries the scan call of the static library against the oracle: number and 24 numbers answered, on document 01's trade lines P1 to P8, on 22,
   23 and 24 at their edges, on a pattern of 20 elements, and on random references and patterns, rows out of range and random rows among them.
   The first three also against document 01. No scan makes more trials than document 02 lets it (W8.2), and scans of many sizes make as many. Nothing
   else lent may be written. A first argument is the only seed to try. */
#include "beside.h"

#include <stdio.h>
#include <stdlib.h>
#include <string.h>

enum { SCANS_TRIED = 60000, MOST_BYTES_SHOWN = 300 };

static struct lent lent;

static void show(const char *name, const uint8_t *bytes, size_t n)
{
    printf("%s:", name);
    for (size_t i = 0; i < n && i < MOST_BYTES_SHOWN; i++) printf(" %d", bytes[i]);
    printf("\n");
}

static void expect(int holds, const char *what)
{
    if (!holds) fail("not the %s of the documents", what);
}

/* Makes the scan by the call and by the oracle; shows the first that differ. */
static uint32_t try_scan(const struct scan *s, enum side side)
{
    int before = failures;
    uint32_t number;
    lay_small(&lent, side);
    lay_scan(&lent, side, s);
    number = make_right(&lent, SCAN);
    if (before != 0 || failures == 0) return number;
    show("reference", s->reference, s->reference_len);
    show("values", s->values, s->values_len);
    show("rows", s->rows, s->rows_len);
    return number;
}

static void put_element(struct scan *s, enum strigol_element kind, size_t first, size_t second)
{
    strigol_put_element(s->rows + s->rows_len, kind, (uint32_t)first, (uint32_t)second);
    s->rows_len += STRIGOL_ROW_SIZE;
}

/* A pattern as the paper writes it, with free fillers as (), fixed ones as (n). */
static void put_pattern(struct scan *s, const char *pattern)
{
    for (const char *at = pattern; *at; at++) {
        if (*at == '"') {
            size_t from = s->values_len;
            for (at++; *at != '"'; at++) s->values[s->values_len++] = (uint8_t)*at;
            put_element(s, STRIGOL_STRING, from, s->values_len);
        } else if (*at == '(') {
            if (at[1] == ')') put_element(s, STRIGOL_FREE, 0, 0);
            else put_element(s, STRIGOL_FIXED, strtoul(at + 1, NULL, 10), 0);
            at = strchr(at, ')');
        }
    }
}

/* A line with its answer by hand, and its trials where a document says how many. */
static void line(const char *reference, const char *pattern, uint32_t found, uint32_t start, const char *lengths, int trials)
{
    static struct scan s;
    s.values_len = s.rows_len = 0;
    s.reference_len = strlen(reference);
    memcpy(s.reference, reference, s.reference_len);
    put_pattern(&s, pattern);
    doing.part = pattern;
    for (int side = 0; side < SIDES; side++) {
        uint32_t number = try_scan(&s, (enum side)side);
        const uint32_t *answer = NUMBERS_32(&lent, ANSWER);
        expect(number == STRIGOL_OK, "number");
        expect(answer[STRIGOL_SPLIT] == found && answer[STRIGOL_START] == start, "split");
        expect(trials < 0 || answer[STRIGOL_TRIALS] == (uint32_t)trials, "trials");
        for (int i = 0; lengths[i] != 0; i++) expect(answer[STRIGOL_LENGTHS_AT + i] == (uint32_t)(lengths[i] - '0'), "lengths");
    }
}

/* P1 to P8, and a pattern of as many elements as there may be. */
static void trade_lines(void)
{
    line("ABCDEFGHIJKLMNOP", "(5)()\"K\"()", 1, 0, "5515", -1);
    line("123.", "()(3)\".\"", 1, 0, "031", -1);
    line("HOU", "()()()", 1, 0, "003", -1);
    line("ABCD", "(2)(3)", 0, 0, "", -1);
    line("", "()", 1, 0, "0", -1);
    line("ABCDE", "\"A\"()\"C\"()", 1, 0, "1112", -1);
    line("AAB", "\"AB\"", 1, 1, "2", 2);
    line("AB", "\"B\"\"C\"", 0, 0, "", 3);
    line("A,,B,,,,C,,,,,D", "()\",\"()\",\"()\",\"()\",\"()\",\"()\",\"()\",\"()\",\"()\",\"()\",\"", 1, 0, "11011101010111010101", -1);
}

/* Patterns that make as many trials as W8.2 lets a scan make: free fillers in front and behind, and between them m other elements, the last one "B",
   the others without bytes, of which so many are fixed fillers. In n bytes A each of the m is tested at each of n + 1 places. */
struct shape { const char *name; int front, behind, fixed; };

static void put_shape(struct scan *s, const struct shape *shape, int m)
{
    s->values_len = 1;
    s->values[0] = 'B';
    s->rows_len = 0;
    for (int i = 0; i < shape->front; i++) put_element(s, STRIGOL_FREE, 0, 0);
    for (int i = 1; i < m; i++) put_element(s, i <= shape->fixed ? STRIGOL_FIXED : STRIGOL_STRING, 0, 0);
    put_element(s, STRIGOL_STRING, 0, 1);
    for (int i = 0; i < shape->behind; i++) put_element(s, STRIGOL_FREE, 0, 0);
}

static void try_shape(const struct shape *shape, int m, size_t n)
{
    static struct scan s;
    uint32_t trials, most;
    doing.part = shape->name;
    doing.seed = n;
    s.reference_len = n;
    memset(s.reference, 'A', n);
    put_shape(&s, shape, m);
    try_scan(&s, (enum side)(m % SIDES));
    trials = NUMBERS_32(&lent, ANSWER)[STRIGOL_TRIALS];
    most = oracle_most_in_scan(s.reference_len, s.rows, s.rows_len);
    if (trials != (uint32_t)m * (n + 1) || most != trials) fail("%u trials of at most %u, not %d for each of %zu places", trials, most, m, n + 1);
}

/* A few lines that make m × (n + 1) trials or, where the last byte fits, m × n; all shapes in many sizes. */
static void costly_scans(void)
{
    static const struct shape shapes[] = {
        {"null strings", 0, 0, 0},
        {"null strings, free fillers in front", 2, 0, 0},
        {"null strings, a free filler behind", 0, 1, 0},
        {"fixed fillers of 0 bytes", 0, 0, STRIGOL_ELEMENTS_MOST},
        {"both, free fillers in front and behind", 1, 2, 3},
    };
    static const size_t lengths[] = {0, 1, 2, 3, 7, 8, 15, 16, 17, 31, 32, 33, 63, 64, 65, 127, 128, 255, 256, 257, 1000, 1023, 1024};
    line("AAA", "\"\"\"B\"", 0, 0, "", 8);
    line("AAA", "()\"\"(0)\"B\"()", 0, 0, "", 12);
    line("AAB", "\"\"\"B\"", 1, 2, "01", 6);
    line("", "\"\"(0)\"\"()", 1, 0, "0000", 3);
    for (size_t i = 0; i < sizeof shapes / sizeof shapes[0]; i++)
        for (int m = 1; m <= STRIGOL_ELEMENTS_MOST - shapes[i].front - shapes[i].behind; m++)
            for (size_t k = 0; k < sizeof lengths / sizeof lengths[0]; k++) try_shape(&shapes[i], m, lengths[k]);
    if (trials_met != 20500) fail("at most %u trials, not 20,500", trials_met);
}

/* 22, 23 and 24 at their edges: one row, and bytes of zero as reference, values and further rows. */
static void refusals(void)
{
    enum { ROW = STRIGOL_ROW_SIZE, MOST = STRIGOL_ELEMENTS_MOST, LONGEST = STRIGOL_STRING_MOST, NO_KIND = 9 };
    static const struct { size_t reference, rows; int kind; uint32_t from, to, number; } tries[] = {
        {LONGEST, ROW, STRIGOL_FREE, 0, 0, 0},
        {LONGEST + 1, ROW, STRIGOL_FREE, 0, 0, 22},
        {LONGEST + 1, (MOST + 1) * ROW, NO_KIND, 0, 0, 22},
        {3, (MOST + 1) * ROW, NO_KIND, 0, 0, 23},
        {3, MOST * ROW + 1, NO_KIND, 0, 0, 23},
        {3, ROW, NO_KIND, 0, 0, 24},
        {3, ROW, 0, 0, 0, 24},
        {3, ROW - 1, STRIGOL_FREE, 0, 0, 24},
        {3, ROW, STRIGOL_FIXED, 0x80000000u, 0, 24},
        {3, ROW, STRIGOL_FIXED, 0x7fffffffu, 0, 0},
        {3, ROW, STRIGOL_STRING, 2, 1, 24},
        {3, ROW, STRIGOL_STRING, 0, SCAN_VALUES + 1, 24},
        {3, ROW, STRIGOL_STRING, SCAN_VALUES, SCAN_VALUES, 0},
        {3, 0, 0, 0, 0, 0},
    };
    static struct scan s;
    doing.part = "edges";
    for (size_t i = 0; i < sizeof tries / sizeof tries[0]; i++) {
        static const uint32_t none[STRIGOL_ANSWER_SIZE];
        memset(&s, 0, sizeof s);
        put_element(&s, (enum strigol_element)tries[i].kind, tries[i].from, tries[i].to);
        s.reference_len = tries[i].reference;
        s.values_len = SCAN_VALUES;
        s.rows_len = tries[i].rows;
        doing.seed = i;
        for (int side = 0; side < SIDES; side++) {
            uint32_t number = try_scan(&s, (enum side)side);
            expect(number == tries[i].number, "number");
            if (number != 0) expect(memcmp(lent.b[ANSWER].at, none, sizeof none) == 0, "answer, no split and 0 trials,");
        }
    }
}

static int found;

static void try_random(uint64_t seed)
{
    static struct scan s;
    struct draws d;
    doing.part = "random";
    begin_seed(&d, seed);
    random_scan(&d, &s);
    try_scan(&s, (enum side)(seed % SIDES));
    found += NUMBERS_32(&lent, ANSWER)[STRIGOL_SPLIT] == 1;
}

int main(int argc, char **argv)
{
    int tried = argc > 1 ? 1 : SCANS_TRIED;
    begin_test("scan test", &lent);
    if (argc == 1) {
        trade_lines();
        costly_scans();
        refusals();
    }
    for (int i = 1; i <= tried; i++) try_random(argc > 1 ? strtoull(argv[1], NULL, 10) : (uint64_t)i);
    show_met(SCAN, argc == 1);
    printf("scan test: %d random scans, %d splits found, %u trials at most, %d failures\n", tried, found, trials_met, failures);
    return failures != 0;
}
