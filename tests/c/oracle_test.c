/* Shows the oracle right before anything is tested against it: the decks and scans of tests/vectors with their traces and printed output, the
   decks of examples with what they print, the edge decks, document 01's trade lines P1 to P12 among them, random scans beside a plain search
   through all splits in order, and the table of the deck LOTS as docs/TABLE.md prints it. */
#include "damage.h"
#include "decks.h"
#include "oracle.h"

#include <stdio.h>
#include <stdlib.h>
#include <string.h>

enum {
    TRACED_STEPS = 60, TRACED_OUTPUT = 300, PRINTED_OUTPUT = 16384, PRINTED_STEPS = 1000000, MOST_FILE = 4 << 20, DAMAGED_DECKS = 300,
    DAMAGES = 20, SEARCHED_SCANS = 20000, MOST_SPLITS = 300000
};

static int failures;

static void fail(const char *what, const char *name)
{
    printf("oracle test: %s: %s\n", what, name);
    failures++;
}

/* Files and texts */

struct file { size_t length; uint8_t bytes[MOST_FILE]; };

static int read_file(const char *stem, const char *ending, struct file *f)
{
    long n = file_bytes(stem, ending, f->bytes, sizeof f->bytes);
    f->length = n < 0 ? 0 : (size_t)n;
    return n >= 0;
}

static struct file written;

static void put_text(const char *text)
{
    size_t n = strlen(text);
    if (written.length + n > MOST_FILE) n = MOST_FILE - written.length;
    memcpy(written.bytes + written.length, text, n);
    written.length += n;
}

static void put_long(const char *before, long long n)
{
    char text[64];
    snprintf(text, sizeof text, "%s%lld", before, n);
    put_text(text);
}

static void put_hex(const uint8_t *bytes, int n)
{
    char text[3];
    for (int i = 0; i < n; i++) {
        snprintf(text, sizeof text, "%02x", bytes[i]);
        put_text(text);
    }
}

static int is_written(const uint8_t *bytes, size_t n)
{
    return written.length == n && memcmp(written.bytes, bytes, n) == 0;
}

/* Traces, as the vectors write them. */

/* A split, or what stands for none. */
static void put_split(const struct answer *a, const char *none)
{
    if (!a->found) {
        put_text(none);
        return;
    }
    put_long("", a->start);
    put_text(";");
    for (int i = 0; i < a->pieces; i++) put_long(i ? "," : "", a->lengths[i]);
}

static void trace_step(const struct oracle_program *p, const struct machine *m, const struct answer *a, int step)
{
    static const char *const states[] = {"running", "finished", "stopped"};
    put_long("step ", step);
    put_long(": n=", a->number);
    put_long(" notes=", a->notes);
    put_text(" split=");
    put_split(a, "-");
    put_long(" trials=", a->trials);
    put_long(" in=", (long long)m->taken);
    put_long(" out=", (long long)m->put);
    put_text(" state=");
    put_text(states[m->status]);
    put_long(" next=", p->step[m->next].card);
    put_text(" held=[");
    for (uint64_t i = 0; i < m->held; i++) put_long(i ? "," : "", p->step[m->returns[i]].card);
    put_text("] numbers={");
    for (int i = 0; i < p->numbers; i++) {
        put_text(i ? "," : "");
        put_text(p->number_name[i]);
        put_long(":", m->numbers[i]);
    }
    put_text("} strings={");
    for (int i = 0; i < p->strings; i++) {
        put_text(i ? "," : "");
        put_text(p->string_name[i]);
        put_text(":");
        put_hex(m->strings[i].bytes, m->strings[i].length);
    }
    put_text("}\n");
}

static void trace(const struct file *deck, const struct file *input)
{
    static struct oracle_program p;
    static struct machine m;
    uint8_t output[TRACED_OUTPUT];
    uint32_t card;
    int number = oracle_read(deck->bytes, deck->length, &p, &card);
    written.length = 0;
    if (number != 0) {
        put_long("REFUSED ", number);
        put_long(" ", card);
        put_text("\n");
        return;
    }
    oracle_fresh(&m);
    for (int step = 1; step <= TRACED_STEPS && m.status == RUNNING; step++) {
        struct answer a;
        oracle_step(&p, &m, input->bytes, input->length, output, sizeof output, &a);
        trace_step(&p, &m, &a, step);
    }
}

/* What the program strigol prints with this output lent. */
static void print(const uint8_t *deck, size_t deck_len, const uint8_t *input, size_t input_len, size_t output_len)
{
    static const char *const outcomes[] = {"FINISHED", "STOPPED", "SPENT"};
    static struct oracle_program p;
    static struct machine m;
    static uint8_t output[PRINTED_OUTPUT];
    uint32_t card;
    long long notes = 0, steps = 0;
    struct answer a = {0};
    int number = oracle_read(deck, deck_len, &p, &card), outcome;
    written.length = 0;
    if (number != 0) {
        put_long("REFUSED,", number);
        put_long(",", card);
        put_text(",0\n");
        return;
    }
    oracle_fresh(&m);
    while (m.status == RUNNING && steps < PRINTED_STEPS) {
        oracle_step(&p, &m, input, input_len, output, output_len, &a);
        notes += a.notes;
        steps++;
    }
    memcpy(written.bytes, output, m.put);
    written.length = m.put;
    outcome = m.status == FINISHED ? 0 : m.status == STOPPED ? 1 : 2;
    put_text(outcomes[outcome]);
    put_long(",", a.number);
    put_long(",", steps);
    put_long(",", notes);
    put_text("\n");
}

/* A table that keeps the rules reads as a program that has the same table. */
static void check_reads_back(const uint8_t table[TABLE_SIZE], struct oracle_program *p, const char *name)
{
    static uint8_t again[TABLE_SIZE];
    oracle_program_of(table, p);
    oracle_table(p, again);
    if (memcmp(table, again, TABLE_SIZE) != 0) fail("the table reads as another program", name);
}

/* An accepted deck's table keeps the rules. */
static void check_table(const uint8_t *deck, size_t n, const char *name)
{
    static struct oracle_program p;
    static uint8_t table[TABLE_SIZE];
    uint32_t card;
    if (oracle_read(deck, n, &p, &card) != 0) return;
    oracle_table(&p, table);
    if (!oracle_keeps(table)) fail("the table breaks its rules", name);
    else check_reads_back(table, &p, name);
}

static struct file deck, input, expected;
static int printed;

static void check_printed(const char *stem)
{
    printed++;
    print(deck.bytes, deck.length, input.bytes, input.length, PRINTED_OUTPUT);
    if (!is_written(expected.bytes, expected.length)) fail("printed output", stem);
}

static void check_vector(const char *stem)
{
    if (!read_file(stem, ".deck", &deck) || !read_file(stem, ".in", &input) || !read_file(stem, ".trace", &expected)) {
        fail("a file is missing", stem);
        return;
    }
    trace(&deck, &input);
    if (!is_written(expected.bytes, expected.length)) fail("trace", stem);
    check_table(deck.bytes, deck.length, stem);
    if (read_file(stem, ".out", &expected)) check_printed(stem);
}

/* An example, which may have no input. */
static void check_example(const char *stem)
{
    read_file(stem, ".in", &input);
    if (!read_file(stem, ".deck", &deck) || !read_file(stem, ".out", &expected)) {
        fail("a file is missing", stem);
        return;
    }
    check_table(deck.bytes, deck.length, stem);
    check_printed(stem);
}

/* Scans: `REFERENCE ELEMENT.. => answer`. */

static void check_scan(char *line)
{
    uint8_t reference[MOST_STRING], values[MOST_ROW][MOST_STRING];
    struct scan_element e[MOST_ROW];
    struct answer a = {0};
    char whole[8192], *answer = strstr(line, " => "), *word;
    int n, count = 0;
    snprintf(whole, sizeof whole, "%s", line);
    if (!answer) {
        fail("a line without an answer", whole);
        return;
    }
    *answer = 0;
    n = from_hex(strtok(line, " "), reference);
    while ((word = strtok(NULL, " ")) != NULL) {
        if (word[0] == 'x') e[count] = (struct scan_element){SCAN_FREE, 0, NULL};
        if (word[0] == 'f') e[count] = (struct scan_element){SCAN_FIXED, atoi(word + 2), NULL};
        if (word[0] == 's') e[count] = (struct scan_element){SCAN_STRING, from_hex(word + 2, values[count]), values[count]};
        count++;
    }
    oracle_scan(reference, n, e, count, &a);
    written.length = 0;
    put_split(&a, "FAIL");
    put_long(" ", a.trials);
    if (!is_written((uint8_t *)answer + 4, strlen(answer + 4))) fail("scan", whole);
}

static void check_scans(int *scans)
{
    char line[8192];
    FILE *in = fopen("tests/vectors/scans.txt", "r");
    while (in && fgets(line, sizeof line, in)) {
        line[strcspn(line, "\n")] = 0;
        check_scan(line);
        (*scans)++;
    }
    if (in) fclose(in);
}

/* The first split that fits, tried in the order of splits: the start first, then each length, each from small to large. */
static int pieces_fit(const struct scan *s, const uint8_t *row, uint64_t at, uint32_t *lengths)
{
    uint64_t first = get_number(row + SCAN_FIRST_AT, 4), left = s->reference_len - at, shortest = 0, longest = left;
    if (row == s->rows + s->rows_len) return 1;
    if (row[0] == SCAN_STRING) shortest = longest = get_number(row + SCAN_SECOND_AT, 4) - first;
    if (row[0] == SCAN_FIXED) shortest = longest = first;
    if (row[0] == SCAN_FREE && row + SCAN_ROW == s->rows + s->rows_len) shortest = left;
    for (uint64_t l = shortest; l <= longest && l <= left; l++) {
        if (row[0] == SCAN_STRING && memcmp(s->reference + at, s->values + first, l) != 0) continue;
        *lengths = (uint32_t)l;
        if (pieces_fit(s, row + SCAN_ROW, at + l, lengths + 1)) return 1;
    }
    return 0;
}

/* About how many splits there are; with many free fillers there are too many to be tried. */
static double splits_of(const struct scan *s)
{
    double n = (double)s->reference_len + 1, splits = n;
    int free_fillers = 0;
    for (size_t at = 0; at < s->rows_len; at += SCAN_ROW) free_fillers += s->rows[at] == SCAN_FREE;
    for (int i = 1; i <= free_fillers; i++) splits *= (n + i) / (i + 1);
    return splits;
}

/* The oracle's scan call beside the plain search, on random scans that aren't turned down. */
static void check_first_fit(void)
{
    static struct scan s;
    int tried = 0;
    for (uint64_t seed = 1; tried < SEARCHED_SCANS; seed++) {
        uint32_t answer[ANSWER_SIZE], right[ANSWER_SIZE] = {0};
        struct draws d;
        draws_from(&d, seed);
        random_scan(&d, &s);
        if (splits_of(&s) > MOST_SPLITS) continue;
        if (oracle_scan_call(s.reference, s.reference_len, s.values, s.values_len, s.rows, s.rows_len, answer) != 0) continue;
        tried++;
        for (uint64_t at = 0; at <= s.reference_len && right[SPLIT_AT] == 0; at++) {
            right[SPLIT_AT] = (uint32_t)pieces_fit(&s, s.rows, at, right + LENGTHS_AT);
            right[START_AT] = (uint32_t)at;
        }
        if (right[SPLIT_AT] == 0) memset(right, 0, sizeof right);
        right[TRIALS_AT] = answer[TRIALS_AT];
        if (memcmp(answer, right, sizeof right) == 0) continue;
        printf("oracle test: scan of seed %llu: split %u at %u, not %u at %u\n", (unsigned long long)seed, answer[SPLIT_AT], answer[START_AT],
               right[SPLIT_AT], right[START_AT]);
        failures++;
    }
}

/* The table of LOTS is the one that is printed. */
static void check_lots(void)
{
    static struct oracle_program p;
    static uint8_t table[TABLE_SIZE], right[TABLE_SIZE];
    uint32_t card;
    example_of("docs/TABLE.md", right, TABLE_SIZE);
    if (!read_file("examples/lots", ".deck", &deck) || oracle_read(deck.bytes, deck.length, &p, &card) != 0) fail("refused", "LOTS");
    oracle_table(&p, table);
    if (memcmp(table, right, TABLE_SIZE) != 0) fail("not the table of docs/TABLE.md", "LOTS");
}

static void check_edges(int *edges)
{
    static struct oracle_program p;
    static struct deck d;
    for (*edges = 0; edge_deck(*edges, &d); (*edges)++) {
        uint32_t card;
        int number = oracle_read(d.bytes, d.length, &p, &card);
        if (number != d.number || card != d.card) {
            printf("oracle test: edge %d, %s: %d %u, not %d %u\n", *edges, d.name, number, card, d.number, d.card);
            failures++;
        }
        check_table(d.bytes, d.length, d.name);
    }
}

static void check_runs(int *runs)
{
    static struct deck d;
    struct run_edge edge;
    for (*runs = 0; run_edge(*runs, &edge); (*runs)++) {
        short_deck(edge.lines, &d);
        print(d.bytes, d.length, (const uint8_t *)edge.input, strlen(edge.input), edge.output_len);
        if (!is_written((const uint8_t *)edge.printed, strlen(edge.printed))) {
            fail("run", edge.name);
            printf("%.*s", (int)written.length, (const char *)written.bytes);
        }
    }
}

/* A damaged table that still keeps the rules reads as a program that has the same table. */
static void check_damaged(int *kept)
{
    static struct oracle_program p;
    static uint8_t table[TABLE_SIZE];
    static struct deck d;
    for (uint64_t seed = 1; seed <= DAMAGED_DECKS; seed++) {
        struct draws draws;
        uint32_t card;
        draws_from(&draws, seed);
        running_deck(&draws, &d);
        for (int i = 0; i < DAMAGES && oracle_read(d.bytes, d.length, &p, &card) == 0; i++) {
            oracle_table(&p, table);
            damage_table(&draws, table);
            if (!oracle_keeps(table)) continue;
            (*kept)++;
            check_reads_back(table, &p, "a damaged deck");
        }
    }
}

int main(void)
{
    int decks = each_stem("tests/vectors/decks/*.deck", check_vector), of_wishes = each_stem("tests/vectors/wish*/*.deck", check_vector);
    int scans = 0, edges = 0, runs = 0, kept = 0;
    int examples = each_stem("examples/*.deck", check_example) + each_stem("examples/*/*.deck", check_example);
    check_scans(&scans);
    check_first_fit();
    check_lots();
    check_edges(&edges);
    check_runs(&runs);
    check_damaged(&kept);
    if (decks == 0 || of_wishes == 0 || scans == 0 || examples == 0) fail("nothing tried", "vectors or examples");
    printf("oracle test: %d decks, %d examples, %d printed, %d scans, %d scans searched, %d edges, %d runs, %d damaged tables kept, %d failures\n",
           decks + of_wishes, examples, printed, scans, SEARCHED_SCANS, edges, runs, kept, failures);
    return failures != 0;
}
