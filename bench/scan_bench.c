/* The scan call beside PCRE2 with JIT: the same lines, the same run, each figure the best of several rounds. PCRE2 is called both ways that
   it has: pcre2_match, which checks what it is given as the scan call does, and pcre2_jit_match, which checks nothing. A ratio above 1
   means that the scan call is the faster of the two. Printed are tables in Markdown. */
#include "figures.h"
#include "strigol.h"

#define PCRE2_CODE_UNIT_WIDTH 8
#include <pcre2.h>
#include <stdint.h>
#include <stdio.h>
#include <stdlib.h>
#include <string.h>

enum { ROUNDS = 40 };

static uint8_t rows[STRIGOL_ELEMENTS_MOST * STRIGOL_ROW_SIZE], values[256];
static size_t rows_len, values_len;

/* The pattern: a free filler for each '.', else the literal up to the next one. */
static void pattern(const char *s)
{
    rows_len = values_len = 0;
    while (*s) {
        size_t from = values_len;
        if (*s == '.') {
            strigol_put_element(rows + rows_len, STRIGOL_FREE, 0, 0);
            s++;
        } else {
            while (*s && *s != '.') values[values_len++] = (uint8_t)*s++;
            strigol_put_element(rows + rows_len, STRIGOL_STRING, (uint32_t)from, (uint32_t)values_len);
        }
        rows_len += STRIGOL_ROW_SIZE;
    }
}

static uint32_t answer[STRIGOL_ANSWER_SIZE];
static volatile uint32_t sink;

static double time_scan(const char *r, size_t n, int calls)
{
    double best;
    BEST_NS(best, ROUNDS, calls, strigol_scan((const uint8_t *)r, n, values, values_len, rows, rows_len, answer);
            sink = answer[STRIGOL_START]);
    return best;
}

typedef int (*matcher)(const pcre2_code *, PCRE2_SPTR, PCRE2_SIZE, PCRE2_SIZE, uint32_t, pcre2_match_data *, pcre2_match_context *);

static double time_pcre2(matcher match, const char *regex, const char *r, size_t n, int calls, int *found)
{
    int error;
    PCRE2_SIZE offset;
    pcre2_code *code = pcre2_compile((PCRE2_SPTR)regex, PCRE2_ZERO_TERMINATED, PCRE2_DOTALL, &error, &offset, NULL);
    if (code == NULL || pcre2_jit_compile(code, PCRE2_JIT_COMPLETE) != 0) {
        fprintf(stderr, "PCRE2 can't compile %s\n", regex);
        exit(1);
    }
    pcre2_match_data *data = pcre2_match_data_create_from_pattern(code, NULL);
    double best;
    BEST_NS(best, ROUNDS, calls, *found = match(code, (PCRE2_SPTR)r, n, 0, 0, data, NULL) > 0;
            sink = (uint32_t)pcre2_get_ovector_pointer(data)[0]);
    pcre2_match_data_free(data);
    pcre2_code_free(code);
    return best;
}

/* How many lines there are, and on how many the scan is at least as fast. */
static int lines, as_fast_as_checked, as_fast_as_unchecked;

/* PCRE2's time over the scan's, as it is printed. */
static double ratio(double pcre2, double scan)
{
    return (double)(long)(100 * pcre2 / scan + 0.5) / 100;
}

/* A line of n bytes; its pattern in words, as `pattern` takes it, and as a regular expression. */
static void compare(const char *what, const char *words, const char *p, const char *regex, const char *r, size_t n)
{
    int calls = n > 100 ? 20000 : 200000, found;
    pattern(p);
    double checked = time_pcre2(pcre2_match, regex, r, n, calls, &found);
    double unchecked = time_pcre2(pcre2_jit_match, regex, r, n, calls, &found);
    double ours = time_scan(r, n, calls);
    if ((int)answer[STRIGOL_SPLIT] != found) {
        fprintf(stderr, "%s: the two disagree\n", what);
        exit(1);
    }
    printf("| %s | %s | %s | %s | %.2f | %s | %.2f |\n", what, words, figure(ours), figure(checked), ratio(checked, ours), figure(unchecked),
           ratio(unchecked, ours));
    lines++;
    as_fast_as_checked += ratio(checked, ours) >= 1;
    as_fast_as_unchecked += ratio(unchecked, ours) >= 1;
}

int main(void)
{
    static char comma[1024], literal[1024], nearly[1024], failing[1024];
    memset(comma, 'x', sizeof comma);
    comma[1000] = ',';
    memset(literal, 'x', sizeof literal);
    memcpy(literal + 1020, "LOTS", 4);
    memset(nearly, 'A', sizeof nearly);
    memset(failing, 'x', sizeof failing);
    failing[10] = 'A';
    printf("| line | pattern | scan, ns | `pcre2_match`, ns | ratio | `pcre2_jit_match`, ns | ratio |\n|---|---|---|---|---|---|---|\n");
    compare("a lot line of 6 bytes", "(LOT),\",\",(TONS)", ".,.", "\\A(.*?),(.*)", "W7,120", 6);
    compare("four fields in 24 bytes", "three commas between four free fillers", ".,.,.,.", "\\A(.*?),(.*?),(.*?),(.*)",
            "W7,120,BARLEY-6,10495432", 24);
    compare("a comma at byte 1,000 of 1,024", "\",\"", ",", ",", comma, sizeof comma);
    compare("a literal of 4 bytes at byte 1,020 of 1,024", "\"LOTS\"", "LOTS", "LOTS", literal, sizeof literal);
    compare("16 bytes that nearly match all along 1,024", "fifteen \"A\" and a \"B\", in a row of \"A\"", "AAAAAAAAAAAAAAAB", "AAAAAAAAAAAAAAAB",
            nearly, sizeof nearly);
    compare("a scan that fails in 1,024 bytes", "(X),\"A\",(Y),\"B\", with an \"A\" and no \"B\"", ".A.B", "\\A(.*?)A(.*?)B", failing,
            sizeof failing);
    printf("\n| demanded: a ratio of at least 1 on every line | reached | |\n|---|---|---|\n");
    printf("| beside `pcre2_match` | on %d of %d | %s |\n", as_fast_as_checked, lines, met(as_fast_as_checked == lines));
    printf("| beside `pcre2_jit_match` | on %d of %d | %s |\n", as_fast_as_unchecked, lines, met(as_fast_as_unchecked == lines));
    return 0;
}
