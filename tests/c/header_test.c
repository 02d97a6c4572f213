/* Tries what include/strigol.h says beyond the calls themselves: its sizes and places beside those of the oracle, the words for the numbers, and
   the functions that read and write the buffers' layouts, on document 01's deck LOTS and line P1; its example of a register, with the report;
   and a window's numbers and places. */
#include "decks.h"
#include "oracle.h"
#include "strigol.h"

#include <stdio.h>
#include <string.h>

#define SAME(ours, theirs) _Static_assert((int)(ours) == (int)(theirs), #ours " is " #theirs)
SAME(STRIGOL_DECK_MOST, MOST_DECK);
SAME(STRIGOL_TABLE_SIZE, TABLE_SIZE);
SAME(STRIGOL_STORE_SIZE, STORE_SIZE);
SAME(STRIGOL_STATE_SIZE, STATE_SIZE);
SAME(STRIGOL_ANSWER_SIZE, ANSWER_SIZE);
SAME(STRIGOL_RESULT_SIZE, RESULT_SIZE);
SAME(STRIGOL_REGISTER_SIZE, REGISTER_SIZE);
SAME(STRIGOL_LINE_SIZE, LINE_SIZE);
SAME(STRIGOL_LINES_MOST, MOST_LINES);
SAME(STRIGOL_CURRENCY_SIZE, CURRENCY_SIZE);
SAME(STRIGOL_REPORT_MOST, MOST_REPORT);
SAME(STRIGOL_WINDOW_SIZE, WINDOW_SIZE);
SAME(STRIGOL_PRICES_MOST, MOST_PRICES);
SAME(STRIGOL_PRICE_SIZE, PRICE_SIZE);
SAME(STRIGOL_PRICE_LIMIT, PRICE_LIMIT);
SAME(STRIGOL_SUMMARY_SIZE, SUMMARY_SIZE);
SAME(STRIGOL_STRING_MOST, MOST_STRING);
SAME(STRIGOL_STRINGS, MOST_STRINGS);
SAME(STRIGOL_CELL_SIZE, CELL_SIZE);
SAME(STRIGOL_NUMBERS, MOST_NUMBERS);
SAME(STRIGOL_LIMIT, LIMIT);
SAME(STRIGOL_HELD_MOST, MOST_HELD);
SAME(STRIGOL_ELEMENTS_MOST, MOST_ROW);
SAME(STRIGOL_ROW_SIZE, SCAN_ROW);
SAME(STRIGOL_STRING_COUNT_AT, COUNTS_AT + 2 * STRING_COUNT);
SAME(STRIGOL_NUMBER_COUNT_AT, COUNTS_AT + 2 * NUMBER_COUNT);
SAME(STRIGOL_STEPS_AT, STEPS_AT);
SAME(STRIGOL_STEP_SIZE, ROW_SIZE);
SAME(STRIGOL_STEPS_MOST, MOST_STEPS);
SAME(STRIGOL_CARD_AT, CARD_AT);
SAME(STRIGOL_STATUS, STATUS_AT);
SAME(STRIGOL_NEXT, NEXT_AT);
SAME(STRIGOL_HELD, HELD_AT);
SAME(STRIGOL_TAKEN, TAKEN_AT);
SAME(STRIGOL_PUT, PUT_AT);
SAME(STRIGOL_HELD_AT, RETURNS_AT);
SAME(STRIGOL_NUMBERS_AT, NUMBERS_AT);
SAME(STRIGOL_SPLIT, SPLIT_AT);
SAME(STRIGOL_START, START_AT);
SAME(STRIGOL_TRIALS, TRIALS_AT);
SAME(STRIGOL_NOTES, NOTES_AT);
SAME(STRIGOL_LENGTHS_AT, LENGTHS_AT);
SAME(STRIGOL_OUTCOME, OUTCOME_AT);
SAME(STRIGOL_BY, BY_AT);
SAME(STRIGOL_DONE, DONE_AT);
SAME(STRIGOL_NOTED, NOTED_AT);
SAME(STRIGOL_PRICES_HELD, COUNT_AT);
SAME(STRIGOL_LOWEST, LOWEST_AT);
SAME(STRIGOL_HIGHEST, HIGHEST_AT);
SAME(STRIGOL_SUM, SUM_AT);
SAME(STRIGOL_STRING, SCAN_STRING);
SAME(STRIGOL_FIXED, SCAN_FIXED);
SAME(STRIGOL_FREE, SCAN_FREE);
SAME(STRIGOL_BAD_REGISTER, 14);
SAME(STRIGOL_BAD_WINDOW, 14);
SAME(STRIGOL_OUTPUT_FULL, 21);
SAME(STRIGOL_BAD_LINE, 25);
SAME(STRIGOL_BAD_PRICE, 25);
SAME(STRIGOL_CONTRACT_HELD, 26);
SAME(STRIGOL_REGISTER_FULL, 27);
SAME(STRIGOL_BAD_CURRENCY, 29);
SAME(STRIGOL_LAST_NUMBER, 29);
_Static_assert(STRIGOL_BIAS == (uint64_t)BIAS, "STRIGOL_BIAS is BIAS");

static int failures;

static void expect(int holds, const char *what)
{
    if (holds) return;
    printf("header test: %s\n", what);
    failures++;
}

static void words(void)
{
    expect(strigol_words(0)[0] == 0 && strigol_words(STRIGOL_LAST_NUMBER + 1)[0] == 0, "a number that is none has words");
    for (uint32_t i = 1; i <= STRIGOL_LAST_NUMBER; i++) expect((strigol_words(i)[0] != 0) == (i != 28), "a number without words, or words of 28");
    expect(strcmp(strigol_words(STRIGOL_ZERO_DIVISOR), "a divisor is zero") == 0, "the words of 18");
    expect(strstr(strigol_words(STRIGOL_BAD_REGISTER), "under 8,192 bytes or against its written rules") != NULL, "the words of 14");
    expect(strstr(strigol_words(STRIGOL_BAD_WINDOW), "the window is under 256 bytes or against its written rules") != NULL, "those of a window");
    expect(strstr(strigol_words(STRIGOL_OUTPUT_FULL), "the output can't hold the register's report") != NULL, "the words of 21");
    expect(strcmp(strigol_words(STRIGOL_BAD_LINE), "a line breaks its form; or a price given to the window is outside 1 to 999,999") == 0,
           "the words of 25");
    expect(strcmp(strigol_words(STRIGOL_CONTRACT_HELD), "its contract is held already") == 0, "the words of 26");
    expect(strcmp(strigol_words(STRIGOL_REGISTER_FULL), "256 lines are held") == 0, "the words of 27");
    expect(strcmp(strigol_words(STRIGOL_BAD_CURRENCY), "the house currency given isn't three letters A-Z") == 0, "the words of 29");
}

static void elements(void)
{
    static const uint8_t reference[] = "ABCDEFGHIJKLMNOP", values[] = "K";
    static const uint32_t right[] = {1, 0, 7, 0, 5, 5, 1, 5};
    uint8_t rows[4 * STRIGOL_ROW_SIZE];
    uint32_t answer[STRIGOL_ANSWER_SIZE];
    strigol_put_element(rows, STRIGOL_FIXED, 5, 0);
    strigol_put_element(rows + STRIGOL_ROW_SIZE, STRIGOL_FREE, 0, 0);
    strigol_put_element(rows + 2 * STRIGOL_ROW_SIZE, STRIGOL_STRING, 0, 1);
    strigol_put_element(rows + 3 * STRIGOL_ROW_SIZE, STRIGOL_FREE, 0, 0);
    expect(strigol_scan(reference, 16, values, 1, rows, sizeof rows, answer) == STRIGOL_OK, "P1 is turned down");
    expect(memcmp(answer, right, sizeof right) == 0, "P1's answer");
    strigol_put_element(rows, STRIGOL_FIXED, 0x80000000u, 0);
    expect(strigol_scan(reference, 16, values, 1, rows, sizeof rows, answer) == STRIGOL_BAD_ELEMENT, "a negative filler is taken");
}

static int is_string(const uint8_t *store, unsigned place, const char *right)
{
    size_t n;
    const uint8_t *s = strigol_string_in(store, place, &n);
    return n == strlen(right) && memcmp(s, right, n) == 0;
}

static void buffers(void)
{
    static uint8_t deck[STRIGOL_DECK_MOST];
    static const uint8_t input[] = "W7,120\nNOTE\nB2,-250\n";
    static uint8_t table[STRIGOL_TABLE_SIZE], store[STRIGOL_STORE_SIZE], output[100];
    uint64_t state[STRIGOL_STATE_SIZE], result[STRIGOL_RESULT_SIZE];
    uint32_t answer[STRIGOL_ANSWER_SIZE], card;
    const size_t taken = sizeof input - 1;
    long deck_len = file_bytes("examples/lots", ".deck", deck, sizeof deck);
    expect(deck_len >= 0, "LOTS isn't there");
    expect(strigol_read(deck, (size_t)deck_len, table, sizeof table, &card) == STRIGOL_OK && card == 0, "LOTS is refused");
    expect(table[STRIGOL_STRING_COUNT_AT] == 3 && table[STRIGOL_NUMBER_COUNT_AT] == 1, "its strings and numbers");
    expect(strigol_start(store, sizeof store, state) == STRIGOL_OK && state[STRIGOL_STATUS] == STRIGOL_RUNNING, "starting");
    for (uint64_t step = 0; step < 6; step++) expect(strigol_card_of(table, step) == step + 3, "a card");
    expect(strigol_run(table, sizeof table, store, sizeof store, state, input, taken, output, sizeof output, 4, result) == 0, "a run");
    expect(result[STRIGOL_OUTCOME] == STRIGOL_SPENT && result[STRIGOL_DONE] == 4, "four steps");
    expect(state[STRIGOL_TAKEN] == 7 && state[STRIGOL_PUT] == 8 && state[STRIGOL_NEXT] == 4, "the state behind four steps");
    expect(strigol_number_in(state, 0) == 120 && is_string(store, 0, "W7,120") && is_string(store, 1, "W7"), "values behind four steps");
    strigol_run(table, sizeof table, store, sizeof store, state, input, taken, output, sizeof output, 1000, result);
    expect(result[STRIGOL_OUTCOME] == STRIGOL_FINISHED && result[STRIGOL_BY] == 0 && result[STRIGOL_NOTED] == 0, "the run's end");
    expect(strigol_number_in(state, 0) == -130 && is_string(store, 2, "-250") && is_string(store, 31, ""), "values at the end");
    expect(state[STRIGOL_STATUS] == STRIGOL_ENDED && state[STRIGOL_NEXT] == 5, "the state at the end");
    expect(strigol_run(table, sizeof table, store, sizeof store, state, input, taken, output, sizeof output, 9, result) == STRIGOL_RUN_ENDED,
           "a run behind the end gives 16");
    expect(result[STRIGOL_OUTCOME] == STRIGOL_REFUSED && result[STRIGOL_BY] == STRIGOL_RUN_ENDED && result[STRIGOL_DONE] == 0, "its result");
    expect(strigol_step(table, sizeof table, store, sizeof store, state, input, taken, output, sizeof output, answer) == STRIGOL_RUN_ENDED,
           "a step behind the end gives 16");
    expect(answer[STRIGOL_SPLIT] == 0 && answer[STRIGOL_TRIALS] == 0, "its answer");
}

static void register_calls(void)
{
    static const uint8_t house[] = "EUR", offered[] = "A17,WH,250,19950", held[] = "A17,WH,250,19950,EUR";
    static const uint8_t report[] = "A17,WH,250,19950,EUR\nTOTAL,EUR,1,250,4987500\n";
    static uint8_t buffer[STRIGOL_REGISTER_SIZE], output[STRIGOL_REPORT_MOST];
    uint8_t line[STRIGOL_LINE_SIZE];
    uint32_t length;
    const size_t n = sizeof offered - 1, handed = sizeof held - 1, put = sizeof report - 1;
    expect(strigol_register_offer(buffer, sizeof buffer, offered, n) == STRIGOL_BAD_REGISTER, "the register is opened already");
    expect(strigol_register_open(buffer, sizeof buffer, house, 2) == STRIGOL_BAD_CURRENCY, "it is opened with two letters");
    expect(strigol_register_open(buffer, sizeof buffer - 1, house, STRIGOL_CURRENCY_SIZE) == STRIGOL_BAD_REGISTER, "a short buffer is opened");
    expect(strigol_register_open(buffer, sizeof buffer, house, STRIGOL_CURRENCY_SIZE) == STRIGOL_OK, "it isn't opened");
    expect(strigol_register_report(buffer, sizeof buffer, output, 0, &length) == STRIGOL_OK && length == 0, "a report of no line has bytes");
    expect(strigol_register_offer(buffer, sizeof buffer, offered, n) == STRIGOL_OK, "the line is declined");
    expect(strigol_register_offer(buffer, sizeof buffer, held, handed) == STRIGOL_CONTRACT_HELD, "it is taken again");
    expect(strigol_register_offer(buffer, sizeof buffer, offered, n - 6) == STRIGOL_BAD_LINE, "it is taken without a price");
    expect(strigol_register_line(buffer, sizeof buffer, 0, line, &length) == STRIGOL_OK && length == handed, "the line isn't handed out");
    expect(memcmp(line, held, handed) == 0 && line[handed] == 0 && line[STRIGOL_LINE_SIZE - 1] == 0, "its bytes");
    expect(strigol_register_line(buffer, sizeof buffer, 1, line, &length) == STRIGOL_OK && length == 0 && line[0] == 0, "there is a second line");
    expect(strigol_register_line(buffer, sizeof buffer - 1, 0, line, &length) == STRIGOL_BAD_REGISTER && length == 0, "a short buffer is taken");
    expect(strigol_register_report(buffer, sizeof buffer, output, put - 1, &length) == STRIGOL_OUTPUT_FULL && length == 0, "a short output is taken");
    expect(strigol_register_report(buffer, sizeof buffer, output, sizeof output, &length) == STRIGOL_OK && length == put, "there is no report");
    expect(memcmp(output, report, put) == 0 && output[put] == 0, "its bytes");
    expect(strigol_register_report(buffer, 1, output, sizeof output, &length) == STRIGOL_BAD_REGISTER && length == 0, "a short buffer is reported");
}

static int is_summary(const uint64_t *summary, uint64_t held, uint64_t lowest, uint64_t highest, uint64_t sum)
{
    return summary[STRIGOL_PRICES_HELD] == held && summary[STRIGOL_LOWEST] == lowest && summary[STRIGOL_HIGHEST] == highest &&
           summary[STRIGOL_SUM] == sum;
}

static void window_calls(void)
{
    uint8_t window[STRIGOL_WINDOW_SIZE] = {0};
    uint64_t summary[STRIGOL_SUMMARY_SIZE];
    const size_t n = sizeof window;
    expect(strigol_window_ask(window, n, summary) == STRIGOL_OK && is_summary(summary, 0, 0, 0, 0), "zeros aren't the empty window");
    expect(strigol_window_take(window, n, 19950, summary) == STRIGOL_OK && is_summary(summary, 1, 19950, 19950, 19950), "a price isn't taken");
    expect(window[0] == 19950 % 256 && window[1] == 19950 / 256 && window[STRIGOL_PRICE_SIZE] == 0, "the low byte isn't first");
    expect(strigol_window_take(window, n, 1000000, summary) == STRIGOL_BAD_PRICE && is_summary(summary, 0, 0, 0, 0), "1,000,000 is taken");
    expect(strigol_window_take(window, n, 0, summary) == STRIGOL_BAD_PRICE && is_summary(summary, 0, 0, 0, 0), "0 is taken");
    expect(strigol_window_ask(window, n, summary) == STRIGOL_OK && is_summary(summary, 1, 19950, 19950, 19950), "the price isn't held");
    for (int i = 0; i < STRIGOL_PRICES_MOST; i++) strigol_window_take(window, n, STRIGOL_PRICE_LIMIT, summary);
    expect(is_summary(summary, STRIGOL_PRICES_MOST, STRIGOL_PRICE_LIMIT, STRIGOL_PRICE_LIMIT, 31999968), "the first of 33 prices hasn't left");
    expect(strigol_window_take(window, n - 1, 0, summary) == STRIGOL_BAD_WINDOW && is_summary(summary, 0, 0, 0, 0), "a short window is taken");
    expect(strigol_window_ask(window, n - 1, summary) == STRIGOL_BAD_WINDOW && is_summary(summary, 0, 0, 0, 0), "a short window is asked");
    window[n - 1] = 1;
    expect(strigol_window_ask(window, n, summary) == STRIGOL_BAD_WINDOW && is_summary(summary, 0, 0, 0, 0), "2^56 is held");
}

int main(void)
{
    words();
    elements();
    buffers();
    register_calls();
    window_calls();
    printf("header test: %d failures\n", failures);
    return failures != 0;
}
