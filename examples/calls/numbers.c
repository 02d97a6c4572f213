/* The numbers that no deck gets through the program `strigol`, 2, 13 to 16, 22 to 27 and 29, each by a call that a gateway could make by mistake;
   and 1, 4 and 21 by such calls too. Prints a line for each call: its number, the call, what was lent. docs/DECKS.md says what to do. */
#include "strigol.h"

#include <stdio.h>
#include <string.h>

static const char deck[] = "         PROGRAM COPY\n"
                           "NEXT     READ LINE /,DONE\n"
                           "         PRINT LINE\n"
                           "         GO TO NEXT\n"
                           "DONE     END\n";
static const uint8_t input[] = "W7,120\nB2,35\n";
static const size_t input_len = sizeof input - 1;

static uint8_t table[STRIGOL_TABLE_SIZE], store[STRIGOL_STORE_SIZE], output[100];
static uint64_t state[STRIGOL_STATE_SIZE], result[STRIGOL_RESULT_SIZE];
static uint32_t answer[STRIGOL_ANSWER_SIZE], card;

static void show(uint32_t number, const char *call_and_lent)
{
    printf("%2u %s\n", (unsigned)number, call_and_lent);
}

/* The deck read and a run of it started. */
static void start_anew(void)
{
    strigol_read((const uint8_t *)deck, sizeof deck - 1, table, sizeof table, &card);
    strigol_start(store, sizeof store, state);
}

static uint32_t step(size_t table_len, size_t taken_from)
{
    return strigol_step(table, table_len, store, sizeof store, state, input, taken_from, output, sizeof output, answer);
}

static uint32_t run(size_t output_len)
{
    return strigol_run(table, sizeof table, store, sizeof store, state, input, input_len, output, output_len, 1000, result);
}

static void decks_and_tables(void)
{
    static uint8_t long_deck[STRIGOL_DECK_MOST + 1];
    memset(long_deck, '\n', sizeof long_deck);
    show(strigol_read(long_deck, sizeof long_deck, table, sizeof table, &card), "read: a deck of 32,769 bytes");
    show(strigol_read((const uint8_t *)deck, sizeof deck - 1, table, sizeof table - 1, &card), "read: a table of 28,671 bytes");
    start_anew();
    show(step(sizeof table - 1, input_len), "step: a table of 28,671 bytes");
    show(strigol_read((const uint8_t *)"END", 3, table, sizeof table, &card), "read: a deck that is refused leaves a table of zeros");
    show(step(sizeof table, input_len), "step: that table");
}

static void stores_and_states(void)
{
    show(strigol_start(store, sizeof store - 1, state), "start: a store of 32,831 bytes");
    start_anew();
    store[0] = 1025 % 256;
    store[1] = 1025 / 256;
    show(step(sizeof table, input_len), "step: a store whose first string is 1,025 bytes long");
    start_anew();
    store[2] = 'W';
    show(step(sizeof table, input_len), "step: a store with a byte behind a null string");
    start_anew();
    step(sizeof table, input_len);
    show(step(sizeof table, 3), "step: 7 bytes of input are taken, and only 3 are lent now");
    start_anew();
    state[STRIGOL_NEXT] = 4;
    show(step(sizeof table, input_len), "step: a state at step 4 of a deck with steps 0 to 3");
    start_anew();
    run(sizeof output);
    show(step(sizeof table, input_len), "step: the run has finished");
    start_anew();
    show(run(7), "run: 7 bytes of output, for records of 7 and 6");
}

static void scans(void)
{
    static const uint8_t reference[STRIGOL_STRING_MOST + 1], values[] = "K";
    uint8_t rows[(STRIGOL_ELEMENTS_MOST + 1) * STRIGOL_ROW_SIZE];
    int i;
    for (i = 0; i <= STRIGOL_ELEMENTS_MOST; i++) strigol_put_element(rows + i * STRIGOL_ROW_SIZE, STRIGOL_FREE, 0, 0);
    show(strigol_scan(reference, 1025, values, 1, rows, STRIGOL_ROW_SIZE, answer), "scan: a reference of 1,025 bytes");
    show(strigol_scan(reference, 10, values, 1, rows, sizeof rows, answer), "scan: a pattern of 21 elements");
    rows[0] = 0;
    show(strigol_scan(reference, 10, values, 1, rows, STRIGOL_ROW_SIZE, answer), "scan: an element of kind 0");
    strigol_put_element(rows, STRIGOL_FIXED, (uint32_t)-1, 0);
    show(strigol_scan(reference, 10, values, 1, rows, STRIGOL_ROW_SIZE, answer), "scan: a fixed filler of length -1");
    strigol_put_element(rows, STRIGOL_STRING, 0, 2);
    show(strigol_scan(reference, 10, values, 1, rows, STRIGOL_ROW_SIZE, answer), "scan: a string of 2 bytes in values of 1");
}

static uint8_t contracts[STRIGOL_REGISTER_SIZE];

static uint32_t open_with(const char *currency)
{
    return strigol_register_open(contracts, sizeof contracts, (const uint8_t *)currency, strlen(currency));
}

static uint32_t offer(const char *line)
{
    return strigol_register_offer(contracts, sizeof contracts, (const uint8_t *)line, strlen(line));
}

static void registers(void)
{
    uint8_t line[STRIGOL_LINE_SIZE];
    uint32_t length;
    char contract[STRIGOL_LINE_SIZE];
    int i;
    show(offer("W7,WH,120,2150"), "offer: a register that isn't opened");
    show(open_with("eur"), "open: a house currency in lower case");
    show(strigol_register_open(contracts, sizeof contracts - 1, (const uint8_t *)"EURO", 4), "open: four letters, and a register of 8,191 bytes");
    show(strigol_register_open(contracts, sizeof contracts - 1, (const uint8_t *)"EUR", 3), "open: a register of 8,191 bytes");
    open_with("EUR");
    contracts[3] = 'O';
    show(strigol_register_line(contracts, sizeof contracts, 0, line, &length), "line: a register with a byte behind its house currency");
    contracts[3] = 0;
    show(offer("W7,WH,120,2150\n"), "offer: a line with its byte 10");
    show(offer("W7,WH,0120,2150"), "offer: tonnes with a leading zero");
    show(offer("W7,WH,120,2150,euro"), "offer: a currency that isn't three letters A-Z");
    offer("W7,WH,120,2150");
    show(strigol_register_report(contracts, sizeof contracts, output, 41, &length), "report: 41 bytes of output, for 42 of one line and its total");
    show(offer("W7,BA,35,1875,CHF"), "offer: another line of contract W7");
    for (i = 1; i < STRIGOL_LINES_MOST; i++) {
        snprintf(contract, sizeof contract, "C%d,WH,1,1", i);
        offer(contract);
    }
    show(offer("B2,BA,35,1875"), "offer: a line where 256 are held");
}

static void windows(void)
{
    static uint8_t window[STRIGOL_WINDOW_SIZE];
    uint64_t summary[STRIGOL_SUMMARY_SIZE];
    show(strigol_window_take(window, sizeof window - 1, 2150, summary), "take: a window of 255 bytes");
    show(strigol_window_take(window, sizeof window - 1, 0, summary), "take: price 0, and a window of 255 bytes");
    show(strigol_window_take(window, sizeof window, 0, summary), "take: price 0");
    show(strigol_window_take(window, sizeof window, 1000000, summary), "take: price 1,000,000");
    strigol_window_take(window, sizeof window, 2150, summary);
    strigol_window_take(window, sizeof window, 1875, summary);
    memset(window, 0, STRIGOL_PRICE_SIZE);
    show(strigol_window_ask(window, sizeof window, summary), "ask: a window whose first price is wiped out, and the second isn't");
}

int main(void)
{
    decks_and_tables();
    stores_and_states();
    scans();
    registers();
    windows();
    return 0;
}
