/* A second reader and interpreter of STRIGOL decks, a second register of contract lines and a second window of prices, to test the calls against.
   They follow documents 01 and 02 sentence by sentence; the sentences' numbers (C1, Q3, W2.4, ..) are those of docs/PAPER.md. They say what is right
   and take no care to be fast. */
#ifndef ORACLE_H
#define ORACLE_H

#include <stddef.h>
#include <stdint.h>

enum {
    MOST_DECK = 32768, MOST_STEPS = 256, MOST_STRINGS = 32, MOST_NUMBERS = 32, MOST_LABELS = 64, MOST_ROUTINES = 16,
    MOST_ROW = 20, MOST_ELEMENTS = 1024, MOST_ITEMS = 1024, MOST_LITERALS = 4096, MOST_DEPTH = 16, MOST_NAME = 8,
    MOST_STRING = 1024, MOST_HELD = 16, MOST_WAITING = 64, LIMIT = 8388607,
    TABLE_SIZE = 28672, STORE_SIZE = 32832, CELL_SIZE = 1026, STATE_SIZE = 64, ANSWER_SIZE = 24, RESULT_SIZE = 4,
    REGISTER_SIZE = 8192, MOST_LINES = 256, LINE_SIZE = 32, CURRENCY_SIZE = 3, PRICE_LIMIT = 999999,
    WINDOW_SIZE = 256, MOST_PRICES = 32, SUMMARY_SIZE = 4
};

/* The longest line is ZZZZZZZZ,ZZ,99999,999999,ZZZ, the longest TOTAL line TOTAL,ZZZ,256,25599744,25599718400256, and byte 10 ends each. No report is
   longer than 256 of both. The longest one has 256 lines and as many currencies; there a TOTAL line is TOTAL,ZZZ,1,99999,99998900001. */
enum {
    LONGEST_LINE = 28, LONGEST_TOTAL = 37, LONE_TOTAL = 29,
    MOST_REPORT = MOST_LINES * (LONGEST_LINE + 1 + LONGEST_TOTAL + 1), LONGEST_REPORT = MOST_LINES * (LONGEST_LINE + 1 + LONE_TOTAL + 1)
};

/* The layouts of docs/TABLE.md: the table's counts and regions, its rows and cells; places in a state, an answer and a result; a row lent to the
   scan call. That of docs/REGISTER.md: the slots of a register, behind its header. That of docs/WINDOW.md: a price in a window. Places in a window's
   summary. */
enum {
    COUNTS_AT = 2, COUNTS_END = 14, STEPS_AT = 64, ELEMENTS_AT = 6208, ITEMS_AT = 14400, LITERALS_AT = 22592, LITERALS_END = 26688,
    ROW_SIZE = 24, CARD_AT = 2, SUCCESS_AT = 4, FAILURE_AT = 6, CELL = 8,
    STATUS_AT = 0, NEXT_AT, HELD_AT, TAKEN_AT, PUT_AT, RETURNS_AT, NUMBERS_AT = 21, NUMBERS_END = 53,
    SPLIT_AT = 0, START_AT, TRIALS_AT, NOTES_AT, LENGTHS_AT,
    OUTCOME_AT = 0, BY_AT, DONE_AT, NOTED_AT,
    SCAN_ROW = 12, SCAN_FIRST_AT = 4, SCAN_SECOND_AT = 8,
    SLOTS_AT = 1024, SLOT_SIZE = 28,
    PRICE_SIZE = 8,
    COUNT_AT = 0, LOWEST_AT, HIGHEST_AT, SUM_AT
};

/* The kinds of a table's cells. */
enum cell_kind {
    NO_CELL, ADD_CELL = 16, SUBTRACT_CELL, MULTIPLY_CELL, DIVIDE_CELL, PLUS_CELL = 24, MINUS_CELL,
    CONSTANT_CELL = 32, NUMBER_CELL, LENGTH_CELL, VALUE_CELL = 36, CONSTANT_VALUE, VARIABLE_VALUE,
    STRING_CELL = 64, CONSTANT_PART, VARIABLE_PART, LITERAL_CELL = 80, CONSTANT_TEXT, VARIABLE_TEXT,
    FREE_CELL = 96, CONSTANT_FIXED, VARIABLE_FIXED, RANGE_CELL = 112
};

enum count { STEP_COUNT, STRING_COUNT, NUMBER_COUNT, ELEMENT_COUNT, ITEM_COUNT, LITERAL_COUNT, COUNTS };
#define BIAS ((int64_t)1 << 47)

/* A length behind `$`: none, a constant or a number. */
enum bound { WHOLE, CONSTANT, VARIABLE };

/* S or S$n: the string's place; n is the constant, or the number's place. */
struct part { int string; enum bound bound; int32_t n; };

/* What an expression or IF takes as a number. `number` is a place; `part` is what LENGTH and NUMBER look at. */
enum operand_kind { OPERAND_CONSTANT, OPERAND_NUMBER, OPERAND_LENGTH, OPERAND_VALUE };
struct operand { enum operand_kind kind; int32_t constant; int number; struct part part; };

/* An item of a numeric expression in postfix: an operand, an operator behind its two sides, a sign behind the first term. */
enum item_kind { ITEM_OPERAND, ITEM_ADD, ITEM_SUBTRACT, ITEM_MULTIPLY, ITEM_DIVIDE, ITEM_PLUS, ITEM_MINUS };
struct item { enum item_kind kind; struct operand operand; };

/* An element of a string expression or pattern. A literal is `length` bytes from `from` on. STRING(n,m) has m's place in `number`, and n in
   `bound` and `n`. A filler's name is `part.string`, its length, if fixed, the part's bound. */
enum element_kind { ELEMENT_LITERAL, ELEMENT_PART, ELEMENT_TEXT, ELEMENT_FREE, ELEMENT_FIXED };
struct element { enum element_kind kind; int from, length; struct part part; int number; enum bound bound; int32_t n; };

/* The kinds of steps, with the numbers of docs/TABLE.md. SCANS has no replacement, REPLACES is a scan that has one. */
enum step_kind {
    SET_NUMBER = 16, SET_STRING, GOES = 32, FINISHES, EXECUTES, RETURNS, IF_NULL = 48, IF_NUMERIC, IF_COMPARES, SCANS = 64, REPLACES,
    READS = 80, WRITES
};
enum comparison { EQUAL = 1, UNEQUAL, LESS, GREATER, AT_MOST, AT_LEAST };

/* One step. `first`, `count`, `more`: its items; or its elements, `more` being those of a replacement behind the pattern. */
struct step {
    enum step_kind kind;
    uint32_t card;
    int success, failure;
    int number;
    struct part part;
    struct operand left, right;
    enum comparison comparison;
    int backwards;
    int first, count, more;
};

/* The program of an accepted deck. Strings are in order of first appearance, numbers in order of declaration. */
struct oracle_program {
    int steps, strings, numbers, elements, items, literals;
    struct step step[MOST_STEPS];
    struct element element[MOST_ELEMENTS];
    struct item item[MOST_ITEMS];
    uint8_t literal[MOST_LITERALS];
    char string_name[MOST_STRINGS][MOST_NAME + 1], number_name[MOST_NUMBERS][MOST_NAME + 1];
};

struct text { int length; uint8_t bytes[MOST_STRING]; };

/* The run's state. It can hold any state lent, also one that is out of range. */
enum { RUNNING, FINISHED, STOPPED };
struct machine {
    uint64_t status, next, held, taken, put, returns[MOST_HELD];
    int64_t numbers[MOST_NUMBERS];
    struct text strings[MOST_STRINGS];
};

/* What a step answers. */
struct answer { int number; uint32_t notes, trials; int found, start, pieces, lengths[MOST_ROW]; };

/* An element of a scan once its value is known; the kinds have the numbers of a row lent to the scan call. */
enum scan_kind { SCAN_STRING = 1, SCAN_FIXED, SCAN_FREE };
struct scan_element { enum scan_kind kind; int length; const uint8_t *bytes; };

/* reader.c: the number and card of a deck: 0 with its program, 1, or 3 to 12. */
int oracle_read(const uint8_t *deck, size_t n, struct oracle_program *p, uint32_t *card);

/* table.c: whether a step of this kind is a scan, and whether it has a string or substring. A number of so many bytes, the low byte first; a count
   of a table. The table of a program; whether bytes keep the rules of a table; the program of a table that keeps them. */
int is_scan(enum step_kind kind);
int has_part(enum step_kind kind);
void put_number(uint8_t *at, int bytes, uint64_t n);
uint64_t get_number(const uint8_t *at, int bytes);
uint64_t count_in(const uint8_t *table, enum count count);
void oracle_table(const struct oracle_program *p, uint8_t table[TABLE_SIZE]);
int oracle_keeps(const uint8_t table[TABLE_SIZE]);
void oracle_program_of(const uint8_t table[TABLE_SIZE], struct oracle_program *p);

/* interpreter.c: the machine before the first step; one step of it; a scan, which sets found, start, lengths, pieces and trials. */
void oracle_fresh(struct machine *m);
void oracle_step(const struct oracle_program *p, struct machine *m, const uint8_t *input, size_t input_len, uint8_t *output,
                 size_t output_len, struct answer *a);
void oracle_scan(const uint8_t *reference, int n, const struct scan_element *e, int count, struct answer *a);

/* calls.c: the calls over byte slices and numbers, as docs/TABLE.md lays them out; the machine that a sound store and a state hold. */
void oracle_store(const struct machine *m, uint8_t store[STORE_SIZE]);
void oracle_state(const struct machine *m, uint64_t state[STATE_SIZE]);
void oracle_machine_of(const uint8_t store[STORE_SIZE], const uint64_t state[STATE_SIZE], struct machine *m);
void oracle_answer(const struct answer *a, uint32_t numbers[ANSWER_SIZE]);
uint32_t oracle_read_call(const uint8_t *deck, size_t n, uint8_t *table, size_t table_len, uint32_t *card);
uint32_t oracle_start_call(uint8_t *store, size_t store_len, uint64_t *state);
uint32_t oracle_step_call(const uint8_t *table, size_t table_len, uint8_t *store, size_t store_len, uint64_t *state, const uint8_t *input,
                          size_t input_len, uint8_t *output, size_t output_len, uint32_t *answer);
uint32_t oracle_scan_call(const uint8_t *reference, size_t reference_len, const uint8_t *values, size_t values_len, const uint8_t *elements,
                          size_t elements_len, uint32_t *answer);
void oracle_run_call(const uint8_t *table, size_t table_len, uint8_t *store, size_t store_len, uint64_t *state, const uint8_t *input,
                     size_t input_len, uint8_t *output, size_t output_len, uint32_t count, uint64_t *result);

/* costs.c: of a call that gives 0, the most trials that W8.2 lets it make: of a step, told by program and machine or by what is lent, 0 if it is no
   scan; of a scan call, told by its reference's length and the rows lent. */
uint32_t oracle_most_trials(const struct oracle_program *p, const struct machine *m);
uint32_t oracle_most_in_step(const uint8_t table[TABLE_SIZE], const uint8_t store[STORE_SIZE], const uint64_t state[STATE_SIZE]);
uint32_t oracle_most_in_scan(size_t reference_len, const uint8_t *elements, size_t elements_len);

/* register.c: how many slots stand before the first empty one, whatever is in them, and the register's calls. */
uint64_t oracle_register_lines(const uint8_t buffer[REGISTER_SIZE]);
uint32_t oracle_register_open(uint8_t *buffer, size_t buffer_len, const uint8_t *currency, size_t currency_len);
uint32_t oracle_register_offer(uint8_t *buffer, size_t buffer_len, const uint8_t *line, size_t line_len);
uint32_t oracle_register_line(const uint8_t *buffer, size_t buffer_len, uint64_t place, uint8_t *line, uint32_t *length);
uint32_t oracle_register_report(const uint8_t *buffer, size_t buffer_len, uint8_t *output, size_t output_len, uint32_t *length);

/* window.c: the window's calls. */
uint32_t oracle_window_take(uint8_t *window, size_t window_len, uint64_t price, uint64_t *summary);
uint32_t oracle_window_ask(const uint8_t *window, size_t window_len, uint64_t *summary);

#endif
