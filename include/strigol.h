/* strigol.h: the calls of the proved STRIGOL library, for C and C++. Link libstrigol.a; nothing else is needed.

   STRIGOL decks cut trade lines into fields. A gateway reads a deck into a table once, starts a store and a state for each run, and then steps
   or runs:

       uint32_t number = strigol_read(deck, deck_len, table, sizeof table, &card);     0, or the deck is refused
       strigol_start(store, sizeof store, state);
       strigol_run(table, sizeof table, store, sizeof store, state, input, input_len, output, sizeof output, 1000000, result);

   The lines that a finished run put can be kept in a register of contracts, one call a line, once it is opened with the house currency. They are
   handed out again by their places, and reported with the totals of each currency:

       strigol_register_open(buffer, sizeof buffer, (const uint8_t *)"EUR", 3);                all zeros at first, or a register from before
       uint32_t number = strigol_register_offer(buffer, sizeof buffer, record, record_len);    0, or the line is declined
       strigol_register_line(buffer, sizeof buffer, place, line, &length);
       strigol_register_report(buffer, sizeof buffer, report, sizeof report, &length);

   The last 32 prices of a grain and currency can be watched in a window, one call a price:

       uint32_t number = strigol_window_take(window, sizeof window, price, summary);           all zeros at first; count, lowest, highest, sum

   What the caller must ensure, since no call can find it out:
   - A pointer is not NULL, not even with length 0, and what it points at is as long as the length says. Two buffers lent to one call don't
     overlap. State, answer, result, summary and the line handed out have their fixed sizes. A buffer may be longer than it need be; the bytes
     past its size stay.
   - There is stack enough: 1.2 MB for strigol_read, 60 KB for the others.

   What holds then of every call:
   - It takes any bytes and numbers, and ends. What it can't use gets a number, the lowest of the list below that applies, but 29 before all others;
     0 is success.
   - It keeps nothing, allocates nothing, prints nothing. All it knows is lent by the caller; one table may serve many runs at once, each
     with its own store, state and output, in threads of their own.
   - The numbers are those of documents 01 and 02, the layouts those of docs/TABLE.md, docs/REGISTER.md and docs/WINDOW.md, installed under
     share/doc/strigol. */
#ifndef STRIGOL_H
#define STRIGOL_H

#include <limits.h>
#include <stddef.h>
#include <stdint.h>

/* State, answer, result, line and summary are arrays of a fixed size, lent by the address of their first number. The compiler tells an array that
   is too short: in C by a warning (so build with -Werror), in C++ by an error. Behind a pointer it can't see how many numbers there are; there
   the caller must know. */
#ifdef __cplusplus
#define STRIGOL_CHECK(fact, words) static_assert(fact, words)
template <typename number, size_t size> struct strigol_lent {
    number *first;
    template <size_t length> strigol_lent(number (&numbers)[length]) : first(numbers)
    {
        static_assert(length >= size, "this array is too short to be lent");
    }
    template <typename pointed> strigol_lent(pointed *const &pointer) : first(pointer) {}
    operator number *() const { return first; }
};
#define STRIGOL_LENT(number, name, size) strigol_lent<number, size> name
extern "C" {
#else
#define STRIGOL_CHECK(fact, words) _Static_assert(fact, words)
#define STRIGOL_LENT(number, name, size) number name[static size]
#endif

/* The numbers that a call gives, and the documents' words for each. 1 to 12 refuse a deck, 13 to 16 (and 2) turn a step down, 17 to 21 stop
   it, 22 to 24 turn a scan call down, 14, 21, 25 to 27 and 29 a call of the register, 14 and 25 one of the window. 28 is given by none.

   1, 2           strigol_read leaves the table as it was.
   3 to 12        strigol_read leaves a table of zeros, which every step turns down by 13.
   2, 13 to 16    strigol_step changes nothing. strigol_start gives 14 with a good state if the store is too small, and leaves the store.
   17 to 21       strigol_step sets the state's status to stopped and changes nothing else.
   14, 29         strigol_register_open changes nothing. Until it has given 0, the other calls on that register give 14.
   14, 25 to 27   strigol_register_offer changes nothing. strigol_register_line gives 14 with the empty line.
   14, 21         strigol_register_report puts nothing, and sets the length to 0.
   14, 25         strigol_window_take changes nothing, and like strigol_window_ask, which gives 14 alone, it answers four zeros. */
#define STRIGOL_NUMBER_LIST(X)                                                                                                                 \
    X(STRIGOL_DECK_TOO_LONG, 1, "the deck exceeds 32,768 bytes")                                                                               \
    X(STRIGOL_TABLE_TOO_SMALL, 2, "the table has under 28,672 bytes")                                                                          \
    X(STRIGOL_BAD_CARD, 3,                                                                                                                     \
      "a byte is refused, a line exceeds 80, column 9 is / outside a comment, or a joined line is a comment, blank or missing")               \
    X(STRIGOL_BAD_ORDER, 4, "PROGRAM isn't first or comes twice, END is missing, or a statement follows it")                                  \
    X(STRIGOL_BAD_FORM, 5, "the statement or a label breaks its form, or a constant its range")                                               \
    X(STRIGOL_TWO_PURPOSES, 6, "a name has two purposes, or a label, routine or number is declared twice")                                    \
    X(STRIGOL_NOT_DECLARED, 7, "a name used as a number isn't declared before")                                                               \
    X(STRIGOL_BAD_FILLER, 8, "the reference is also a filler, or a pattern string has the name of a filler left of it")                       \
    X(STRIGOL_BAD_ROUTINE, 9, "ROUTINE or END stands inside a routine, RETURN or ENDROUTINE outside")                                         \
    X(STRIGOL_TOO_MANY, 10,                                                                                                                    \
      "a count passes 256 statements, 32 strings, 32 numbers, 64 labels or 16 routines declared, 20 elements in an expression, "              \
      "1,024 elements, 1,024 operands and + - * / in numeric expressions, or 4,096 literal bytes")                                            \
    X(STRIGOL_BAD_TARGET, 11, "a label or routine used is undefined, or a branch crosses a routine's border")                                 \
    X(STRIGOL_RECURSION, 12, "a routine executes itself, directly or through others")                                                         \
    X(STRIGOL_BAD_TABLE, 13, "the table breaks its written rules")                                                                             \
    X(STRIGOL_BAD_STORE, 14,                                                                                                                   \
      "the store is under 32,832 bytes, a length exceeds 1,024, or a byte behind it isn't zero; or the register's buffer is under 8,192 "     \
      "bytes or against its written rules, or the register isn't opened; or the window is under 256 bytes or against its written rules")       \
    X(STRIGOL_BAD_STATE, 15,                                                                                                                   \
      "the state's statement, held return or their count, number, input place or output length is out of range; or RETURN or ENDROUTINE "     \
      "comes next with no return held, or EXECUTE with 16 held")                                                                              \
    X(STRIGOL_RUN_ENDED, 16, "the run has finished or stopped")                                                                                \
    X(STRIGOL_NEGATIVE_LENGTH, 17, "the reference or READ length is negative")                                                                 \
    X(STRIGOL_ZERO_DIVISOR, 18, "a divisor is zero")                                                                                           \
    X(STRIGOL_OUT_OF_RANGE, 19, "a number leaves its range")                                                                                   \
    X(STRIGOL_STRING_TOO_LONG, 20, "a string to be stored, or |n| in STRING(n,m), exceeds 1,024 bytes")                                       \
    X(STRIGOL_OUTPUT_FULL, 21, "a record and its byte 10 exceed the output left; or the output can't hold the register's report")             \
    X(STRIGOL_REFERENCE_TOO_LONG, 22, "in the scan call, the reference exceeds 1,024 bytes")                                                  \
    X(STRIGOL_TOO_MANY_ELEMENTS, 23, "the pattern has over 20 elements")                                                                       \
    X(STRIGOL_BAD_ELEMENT, 24,                                                                                                                 \
      "an element has no known kind, a fixed filler's length is negative, or a string isn't a part of the values lent")                       \
    X(STRIGOL_BAD_LINE, 25, "a line breaks its form; or a price given to the window is outside 1 to 999,999")                                  \
    X(STRIGOL_CONTRACT_HELD, 26, "its contract is held already")                                                                               \
    X(STRIGOL_REGISTER_FULL, 27, "256 lines are held")                                                                                         \
    X(STRIGOL_BAD_CURRENCY, 29, "the house currency given isn't three letters A-Z")

/* The list is in order: its last number is the greatest. */
#define STRIGOL_NAMED(name, number, words) name = number,
enum strigol_number { STRIGOL_OK = 0, STRIGOL_NUMBER_LIST(STRIGOL_NAMED) STRIGOL_NUMBERS_END, STRIGOL_LAST_NUMBER = STRIGOL_NUMBERS_END - 1 };
#undef STRIGOL_NAMED
#define STRIGOL_BAD_REGISTER STRIGOL_BAD_STORE /* 14, as the register's calls give it */
#define STRIGOL_BAD_WINDOW STRIGOL_BAD_STORE   /* 14 and 25, as the window's calls give them */
#define STRIGOL_BAD_PRICE STRIGOL_BAD_LINE

/* The words for a number of the list; "" for any other. */
#define STRIGOL_WORDS(name, number, words)                                                                                                     \
    case number: return words;
static inline const char *strigol_words(uint32_t number)
{
    switch (number) {
        STRIGOL_NUMBER_LIST(STRIGOL_WORDS)
    default: return "";
    }
}
#undef STRIGOL_WORDS

/* Sizes. A state, an answer and a result are counted in numbers; what is a count of things says so; the others are in bytes. */
enum strigol_size {
    STRIGOL_DECK_MOST = 32768,  /* a longer deck gets 1 */
    STRIGOL_TABLE_SIZE = 28672, /* a smaller table gets 2 */
    STRIGOL_STORE_SIZE = 32832, /* a smaller store gets 14 */
    STRIGOL_STATE_SIZE = 64,    /* uint64_t */
    STRIGOL_ANSWER_SIZE = 24,   /* uint32_t */
    STRIGOL_RESULT_SIZE = 4,    /* uint64_t */

    STRIGOL_REGISTER_SIZE = 8192, /* a smaller buffer for a register gets 14 */
    STRIGOL_LINES_MOST = 256,     /* lines of a register */
    STRIGOL_LINE_SIZE = 32,       /* a line handed out, and zeros behind it */
    STRIGOL_CURRENCY_SIZE = 3,    /* a currency; a house currency of any other size gets 29 */
    STRIGOL_REPORT_MOST = 17152,  /* no report of a register is longer */

    STRIGOL_WINDOW_SIZE = 256,    /* a smaller window gets 14 */
    STRIGOL_PRICES_MOST = 32,     /* prices of a window */
    STRIGOL_PRICE_SIZE = 8,       /* a price in a window, low byte first */
    STRIGOL_PRICE_LIMIT = 999999, /* a price runs from 1 to this; any other gets 25 */
    STRIGOL_SUMMARY_SIZE = 4,     /* uint64_t */

    STRIGOL_STRING_MOST = 1024, /* a string, a record, a reference of the scan call */
    STRIGOL_STRINGS = 32,       /* strings of a store */
    STRIGOL_CELL_SIZE = 1026,   /* a string in the store: length in 2 bytes, low byte first; its bytes; zeros */
    STRIGOL_NUMBERS = 32,       /* numbers of a state */
    STRIGOL_LIMIT = 8388607,    /* a number runs from -STRIGOL_LIMIT to STRIGOL_LIMIT */
    STRIGOL_HELD_MOST = 16,     /* returns held in a state */

    STRIGOL_ELEMENTS_MOST = 20, /* elements of a pattern */
    STRIGOL_ROW_SIZE = 12,      /* an element lent to the scan call */

    STRIGOL_STRING_COUNT_AT = 4, /* the table's count of strings that the deck names, 2 bytes, low byte first */
    STRIGOL_NUMBER_COUNT_AT = 6, /* its count of numbers declared */
    STRIGOL_STEPS_AT = 64,      /* its steps: from this byte on, */
    STRIGOL_STEP_SIZE = 24,     /* a row of this size for each, */
    STRIGOL_STEPS_MOST = 256,   /* and at most so many */
    STRIGOL_CARD_AT = 2         /* in a row: the card of the statement, 2 bytes, low byte first */
};

/* The state: which number says what. A gateway reads it between steps; what it writes there itself is judged by 15 at the next step. */
enum strigol_state {
    STRIGOL_STATUS = 0,   /* STRIGOL_RUNNING, STRIGOL_ENDED, or any other for a run that was stopped */
    STRIGOL_NEXT = 1,     /* the next step; of a run that has ended, the step that ended it */
    STRIGOL_HELD = 2,     /* how many returns are held */
    STRIGOL_TAKEN = 3,    /* input place: how many bytes of the input are taken */
    STRIGOL_PUT = 4,      /* output length: how many bytes of the output are put */
    STRIGOL_HELD_AT = 5,  /* the returns held, the oldest first */
    STRIGOL_NUMBERS_AT = 21 /* the numbers, each with STRIGOL_BIAS added, in the order in which the deck declares them */
};
enum strigol_status { STRIGOL_RUNNING = 0, STRIGOL_ENDED = 1, STRIGOL_HALTED = 2 };
#define STRIGOL_BIAS ((uint64_t)1 << 47)

/* The answer of a scan call and of a step. Without a split, STRIGOL_START and the lengths are 0; a step that is stopped, turned down or
   holds no scan has no split and 0 trials. */
enum strigol_answer {
    STRIGOL_SPLIT = 0,      /* 1 with a split, 0 without */
    STRIGOL_START = 1,      /* the split's start in the reference; of a BACKSCAN, in the reference turned round */
    STRIGOL_TRIALS = 2,     /* trials made, also by a scan that failed: at most m * (n + 1), for m elements that aren't free fillers and
                               n bytes searched */
    STRIGOL_NOTES = 3,      /* the step's notes, such as one where READ cut its record; 0 in the scan call */
    STRIGOL_LENGTHS_AT = 4  /* 20 numbers: the length of each element's piece, then zeros */
};

/* The result of a run. */
enum strigol_result {
    STRIGOL_OUTCOME = 0,  /* one of the four below */
    STRIGOL_BY = 1,       /* the number that stopped or refused it, else 0 */
    STRIGOL_DONE = 2,     /* steps done; a finishing or stopping step counts, one turned down doesn't */
    STRIGOL_NOTED = 3     /* the notes of all steps done */
};
enum strigol_outcome {
    STRIGOL_FINISHED = 0, /* a step finished: END or EXIT */
    STRIGOL_STOPPED = 1,  /* a step was stopped by 17 to 21 */
    STRIGOL_SPENT = 2,    /* all steps were done; call again to go on */
    STRIGOL_REFUSED = 3   /* a step was turned down by 2 or 13 to 16 */
};

/* The summary of a window: which number says what. All are 0 where no price is held, and with 14 and 25. */
enum strigol_summary {
    STRIGOL_PRICES_HELD = 0, /* how many prices are held */
    STRIGOL_LOWEST = 1,      /* the lowest of them */
    STRIGOL_HIGHEST = 2,     /* the highest */
    STRIGOL_SUM = 3          /* their sum, at most 31,999,968 */
};

/* The kinds of elements lent to the scan call. */
enum strigol_element {
    STRIGOL_STRING = 1, /* the values from the first number up to, without, the second */
    STRIGOL_FIXED = 2,  /* a filler of as many bytes as the first number says */
    STRIGOL_FREE = 3    /* a filler of any length */
};

STRIGOL_CHECK(CHAR_BIT == 8 && sizeof(size_t) == 8 && sizeof(void *) == 8, "the library is built for x86-64");
STRIGOL_CHECK(STRIGOL_STORE_SIZE == STRIGOL_STRINGS * STRIGOL_CELL_SIZE, "a store is one cell for each string");
STRIGOL_CHECK(STRIGOL_CELL_SIZE == 2 + STRIGOL_STRING_MOST, "a cell is a length and a string");
STRIGOL_CHECK(STRIGOL_NUMBERS_AT == STRIGOL_HELD_AT + STRIGOL_HELD_MOST, "the numbers follow the returns");
STRIGOL_CHECK(STRIGOL_NUMBERS_AT + STRIGOL_NUMBERS <= STRIGOL_STATE_SIZE, "the numbers fit into a state");
STRIGOL_CHECK(STRIGOL_LENGTHS_AT + STRIGOL_ELEMENTS_MOST == STRIGOL_ANSWER_SIZE, "an answer has a length for each element");
STRIGOL_CHECK(STRIGOL_WINDOW_SIZE == STRIGOL_PRICES_MOST * STRIGOL_PRICE_SIZE, "a window is as many prices as it can hold");
STRIGOL_CHECK(STRIGOL_STEPS_AT + STRIGOL_STEPS_MOST * STRIGOL_STEP_SIZE <= STRIGOL_TABLE_SIZE, "the steps fit into a table");
STRIGOL_CHECK(STRIGOL_TABLE_SIZE + STRIGOL_STORE_SIZE == 61504, "what a step checks of table and store");

/* Reads a deck into the table: 0, or 1 to 12. `card` is set to the line that a refusal is about, counted from 1; 0 for an accepted deck, for
   1, 2, 11 and 12, and where END is missing. An accepted deck's table is for strigol_step and strigol_run; its layout is in TABLE.md. */
uint32_t strigol_read(const uint8_t *deck, size_t deck_len, uint8_t *table, size_t table_len, uint32_t *card);

/* Makes the store's first 32,832 bytes zero and the state that before the first step: 0. Of the store it looks at the size alone: 14 if it is
   too small; the store then stays and the state is set all the same. */
uint32_t strigol_start(uint8_t *store, size_t store_len, STRIGOL_LENT(uint64_t, state, STRIGOL_STATE_SIZE));

/* Makes the next step: 0, or 2 or 13 to 16 (turned down), or 17 to 21 (stopped). Table, store and state are checked each time. A record is
   taken from the input at the state's input place and put to the output at its output length; lend the same input and the same
   output to all steps of a run. After 0, state[STRIGOL_STATUS] tells whether the run has finished. */
uint32_t strigol_step(const uint8_t *table, size_t table_len, uint8_t *store, size_t store_len, STRIGOL_LENT(uint64_t, state, STRIGOL_STATE_SIZE),
                      const uint8_t *input, size_t input_len, uint8_t *output, size_t output_len, STRIGOL_LENT(uint32_t, answer, STRIGOL_ANSWER_SIZE));

/* Repeats the step until one finishes, stops or is turned down, or `count` are done. Leaves what these steps leave, and checks table and store
   only once. Gives result[STRIGOL_BY]. With `count` 0 nothing is looked at, and the outcome is STRIGOL_SPENT. */
uint32_t strigol_run(const uint8_t *table, size_t table_len, uint8_t *store, size_t store_len, STRIGOL_LENT(uint64_t, state, STRIGOL_STATE_SIZE),
                     const uint8_t *input, size_t input_len, uint8_t *output, size_t output_len, uint32_t count,
                     STRIGOL_LENT(uint64_t, result, STRIGOL_RESULT_SIZE));

/* Scans the reference by a pattern: 0, or 22 to 24. The pattern is one row of 12 bytes for each element, its strings are parts of `values`;
   the functions below write such rows. The answer is the first split that fits, or none. */
uint32_t strigol_scan(const uint8_t *reference, size_t reference_len, const uint8_t *values, size_t values_len, const uint8_t *elements,
                      size_t elements_len, STRIGOL_LENT(uint32_t, answer, STRIGOL_ANSWER_SIZE));

/* The register keeps contract lines, such as A17,WH,250,19950,EUR: contract (1 to 8 letters A-Z or digits), grain (two letters A-Z), tonnes (1 to
   99,999), price (1 to 999,999 cents per tonne) and currency (three letters A-Z), parted by commas, numbers in decimal without leading zeros. A line
   may be offered without its currency; it is then in the house currency. The lines stand in order of arrival in the first 8,192 bytes of a buffer,
   which is checked each time; all zeros is the register without a line, not opened yet. */

/* Opens the register with the house currency, three letters A-Z: 0; or 29, before all else, or 14, and nothing changes. A register that isn't opened
   yet may hold lines of four fields, from before there were currencies: the house currency is written behind each, and all else of them stays.
   Opening a register again changes the house currency alone: lines held keep theirs, lines of four fields offered from now on get the new one. */
uint32_t strigol_register_open(uint8_t *buffer, size_t buffer_len, const uint8_t *currency, size_t currency_len);

/* Offers a line of four or five fields, without byte 10, to the register: 0, and it is kept behind all others, one of four fields with the house
   currency written out; or 14, 25, 26, 27, and nothing changes. 26 goes by the contract alone, whatever the currency. */
uint32_t strigol_register_offer(uint8_t *buffer, size_t buffer_len, const uint8_t *line, size_t line_len);

/* Hands out the line of a place, counted from 0: 0, or 14. `line` gets the bytes of the line, five fields, and zeros behind them, `length` its
   length. Where no line stands, and with 14, the line is empty and its length 0; no line held is empty. */
uint32_t strigol_register_line(const uint8_t *buffer, size_t buffer_len, uint64_t place, STRIGOL_LENT(uint8_t, line, STRIGOL_LINE_SIZE),
                               uint32_t *length);

/* Puts the closing report of the register to the start of the output: 0; or 14, or 21 if the output can't hold it all, and nothing is put. The
   report is each line held, in order and as it is handed out, then for each currency held, in letter order, TOTAL,currency,count,tonnes,value: how
   many lines it has, the sum of their tonnes and that of tonnes times price, in cents. Byte 10 ends each of them. A register without a line has the
   report of 0 bytes. `length` is set to how many bytes were put, 0 with 14 and 21; the bytes of the output behind the report stay as they were. */
uint32_t strigol_register_report(const uint8_t *buffer, size_t buffer_len, uint8_t *output, size_t output_len, uint32_t *length);

/* The window holds the last 32 of the prices that it took, in cents per tonne, in order of arrival, in the first 256 bytes of a buffer, which is
   checked each time; all zeros is the empty window. Keep one for each grain and currency that is watched. */

/* Takes a price: 0, and `summary` is that of the prices held then; a 33rd pushes the first out. Or 14, or 25 for a price outside 1 to 999,999; then
   nothing changes, and the summary is four zeros. */
uint32_t strigol_window_take(uint8_t *window, size_t window_len, uint64_t price, STRIGOL_LENT(uint64_t, summary, STRIGOL_SUMMARY_SIZE));

/* Asks: 0, and `summary` is that of the prices held, four zeros of an empty window; or 14 and four zeros. */
uint32_t strigol_window_ask(const uint8_t *window, size_t window_len, STRIGOL_LENT(uint64_t, summary, STRIGOL_SUMMARY_SIZE));

/* What stands in the buffers. The place of a string is 0 to 31 in order of first appearance in the deck, that of a number 0 to 31 in order of
   declaration. */

/* The value of a number of the state. */
static inline int64_t strigol_number_in(STRIGOL_LENT(const uint64_t, state, STRIGOL_STATE_SIZE), unsigned place)
{
    return (int64_t)(state[STRIGOL_NUMBERS_AT + place] - STRIGOL_BIAS);
}

/* The bytes of a string of the store, and its length. */
static inline const uint8_t *strigol_string_in(const uint8_t *store, unsigned place, size_t *length)
{
    const uint8_t *cell = store + (size_t)place * STRIGOL_CELL_SIZE;
    *length = (size_t)cell[0] + 256 * (size_t)cell[1];
    return cell + 2;
}

/* The card of a step: the line of the deck, from 1, on which its statement begins. `step` is state[STRIGOL_NEXT], say. */
static inline uint32_t strigol_card_of(const uint8_t *table, uint64_t step)
{
    const uint8_t *row = table + STRIGOL_STEPS_AT + (step % STRIGOL_STEPS_MOST) * STRIGOL_STEP_SIZE;
    return (uint32_t)row[STRIGOL_CARD_AT] + 256 * (uint32_t)row[STRIGOL_CARD_AT + 1];
}

/* Writes an element's row for the scan call: STRIGOL_STRING with the ends of a part of the values, STRIGOL_FIXED with a length and 0,
   STRIGOL_FREE with 0 and 0. */
static inline void strigol_put_element(STRIGOL_LENT(uint8_t, row, STRIGOL_ROW_SIZE), enum strigol_element kind, uint32_t first, uint32_t second)
{
    int i;
    row[0] = (uint8_t)kind;
    row[1] = row[2] = row[3] = 0;
    for (i = 0; i < 4; i++) {
        row[4 + i] = (uint8_t)(first >> (8 * i));
        row[8 + i] = (uint8_t)(second >> (8 * i));
    }
}

#ifdef __cplusplus
}
#endif
#endif
