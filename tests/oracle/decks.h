/* Decks to test with: random ones, well-formed and damaged, and decks at the edges of document 01's numbers. */
#ifndef DECKS_H
#define DECKS_H

#include <stddef.h>
#include <stdint.h>

enum { DECK_ROOM = 40000, INPUT_ROOM = 4096 };

/* A deck; for an edge, the number and card that document 01 gives it. */
struct deck { size_t length; uint8_t bytes[DECK_ROOM]; int number; uint32_t card; const char *name; };
void show_deck(const struct deck *deck);

/* Putting a deck together: nothing in it yet; a byte; a statement, on joined cards if it is longer than one, which are filled up to column 80
   with sequence numbers or not; comments up to a length. */
void start_deck(struct deck *deck, const char *name);
void put_byte(struct deck *deck, uint8_t byte);
void put_statement(struct deck *deck, const char *label, const char *text, size_t n, int numbered);
void pad_to(struct deck *deck, size_t length);

/* A name for each number up to so many: a letter, a letter, a letter or digit. It lasts until the next call. */
enum { MADE_NAMES = 26 * 26 * 36 };
const char *made_name(int i);

/* A row of random numbers that is the same for the same seed. */
struct draws { uint64_t state; };
void draws_from(struct draws *d, uint64_t seed);
uint32_t draw(struct draws *d, uint32_t below);

/* A random deck: a well-formed one, one with a mistake in a statement, one with a count near its limit, or a damaged one. */
void random_deck(struct draws *d, struct deck *deck);

/* A well-formed random deck, made to run. */
void running_deck(struct draws *d, struct deck *deck);

/* Random records, some of 1,024 bytes or about as many, or any bytes. */
size_t random_input(struct draws *d, uint8_t input[INPUT_ROOM]);

/* The edge of this place, from 0; 0 if there is none. */
int edge_deck(int place, struct deck *deck);

/* A deck near 32,768 bytes that one statement fills, on joined cards, from place 0 on: sums, rows, parentheses and others of thousands. 0 if
   there is none. bench/read times the first ones, which are made to cost much. */
enum { COSTLY_DECKS = 16 };
int long_deck(int place, struct deck *deck);

/* A deck in the short notation of edges.c. */
void short_deck(const char *lines, struct deck *deck);

/* A deck to run at an edge of the run, from place 0 on: its input, the output lent, and what is printed in all: the records and a line with
   outcome, number, steps and notes. 0 if there is none. */
struct run_edge { const char *name, *lines, *input; size_t output_len; const char *printed; };
int run_edge(int place, struct run_edge *edge);

/* The bytes of the file that has this stem and ending: how many, or -1 if it isn't there or has more than fit. */
long file_bytes(const char *stem, const char *ending, uint8_t *to, size_t most);

/* Goes through the files that match, in order, by their stems, which have no ending: how many. */
int each_stem(const char *pattern, void (*each)(const char *stem));

/* Bytes written in hexadecimal, `-` for none: how many. */
int from_hex(const char *hex, uint8_t *bytes);

/* The bytes that a page prints under "An example", on lines with a place and bytes in hexadecimal, and words behind them. All others stay. */
void example_of(const char *page, uint8_t *bytes, size_t size);

#endif
