/* Buffers between pages that can't be touched: a call that reads or writes outside what it was lent is caught there, with a message. */
#ifndef FENCES_H
#define FENCES_H

#include <stddef.h>
#include <stdint.h>

/* Which fence a buffer lies flush against: the pages behind its last byte, or those before its first. */
enum side { BEHIND, BEFORE, SIDES };

enum { PAGE = 4096 };

/* All that is lent to the calls. */
enum which {
    DECK, TABLE, CARD, STORE, STATE, INPUT, OUTPUT, ANSWER, RESULT, REFERENCE, VALUES, ELEMENTS, REGISTER, HOUSE, OFFERED, LINE, LENGTH,
    WINDOW, SUMMARY, BUFFERS
};
extern const char *const buffer_name[BUFFERS];

/* The bytes from `from` to `to` may be touched and the pages before and behind them not. The buffer lent is `length` bytes at `at`. A copy of
   all bytes between the fences is for the oracle to work on. */
struct buffer { uint8_t *from, *to, *at, *copy; size_t length; };

/* The buffers of one run, how many steps are lent to it, the place of a line asked for, and the price given to a window. */
struct lent { struct buffer b[BUFFERS]; uint32_t count; uint64_t place, price; };

/* What is being done, for messages: the test; its part, the call and the seed, and the deck at hand if there is one. */
struct doing { const char *part, *call; uint64_t seed; const struct deck *deck; };
extern const char *test;
extern _Thread_local struct doing doing;

/* Says what went wrong where, shows the deck, and counts it. Only the first few are said. */
extern int failures;
void fail(const char *form, ...) __attribute__((format(printf, 1, 2)));

/* Makes a buffer with room for so many bytes; all buffers of a run, each with room for the largest that is ever lent. */
void make_fence(struct buffer *b, size_t bytes);
void make_fences(struct lent *l);

/* Lays bytes into a buffer of this length, flush against a fence. Of `have` bytes those that fit are laid; all else between the fences gets
   one and the same value. */
void lay(struct buffer *b, enum side side, const void *bytes, size_t have, size_t length);

/* Lets a buffer's bytes be read only, or written again. */
void lock(struct buffer *b);
void unlock(struct buffer *b);

/* Copies all bytes between the fences; where the oracle's buffer lies in the copy; whether the copy and the bytes are the same. */
void keep(struct buffer *b);
uint8_t *kept(const struct buffer *b);
int same(const struct lent *l, enum which which);

/* Says where a call was caught; a thread lends the stack to say it on, since its own may be used up. Ends the test if it isn't done after so
   many seconds. */
enum { SAYING_STACK = 65536 };
void catch_faults(void);
void lend_stack(uint8_t stack[SAYING_STACK]);
void end_after(unsigned seconds);

#endif
