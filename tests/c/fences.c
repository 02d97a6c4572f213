/* Buffers between pages that can't be touched. */
#define _GNU_SOURCE
#include "fences.h"
#include "decks.h"
#include "strigol.h"

#include <signal.h>
#include <stdarg.h>
#include <stdio.h>
#include <stdlib.h>
#include <string.h>
#include <sys/mman.h>
#include <unistd.h>

enum { FENCE = 65536, MOST_SHOWN = 5, MOST_LENT = 8, UNWRITTEN = 0x5a };

const char *const buffer_name[BUFFERS] = {"deck",     "table",          "card",         "store",           "state",  "input",
                                          "output",   "answer",         "result",       "reference",       "values", "elements",
                                          "register", "house currency", "line offered", "line handed out", "length", "window",
                                          "summary"};

static const size_t room[BUFFERS] = {
    [DECK] = DECK_ROOM, [TABLE] = STRIGOL_TABLE_SIZE + PAGE, [CARD] = sizeof(uint32_t), [STORE] = STRIGOL_STORE_SIZE + PAGE,
    [STATE] = STRIGOL_STATE_SIZE * sizeof(uint64_t), [INPUT] = INPUT_ROOM, [OUTPUT] = STRIGOL_REPORT_MOST + PAGE,
    [ANSWER] = STRIGOL_ANSWER_SIZE * sizeof(uint32_t), [RESULT] = STRIGOL_RESULT_SIZE * sizeof(uint64_t), [REFERENCE] = PAGE,
    [VALUES] = PAGE, [ELEMENTS] = PAGE, [REGISTER] = 2 * STRIGOL_REGISTER_SIZE, [HOUSE] = PAGE, [OFFERED] = 3 * PAGE,
    [LINE] = STRIGOL_LINE_SIZE, [LENGTH] = sizeof(uint32_t), [WINDOW] = PAGE, [SUMMARY] = STRIGOL_SUMMARY_SIZE * sizeof(uint64_t)};

const char *test = "a test";
_Thread_local struct doing doing = {"nothing", "no call", 0, NULL};
int failures;

/* How a message begins. */
#define WHERE "%s: %s, seed %llu, %s: "
#define DOING test, doing.part, (unsigned long long)doing.seed, doing.call

static struct lent *all_lent[MOST_LENT];
static int lents;

void fail(const char *form, ...)
{
    va_list values;
    if (__atomic_add_fetch(&failures, 1, __ATOMIC_SEQ_CST) > MOST_SHOWN) return;
    flockfile(stdout);
    printf(WHERE, DOING);
    va_start(values, form);
    vprintf(form, values);
    va_end(values);
    printf("\n");
    if (doing.deck != NULL) show_deck(doing.deck);
    funlockfile(stdout);
}

void make_fence(struct buffer *b, size_t bytes)
{
    size_t inner = (bytes + PAGE - 1) / PAGE * PAGE;
    uint8_t *pages = mmap(NULL, inner + 2 * FENCE, PROT_NONE, MAP_PRIVATE | MAP_ANONYMOUS, -1, 0);
    b->copy = malloc(inner);
    if (pages == MAP_FAILED || b->copy == NULL || mprotect(pages + FENCE, inner, PROT_READ | PROT_WRITE) != 0) {
        perror("a fenced buffer");
        exit(1);
    }
    b->from = b->at = pages + FENCE;
    b->to = b->from + inner;
}

void make_fences(struct lent *l)
{
    for (int i = 0; i < BUFFERS; i++) make_fence(&l->b[i], room[i]);
    if (lents < MOST_LENT) all_lent[lents++] = l;
}

void lay(struct buffer *b, enum side side, const void *bytes, size_t have, size_t length)
{
    b->at = side == BEHIND ? b->to - length : b->from;
    b->length = length;
    memset(b->from, UNWRITTEN, (size_t)(b->to - b->from));
    if (have > 0) memcpy(b->at, bytes, have < length ? have : length);
}

static void protect(struct buffer *b, int how)
{
    if (mprotect(b->from, (size_t)(b->to - b->from), how) == 0) return;
    perror("mprotect");
    exit(1);
}

void lock(struct buffer *b)
{
    protect(b, PROT_READ);
}

void unlock(struct buffer *b)
{
    protect(b, PROT_READ | PROT_WRITE);
}

void keep(struct buffer *b)
{
    memcpy(b->copy, b->from, (size_t)(b->to - b->from));
}

uint8_t *kept(const struct buffer *b)
{
    return b->copy + (b->at - b->from);
}

int same(const struct lent *l, enum which which)
{
    const struct buffer *b = &l->b[which];
    size_t i = 0;
    if (memcmp(b->from, b->copy, (size_t)(b->to - b->from)) == 0) return 1;
    while (b->from[i] == b->copy[i]) i++;
    fail("byte %td of the %s, which has %zu bytes, is %d, not %d", b->from + i - b->at, buffer_name[which], b->length, b->from[i], b->copy[i]);
    return 0;
}

/* Says which buffer an address belongs to, and ends the test. */
static void faulted(int number, siginfo_t *info, void *context)
{
    const uint8_t *address = info->si_addr;
    (void)context;
    dprintf(1, WHERE, DOING);
    for (int i = 0; i < lents; i++)
        for (int k = 0; k < BUFFERS; k++) {
            const struct buffer *b = &all_lent[i]->b[k];
            if (address < b->from - FENCE || address >= b->to + FENCE) continue;
            dprintf(1, "%s byte %td of the %s, which has %zu bytes\n", address >= b->from && address < b->to ? "wrote" : "touched",
                    address - b->at, buffer_name[k], b->length);
            _exit(1);
        }
    dprintf(1, "signal %d at address %p, near no buffer lent; the stack may be used up\n", number, info->si_addr);
    _exit(1);
}

void lend_stack(uint8_t stack[SAYING_STACK])
{
    stack_t lent = {.ss_sp = stack, .ss_size = SAYING_STACK};
    sigaltstack(&lent, NULL);
}

void catch_faults(void)
{
    static const int signals[] = {SIGSEGV, SIGBUS, SIGFPE, SIGILL};
    static uint8_t stack[SAYING_STACK];
    struct sigaction action = {.sa_sigaction = faulted, .sa_flags = SA_SIGINFO | SA_ONSTACK};
    lend_stack(stack);
    for (size_t i = 0; i < sizeof signals / sizeof signals[0]; i++) sigaction(signals[i], &action, NULL);
}

static void too_late(int number)
{
    (void)number;
    dprintf(1, WHERE "the test isn't done in time\n", DOING);
    _exit(1);
}

void end_after(unsigned seconds)
{
    signal(SIGALRM, too_late);
    alarm(seconds);
}
