/* Watched pages. They may only be read, so an instruction that writes to one faults. Then the page is opened, all its bytes are changed, and the
   instruction is made alone, for the processor traps behind each instruction while its trap flag is set. A byte that isn't the changed one now
   has been written, also if it was so before. The instruction is made again on bytes changed otherwise, and last on those that stood there, which
   is what it leaves; then the page is closed.

   An instruction that reads a byte and writes it back to its place, such as `or $0,(m)`, leaves what it finds, however that is changed. It is seen by
   the byte at which it faults, which is its first in that page; its further bytes aren't seen. Of `rep movs` each turn is seen like an instruction.
   All this is of x86-64 alone, as the library is. */
#define _GNU_SOURCE
#include "watch.h"

#include <signal.h>
#include <stdio.h>
#include <stdlib.h>
#include <string.h>
#include <sys/mman.h>
#include <ucontext.h>

/* An instruction may write across the border of two pages, no more. Makings: how often it is made. */
enum { MOST_WATCHED = 16 * PAGE, MOST_OPEN = 2, MAKINGS = 4, TRAP_FLAG = 0x100 };

static uint8_t *watched_from, *watched_to, marks[MOST_WATCHED];
static struct sigaction elsewhere;

/* The pages that are open for the instruction at hand, with their bytes of before; which making of it this is; the registers before it. */
static struct open { uint8_t *page, before[PAGE]; } opened[MOST_OPEN];
static int opens, making;
static gregset_t registers;

static void protect(uint8_t *from, size_t n, int how)
{
    if (mprotect(from, n, how) == 0) return;
    perror("mprotect");
    exit(1);
}

uint8_t *page_of(uint8_t *at)
{
    return at - (uintptr_t)at % PAGE;
}

void open_pages(uint8_t *at, size_t n)
{
    if (n > 0) protect(page_of(at), (size_t)(page_of(at + n - 1) + PAGE - page_of(at)), PROT_READ | PROT_WRITE);
}

/* A byte of before, as it is changed for this making: in all its bits; by the low part of its place; by the high part; not at all. What is written to
   it, a byte of its own or one that is copied from another place of these pages, differs from it in one of them. One that is written back to the
   place that it was read from differs in none. */
static uint8_t changed(const struct open *o, size_t i)
{
    size_t place = (size_t)(o->page - watched_from) + i;
    const uint8_t by[MAKINGS] = {0xff, (uint8_t)place, (uint8_t)(place >> 8), 0};
    return o->before[i] ^ by[making];
}

static void change(const struct open *o)
{
    for (size_t i = 0; i < PAGE; i++) o->page[i] = changed(o, i);
}

static void mark(const struct open *o)
{
    for (size_t i = 0; i < PAGE; i++)
        if (o->page[i] != changed(o, i)) marks[o->page - watched_from + (ptrdiff_t)i] = 1;
}

/* An instruction writes to a page that may only be read. The byte at which it faults is written, whatever it becomes. The trap flag may be set
   already: it has written to the page before this one. */
static void faulted(int number, siginfo_t *info, void *context)
{
    uint8_t *at = info->si_addr;
    greg_t *now = ((ucontext_t *)context)->uc_mcontext.gregs;
    struct open *o = &opened[opens];
    if (at < watched_from || at >= watched_to || opens == MOST_OPEN) {
        elsewhere.sa_sigaction(number, info, context);
        return;
    }
    if (opens++ == 0) {
        making = 0;
        memcpy(registers, now, sizeof registers);
    }
    marks[at - watched_from] = 1;
    o->page = page_of(at);
    memcpy(o->before, o->page, PAGE);
    protect(o->page, PAGE, PROT_READ | PROT_WRITE);
    change(o);
    now[REG_EFL] |= TRAP_FLAG;
}

/* The instruction is made. It is made again, with the registers of before, or its pages are closed. */
static void trapped(int number, siginfo_t *info, void *context)
{
    greg_t *now = ((ucontext_t *)context)->uc_mcontext.gregs;
    if (opens == 0) {
        elsewhere.sa_sigaction(number, info, context);
        return;
    }
    for (int i = 0; i < opens; i++) mark(&opened[i]);
    if (++making < MAKINGS) {
        for (int i = 0; i < opens; i++) change(&opened[i]);
        memcpy(now, registers, sizeof registers);
        now[REG_EFL] |= TRAP_FLAG;
        return;
    }
    for (; opens > 0; opens--) protect(opened[opens - 1].page, PAGE, PROT_READ);
    now[REG_EFL] &= ~(greg_t)TRAP_FLAG;
}

void watch(uint8_t *from, uint8_t *to)
{
    struct sigaction fault = {.sa_sigaction = faulted, .sa_flags = SA_SIGINFO | SA_ONSTACK},
                     trap = {.sa_sigaction = trapped, .sa_flags = SA_SIGINFO | SA_ONSTACK};
    if (to - from > MOST_WATCHED) {
        printf("%td bytes are too many to watch\n", to - from);
        exit(1);
    }
    watched_from = from;
    watched_to = to;
    memset(marks, 0, sizeof marks);
    protect(from, (size_t)(to - from), PROT_READ);
    sigaction(SIGSEGV, &fault, &elsewhere);
    sigaction(SIGTRAP, &trap, NULL);
}

void end_watch(void)
{
    sigaction(SIGSEGV, &elsewhere, NULL);
    signal(SIGTRAP, SIG_DFL);
}

int wrote(const uint8_t *at)
{
    return marks[at - watched_from];
}
