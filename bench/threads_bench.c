/* Steps, lines and trials in a second, of one thread and of two on one table. A round begins with all threads at once, each on a core of its
   own. Each makes the same steps on its own store, state and output; the round ends with the last of them. A figure is the best of many rounds.
   The arguments are LOTS and an input for it, a deck that nearly fills its table, one that only counts, one that scans and replaces, one whose
   scans make nearly as many trials as can be, and one whose scans compare as many bytes as can be. Printed are tables in Markdown: these counts,
   and what follows from one thread's for a step, a trial and a line. */
#define _GNU_SOURCE
#include "figures.h"
#include "strigol.h"

#include <pthread.h>
#include <sched.h>
#include <stdio.h>
#include <stdlib.h>
#include <string.h>

enum { MOST_THREADS = 2, ROUNDS = 400, OUTPUT = 65536, MOST_INPUT = 65536, STACK = 8 << 20 };

/* What is timed: so many steps, in one call or one by one; from a fresh start each time, or going on behind so many that aren't timed. */
struct work { const char *name; uint32_t steps; int one_by_one, fresh; uint32_t before; };

/* What a thread writes. */
struct own {
    uint8_t store[STRIGOL_STORE_SIZE], output[OUTPUT];
    uint64_t state[STRIGOL_STATE_SIZE], result[STRIGOL_RESULT_SIZE], trials;
    double from, to;
};

static uint8_t table[STRIGOL_TABLE_SIZE], input[MOST_INPUT];
static size_t input_len;
static struct own own[MOST_THREADS];
static const struct work *work;
static pthread_barrier_t at_once;

/* Steps one by one, with all checks each time; the trials are counted. */
static void step_along(struct own *o)
{
    uint32_t answer[STRIGOL_ANSWER_SIZE], number = 0;
    uint64_t done = 0;
    o->trials = 0;
    for (; done < work->steps && number == 0 && o->state[STRIGOL_STATUS] == STRIGOL_RUNNING; done++) {
        number = strigol_step(table, sizeof table, o->store, sizeof o->store, o->state, input, input_len, o->output, OUTPUT, answer);
        o->trials += answer[STRIGOL_TRIALS];
    }
    if (number != 0) give_up("a step is stopped or turned down");
    o->result[STRIGOL_DONE] = done;
}

static void run(struct own *o, uint32_t steps)
{
    if (strigol_run(table, sizeof table, o->store, sizeof o->store, o->state, input, input_len, o->output, OUTPUT, steps, o->result) != 0)
        give_up("a run is stopped or turned down");
}

static void begin(struct own *o)
{
    strigol_start(o->store, sizeof o->store, o->state);
    run(o, work->before);
}

static void once(struct own *o)
{
    if (work->fresh) strigol_start(o->store, sizeof o->store, o->state);
    if (work->one_by_one) step_along(o);
    else run(o, work->steps);
}

static void *thread_once(void *thread)
{
    struct own *o = thread;
    pthread_barrier_wait(&at_once);
    o->from = now(CLOCK_MONOTONIC);
    once(o);
    o->to = now(CLOCK_MONOTONIC);
    return NULL;
}

/* Binds the next thread to a core of its own. */
static void bind_to_core(pthread_attr_t *attributes, int thread)
{
    cpu_set_t all, one;
    CPU_ZERO(&one);
    if (sched_getaffinity(0, sizeof all, &all) != 0) give_up("no cores");
    for (int core = 0; core < CPU_SETSIZE; core++)
        if (CPU_ISSET(core, &all) && thread-- == 0) CPU_SET(core, &one);
    if (CPU_COUNT(&one) != 1) give_up("too few cores");
    pthread_attr_setaffinity_np(attributes, sizeof one, &one);
}

/* Nanoseconds for a round of so many threads, from the first that begins to the last that ends. */
static double round_of(int threads)
{
    pthread_t thread[MOST_THREADS];
    pthread_attr_t attributes;
    double from = 1e18, to = 0;
    pthread_attr_init(&attributes);
    pthread_attr_setstacksize(&attributes, STACK);
    pthread_barrier_init(&at_once, NULL, (unsigned)threads);
    for (int i = 0; i < threads; i++) {
        bind_to_core(&attributes, i);
        if (pthread_create(&thread[i], &attributes, thread_once, &own[i]) != 0) give_up("no thread");
    }
    for (int i = 0; i < threads; i++) {
        pthread_join(thread[i], NULL);
        if (own[i].from < from) from = own[i].from;
        if (own[i].to > to) to = own[i].to;
    }
    return to - from;
}

static double best_of(int threads)
{
    double best = 1e18;
    for (int i = 0; i < threads; i++) begin(&own[i]);
    for (int i = 0; i < ROUNDS; i++) {
        double t = round_of(threads);
        if (t < best) best = t;
    }
    return best;
}

/* The lines that a run takes. */
static uint64_t lines(const struct own *o)
{
    uint64_t n = 0;
    for (size_t i = 0; i < o->state[STRIGOL_TAKEN]; i++) n += input[i] == 10;
    return n;
}

/* How many trials it makes: its steps are made one by one, once. */
static uint64_t trials(const struct work *of)
{
    struct work counted = *of;
    work = &counted;
    counted.one_by_one = 1;
    begin(&own[0]);
    once(&own[0]);
    return own[0].trials;
}

/* What is done in a second. */
struct rate { double steps, lines, trials; };

/* A figure, or nothing where there is nothing to count. */
static const char *counted(double x)
{
    return x == 0 ? "" : figure(x);
}

static struct rate show(const struct work *of, const char *deck_name, const char *input_name)
{
    struct rate alone = {0, 0, 0};
    uint64_t tried;
    load_table(deck_name, table);
    input_len = input_name == NULL ? 0 : load(input_name, input, sizeof input);
    tried = trials(of);
    work = of;
    for (int threads = 1; threads <= MOST_THREADS; threads++) {
        double rounds = threads / best_of(threads) * 1e9, done = (double)own[0].result[STRIGOL_DONE];
        struct rate all = {rounds * done, rounds * (double)lines(&own[0]), rounds * (double)tried};
        if (threads == 1) alone = all;
        printf("| %s | %d | %s | %s | %s | %s |\n", threads == 1 ? of->name : "", threads, figure(all.steps), counted(all.lines),
               counted(all.trials), threads == 1 ? "" : figure(all.steps / alone.steps));
    }
    return alone;
}

/* So many, at this rate, take so long. */
static void show_time(const char *what, double count, double a_second)
{
    static const char *const units[] = {"ns", "us", "ms", "s"};
    double t = count / a_second * 1e9;
    int unit = 0;
    for (; unit < 3 && t >= 1000; unit++) t /= 1000;
    printf("| %s | %s %s |\n", what, figure(t), units[unit]);
}

int main(int argc, char **argv)
{
    static const struct work by_run = {"LOTS, by `strigol_run`", 1000000, 0, 1, 0}, by_step = {"LOTS, by `strigol_step`", 1000, 1, 1, 0},
                             full = {"a deck that nearly fills its table, by `strigol_step`", 100, 1, 1, 0},
                             counts = {"a deck that counts, by `strigol_run`", 10000, 0, 0, 0},
                             swaps = {"a deck that scans and replaces, by `strigol_run`", 10000, 0, 0, 0},
                             tries = {"scans with nearly as many trials as can be, by `strigol_run`", 40, 0, 0, 10},
                             compares = {"scans that compare as many bytes as can be, by `strigol_run`", 10, 0, 0, 10};
    struct rate lots, stepped, filled, counting, swapping, trying, comparing;
    if (argc != 8) {
        fprintf(stderr, "usage: threads_bench LOTS INPUT FULL COUNTS SWAPS TRIES COMPARES\n");
        return 2;
    }
    printf("| work | threads | steps a second | lines a second | trials a second | times one thread |\n|---|---|---|---|---|---|\n");
    lots = show(&by_run, argv[1], argv[2]);
    stepped = show(&by_step, argv[1], argv[2]);
    filled = show(&full, argv[3], NULL);
    counting = show(&counts, argv[4], NULL);
    swapping = show(&swaps, argv[5], NULL);
    trying = show(&tries, argv[6], NULL);
    comparing = show(&compares, argv[7], NULL);

    printf("\n| what | takes |\n|---|---|\n");
    show_time("a step in a run, in a deck that counts", 1, counting.steps);
    show_time("a step in a run, in a deck that scans and replaces; one step in four scans", 1, swapping.steps);
    show_time("a trial, in scans with nearly as many as can be", 1, trying.trials);
    show_time("a step by `strigol_step`, with LOTS", 1, stepped.steps);
    show_time("a step by `strigol_step`, with a deck that nearly fills its table", 1, filled.steps);
    printf("| a line of LOTS | %.1f steps, %.0f trials |\n", lots.steps / lots.lines, lots.trials / lots.lines);
    show_time("the same by `strigol_run`", 1, lots.lines);
    show_time("the costliest step found: a scan that compares as many bytes as can be", 1, comparing.steps);
    show_time("10,000 of these", 10000, comparing.steps);
    show_time("1,000,000 of these", 1000000, comparing.steps);
    return 0;
}
