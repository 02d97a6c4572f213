/* Tries the starting, stepping and running calls of the static library against the oracle. Lists of steps from a fresh start, where the oracle
   goes its own way through strings and numbers: number, 24 numbers answered, store, state and output after every step. Then the same decks by
   the running call. Decks are random ones, those at the edges, and all of tests/vectors, read by the reading call. Then tables and stores of
   sizes about the edge, states in and out of range, tables at the edges of the rules, and every byte of one table changed. No step answers more
   trials than document 02 lets it (W8.2), and scans in decks make as many. Nothing else lent may be written. A first argument is the only seed to
   try. */
#include "beside.h"

#include <stdio.h>
#include <stdlib.h>
#include <string.h>

enum { VECTOR_OUTPUT = 300, SEEDS = 3000, MOST_LIST = 80, CHANGES = 32, BYTES = 256 };

static struct lent lent;
static enum side side;
static struct deck deck;
static int vectors_tried, runs_tried, changed_kept;

/* Reads the deck into a table of this length, by the call and by the oracle: 0 if it is refused. */
static int read_deck(struct oracle_program *p, size_t table_len)
{
    uint32_t card;
    lay_deck(&lent, side, &deck, table_len);
    return make_right(&lent, READ) == 0 && oracle_read(deck.bytes, deck.length, p, &card) == 0;
}

/* What is written by the calls has nothing in it, and the run is started. */
static void start_anew(void)
{
    lay_small(&lent, side);
    lay_empty(&lent, side, OUTPUT, lent.b[OUTPUT].length);
    make_right(&lent, START);
}

static void run_right(uint32_t count)
{
    lay_empty(&lent, side, RESULT, lent.b[RESULT].length);
    lent.count = count;
    make_right(&lent, RUN);
    runs_tried++;
}

/* A run of so many steps from a fresh start, and of two more. */
static void try_run(uint32_t count)
{
    doing.part = "run";
    start_anew();
    run_right(count);
    run_right(2);
}

/* A list of steps, and a run of as many, which must leave what the list left. Answers how many. */
static uint32_t try_list(const struct oracle_program *p)
{
    static const enum which left[] = {STORE, STATE, OUTPUT};
    doing.part = "list";
    lent.count = (uint32_t)list_right(&lent, p, MOST_LIST);
    for (int i = 0; i < 3; i++) keep(&lent.b[left[i]]);
    doing.part = "run like a list";
    lay_empty(&lent, side, OUTPUT, lent.b[OUTPUT].length);
    make(&lent, START);
    make(&lent, RUN);
    runs_tried++;
    if (NUMBERS_64(&lent, RESULT)[STRIGOL_DONE] != lent.count) fail("not all %u steps are done", lent.count);
    for (int i = 0; i < 3; i++) same(&lent, left[i]);
    return lent.count;
}

static void try_seed(uint64_t seed)
{
    static struct oracle_program p;
    struct draws d;
    side = (enum side)(seed % SIDES);
    begin_seed(&d, seed);
    running_deck(&d, &deck);
    doing.part = "random deck";
    if (!read_deck(&p, STRIGOL_TABLE_SIZE + (draw(&d, 2) ? MORE : 0))) {
        fail("refused");
        return;
    }
    lay_random_run(&lent, side, &d);
    try_run(draw(&d, try_list(&p) + 10));
}

/* A deck that is to be run on this input: 0 if it is refused. */
static int try_deck(struct oracle_program *p, const uint8_t *input, size_t input_len, size_t output_len)
{
    if (!read_deck(p, STRIGOL_TABLE_SIZE)) return 0;
    lay_run(&lent, side, input, input_len, output_len, STRIGOL_STORE_SIZE);
    try_list(p);
    try_run(1000);
    return 1;
}

/* A vector, whose trace the oracle's own test compares with the oracle. */
static void try_vector(const char *stem)
{
    static struct oracle_program p;
    static uint8_t input[INPUT_ROOM];
    long deck_len = file_bytes(stem, ".deck", deck.bytes, sizeof deck.bytes), input_len = file_bytes(stem, ".in", input, sizeof input);
    doing.part = deck.name = stem;
    doing.deck = NULL;
    if (deck_len < 0 || input_len < 0) {
        fail("a file is missing or too long");
        return;
    }
    deck.length = (size_t)deck_len;
    side = (enum side)(vectors_tried++ % SIDES);
    try_deck(&p, input, (size_t)input_len, VECTOR_OUTPUT);
}

/* The decks at the edges of the run, and the accepted ones at the edges of reading. */
static void try_edges(void)
{
    static struct oracle_program p;
    struct run_edge edge;
    for (int i = 0; run_edge(i, &edge); i++) {
        side = (enum side)(i % SIDES);
        doing.part = edge.name;
        short_deck(edge.lines, &deck);
        if (!try_deck(&p, (const uint8_t *)edge.input, strlen(edge.input), edge.output_len)) fail("refused");
    }
    for (int i = 0; edge_deck(i, &deck); i++) {
        side = (enum side)(i % SIDES);
        doing.part = deck.name;
        try_deck(&p, NULL, 0, MOST_OUTPUT);
    }
}

/* Decks with one scan: how many trials it makes, and how many W8.2 lets it make, which is m × (n + 1) for m elements that aren't free fillers and a
   reference of n bytes, 0 if it is stopped. X has 1,024 bytes, the first 1 and the last 2; L, F and G are null, K is 0, N is -1, M is 100. */
#define X_OF_1024 "PROGRAM P|NUMBER N,M,K|N=-1|M=100|X=\"1\",STRING(1022,K),\"2\"|"
#define L18 "L,L,L,L,L,L,L,L,L,L,L,L,L,L,L,L,L,L"
#define NEGATIVE_6 "(F$N),(G$N),(F$N),(G$N),(F$N),(G$N)"
static const struct { const char *name, *scan; uint32_t trials, most; } costs[] = {
    {"19 null strings", "SCAN X[L," L18 ",\"3\"]", 20500, 20500},
    {"19 null strings, from behind", "BACKSCAN X[L," L18 ",\"3\"]", 20500, 20500},
    {"a negative fixed filler", "SCAN X[(F$N)," L18 ",\"3\"]", 20500, 20500},
    {"a negative fixed filler, from behind", "BACKSCAN X[(F$N)," L18 ",\"3\"]=\"4\"", 20500, 20500},
    {"19 negative fixed fillers",
     "!        +SCAN X[(F$N)," NEGATIVE_6 ",|!        +" NEGATIVE_6 ",|!         " NEGATIVE_6 ",\"3\"]", 20500, 20500},
    {"a fixed filler of 0 bytes", "SCAN X[(F$K)," L18 ",\"3\"]", 20500, 20500},
    {"a reference of 100 bytes", "SCAN X$100[L," L18 ",\"2\"]", 2020, 2020},
    {"a reference of 100 bytes, from behind", "BACKSCAN X$100[L," L18 ",\"1\"]", 2020, 2020},
    {"a reference of M bytes", "SCAN X$M[(F$N)," L18 ",\"2\"]=\"3\"", 2020, 2020},
    {"a reference of M bytes, from behind", "BACKSCAN X$M[(F$N)," L18 ",\"1\"]=", 2020, 2020},
    {"a reference of 0 bytes", "SCAN X$0[L," L18 ",\"1\"]", 20, 20},
    {"a reference of more bytes than there are", "SCAN X$1025[L," L18 ",\"3\"]", 20500, 20500},
    {"a reference of more bytes than there are, from behind", "BACKSCAN X$8388607[L," L18 ",\"3\"]", 20500, 20500},
    {"a free filler in front", "SCAN X[(F)," L18 ",\"3\"]", 19475, 19475},
    {"a free filler behind, from behind", "BACKSCAN X[" L18 ",\"3\",(F)]", 19475, 19475},
    {"free fillers alone", "SCAN X[(F),(G),(F)]", 0, 0},
    {"no elements", "BACKSCAN X[]", 0, 0},
    {"the last byte fits", "SCAN X[L," L18 ",\"2\"]=\"3\"", 20480, 20500},
    {"the last byte fits, from behind", "BACKSCAN X[(F$N)," L18 ",\"1\"]", 20480, 20500},
    {"all fit in a null string", "SCAN L[(F$N),(G)," L18 "]", 19, 19},
    {"the reference is null afterwards", "SCAN X[(F),\"2\"]=", 1024, 1025},
    {"the reference is longer afterwards", "SCAN L[(F$N)," L18 "]=\"123\"", 19, 19},
    {"stopped by 17", "SCAN X$N[L," L18 ",\"3\"]", 0, 0},
    {"stopped by 20, in the pattern", "SCAN X[L," L18 ",STRING(1025,M)]", 0, 0},
    {"stopped by 20, in the replacement", "SCAN X[L," L18 ",\"2\"]=\"34\"", 0, 0},
};

/* A run step by step: the trials that its steps make together, and the most that those carried out may make. */
static uint32_t trials_of_run(uint32_t *most)
{
    uint32_t trials = 0;
    *most = 0;
    start_anew();
    for (int i = 0; i < MOST_LIST && NUMBERS_64(&lent, STATE)[STRIGOL_STATUS] == STRIGOL_RUNNING; i++) {
        uint32_t of_step = oracle_most_in_step(lent.b[TABLE].at, lent.b[STORE].at, NUMBERS_64(&lent, STATE));
        if (make_right(&lent, STEP) == 0) *most += of_step;
        trials += NUMBERS_32(&lent, ANSWER)[STRIGOL_TRIALS];
    }
    return trials;
}

static void try_costs(void)
{
    static struct oracle_program p;
    char lines[500];
    for (size_t i = 0; i < sizeof costs / sizeof costs[0]; i++) {
        uint32_t trials, most;
        doing.part = costs[i].name;
        snprintf(lines, sizeof lines, X_OF_1024 "%s|END|", costs[i].scan);
        short_deck(lines, &deck);
        if (!try_deck(&p, NULL, 0, MOST_OUTPUT)) fail("refused");
        doing.part = costs[i].name;
        trials = trials_of_run(&most);
        if (trials != costs[i].trials || most != costs[i].most)
            fail("%u trials of at most %u, not %u of %u", trials, most, costs[i].trials, costs[i].most);
    }
    if (trials_met != 20500) fail("at most %u trials, not 20,500", trials_met);
}

/* One step of the present table from a state that any statement can go on from, somewhere in the program. */
static void try_table(struct draws *d)
{
    uint64_t steps = count_in(lent.b[TABLE].at, STEP_COUNT), *state = NUMBERS_64(&lent, STATE);
    start_anew();
    state[STRIGOL_NEXT] = steps > 0 ? draw(d, (uint32_t)steps) : 0;
    state[STRIGOL_HELD] = 1;
    state[STRIGOL_HELD_AT] = 0;
    changed_kept += make_right(&lent, STEP) != STRIGOL_BAD_TABLE;
}

/* Every step, status and count of returns of the present table, with good returns and with one out of range, counted or not. */
static void try_states(int steps)
{
    static const uint64_t helds[] = {0, 1, 15, 16, 17}, statuses[] = {0, 1, 2, 3, UINT64_MAX};
    uint64_t *state = NUMBERS_64(&lent, STATE);
    doing.part = "states";
    for (int next = 0; next <= steps; next++)
        for (int i = 0; i < 25; i++)
            for (int bad = 0; bad <= STRIGOL_HELD_MOST; bad += 5) {
                start_anew();
                state[STRIGOL_STATUS] = statuses[i / 5];
                state[STRIGOL_NEXT] = (uint64_t)next;
                state[STRIGOL_HELD] = helds[i % 5];
                for (int k = 0; k < STRIGOL_HELD_MOST; k++) state[STRIGOL_HELD_AT + k] = (uint64_t)(k + 1 == bad ? steps : steps - 1);
                make_right(&lent, STEP);
            }
}

/* A deck with every kind of row and cell. */
static const char rich[] =
    "PROGRAM P|NUMBER N,M|N=-N+1*(M-2)/LENGTH(A)+NUMBER(A)-NUMBER(B$3)+NUMBER(B$N)|N=+1|"
    "A=\"XY\",B,B$2,B$N,STRING(N),STRING(-4,M),STRING(N,M)|A$3=\"Z\"|A$N=|L:IF(NULL(A))/L,E|IF(NUMERIC(A$2))/E|IF(N<=-3)/,L|"
    "IF(LENGTH(A)<>NUMBER(B$M))/E|IF(NUMBER(A)>=NUMBER(B$2))/E|IF(M=N)/L|SCAN A[(B),\"-\",(C$2),(C$M),D$2]=B,\"+\"/L|"
    "BACKSCAN A$4[B,(C)]/,E|SCAN A$N[]=|BACKSCAN A[STRING(N)]=\"Q\"|READ(60)A$N/,E|READ A|PRINT A,\"!\"|EXECUTE R|"
    "ROUTINE R|RETURN|ENDROUTINE|E:EXIT|GOTO L|END|";

/* The kinds of rows and cells: the regions that have them begin at a multiple of 8 and have rows of 24 or 8 bytes. */
static int is_kind(int at)
{
    return at >= STEPS_AT && at < LITERALS_AT && at % CELL == 0;
}

/* The values that a byte is changed to, one after the other: all of them, or many. */
static uint8_t changed(struct draws *d, uint8_t was, int time, int times)
{
    if (time < 25 || times == BYTES) return (uint8_t)time;
    if (time < 27) return (uint8_t)(time == 25 ? was + 1 : was - 1);
    return (uint8_t)draw(d, 256);
}

/* Reads it, for a run with little input and output. */
static void prepare_rich(struct oracle_program *p)
{
    doing.part = "rich deck";
    short_deck(rich, &deck);
    if (!read_deck(p, STRIGOL_TABLE_SIZE)) fail("refused");
    lay_run(&lent, side, (const uint8_t *)"ABC", 3, 10, STRIGOL_STORE_SIZE);
}

/* Starting, a step and a run of it with tables and stores of sizes about the edge. */
static void try_sizes(void)
{
    static const size_t tables[] = {0, 1, STRIGOL_STEPS_AT, STRIGOL_TABLE_SIZE - 1, STRIGOL_TABLE_SIZE, STRIGOL_TABLE_SIZE + 1},
                        stores[] = {0, 1, 2, STRIGOL_CELL_SIZE, STRIGOL_STORE_SIZE - 1, STRIGOL_STORE_SIZE, STRIGOL_STORE_SIZE + 1,
                                    STRIGOL_STORE_SIZE + MORE};
    static struct oracle_program p;
    for (size_t i = 0; i < sizeof tables / sizeof tables[0]; i++)
        for (size_t k = 0; k < sizeof stores / sizeof stores[0]; k++) {
            prepare_rich(&p);
            doing.part = "sizes";
            lay_again(&lent.b[TABLE], side, tables[i]);
            lay_empty(&lent, side, STORE, stores[k]);
            start_anew();
            make_right(&lent, STEP);
            run_right(3);
        }
}

/* Its states, and every byte of its table changed: kinds in use to all values, other bytes in use to many, the rest to one. The byte's place is told
   as the seed. */
static void try_rich(void)
{
    static struct oracle_program p;
    struct draws d;
    begin_seed(&d, 1967);
    prepare_rich(&p);
    try_list(&p);
    try_states(p.steps);
    doing.part = "changed byte";
    for (int at = 0; at < STRIGOL_TABLE_SIZE; at++) {
        int used = at < COUNTS_END || (at >= STEPS_AT && at < STEPS_AT + ROW_SIZE * p.steps) ||
                   (at >= ELEMENTS_AT && at < ELEMENTS_AT + CELL * p.elements) || (at >= ITEMS_AT && at < ITEMS_AT + CELL * p.items) ||
                   (at >= LITERALS_AT && at < LITERALS_AT + p.literals);
        int times = used && is_kind(at) ? BYTES : CHANGES;
        uint8_t *byte = lent.b[TABLE].at + at, was = *byte;
        doing.seed = (uint64_t)at;
        for (int time = used ? 0 : times - 1; time < times; time++) {
            *byte = changed(&d, was, time, times);
            try_table(&d);
        }
        *byte = was;
    }
}

/* Tables at the edges of the rules that no deck has: the program of the rich deck, changed, and whether its table keeps the rules. */
static int change_program(int which, struct oracle_program *p, int *keeps)
{
    static const int32_t constants[] = {LIMIT, -LIMIT, LIMIT + 1, -LIMIT - 1}, lengths[] = {LIMIT, 0, LIMIT + 1, -1};
    static const enum step_kind lasts[] = {FINISHES, FINISHES, RETURNS, GOES};
    int i = which % 4;
    *keeps = i < 2;
    switch (which / 4) {
    case 0: p->step[7].right.constant = constants[i]; break;
    case 1: p->item[2].operand.constant = constants[i]; break;
    case 2: p->element[5].n = constants[i]; break;
    case 3: p->step[3].part.n = lengths[i]; break;
    case 4: p->element[2].part.n = lengths[i]; break;
    case 5: p->step[9].right.part.n = lengths[i]; break;
    case 6: p->strings = i == 0 ? MOST_STRINGS : i == 1 ? p->strings : i == 2 ? MOST_STRINGS + 1 : 1; break;
    case 7: p->numbers = i == 0 ? MOST_NUMBERS : i == 1 ? p->numbers : i == 2 ? MOST_NUMBERS + 1 : 1; break;
    case 8: p->step[p->steps - 1].kind = lasts[i]; break;
    default: return 0;
    }
    return 1;
}

/* A program of one row and an END: a row of items, or of elements of one kind. A sum is of so many ones, all waiting first. */
static void one_row(struct oracle_program *p, enum step_kind kind, int count, int more, enum element_kind elements)
{
    memset(p, 0, sizeof *p);
    p->steps = 2;
    p->strings = p->numbers = 2;
    p->step[0] = (struct step){.kind = kind, .count = count, .more = more};
    p->step[1].kind = FINISHES;
    if (kind == SET_NUMBER) {
        p->items = count;
        for (int i = 0; i < count; i++) p->item[i].kind = i <= count / 2 ? ITEM_OPERAND : ITEM_ADD;
        return;
    }
    p->elements = count + more;
    for (int i = 0; i < count + more; i++) {
        p->element[i].kind = i < count ? elements : ELEMENT_PART;
        p->element[i].part.string = 1;
        p->element[i].part.bound = p->element[i].kind == ELEMENT_FIXED ? CONSTANT : WHOLE;
        if (p->element[i].kind == ELEMENT_LITERAL) {
            p->element[i].from = i;
            p->element[i].length = 1;
            p->literal[p->literals++] = 'A';
        }
    }
}

static int make_program(int which, struct oracle_program *p, int *keeps)
{
    static const struct { enum step_kind kind; int count, more; enum element_kind elements; int keeps; } rows[] = {
        {WRITES, 20, 0, ELEMENT_PART, 1},    {WRITES, 21, 0, ELEMENT_PART, 0},     {SET_STRING, 20, 0, ELEMENT_LITERAL, 1},
        {SET_STRING, 21, 0, ELEMENT_PART, 0}, {SCANS, 20, 0, ELEMENT_FREE, 1},      {REPLACES, 20, 20, ELEMENT_FIXED, 1},
        {SCANS, 21, 0, ELEMENT_FREE, 0},     {REPLACES, 20, 21, ELEMENT_FREE, 0},  {WRITES, 1, 0, ELEMENT_FREE, 0},
        {SET_STRING, 1, 0, ELEMENT_FIXED, 0}, {SET_NUMBER, 127, 0, ELEMENT_PART, 1}, {SET_NUMBER, 129, 0, ELEMENT_PART, 0},
        {SET_NUMBER, 1, 0, ELEMENT_PART, 1}, {SET_NUMBER, 0, 0, ELEMENT_PART, 0},  {SET_NUMBER, 2, 0, ELEMENT_PART, 0},
        {WRITES, 1, 1, ELEMENT_PART, 0},     {SCANS, 0, 0, ELEMENT_PART, 1},       {REPLACES, 0, 0, ELEMENT_PART, 1},
        {REPLACES, 1, 0, ELEMENT_FREE, 1},   {REPLACES, 1, 1, ELEMENT_FREE, 1},    {SCANS, 1, 1, ELEMENT_FREE, 0},
    };
    enum { ROWS = sizeof rows / sizeof rows[0] };
    if (which < ROWS) {
        one_row(p, rows[which].kind, rows[which].count, rows[which].more, rows[which].elements);
        *keeps = rows[which].keeps;
        return 1;
    }
    one_row(p, REPLACES, 3, 2, ELEMENT_FREE);
    *keeps = 0;
    switch (which - ROWS) {
    case 0: *keeps = 1; break;
    case 1: p->step[0].part.string = 1; break;
    case 2: p->element[4].kind = ELEMENT_FREE; break;
    case 3: p->element[1].kind = ELEMENT_LITERAL; break;
    case 4: p->elements = 6; break;
    case 5: p->literals = 1; break;
    case 6: p->items = 1; break;
    case 7: p->step[0].kind = SCANS; break;
    case 8: p->step[0].success = 2; break;
    case 9: p->step[0].failure = 2; break;
    case 10: p->steps = 0; break;
    case 11: p->step[0].card = 65535; *keeps = 1; break;
    case 12: one_row(p, SET_NUMBER, 3, 0, ELEMENT_PART); p->item[1].kind = ITEM_MINUS; break;
    case 13: one_row(p, SET_NUMBER, 2, 0, ELEMENT_PART); p->item[1].kind = ITEM_MINUS; *keeps = 1; break;
    case 14: one_row(p, SET_NUMBER, 1, 0, ELEMENT_PART); p->item[0].kind = ITEM_PLUS; break;
    case 15: one_row(p, SET_NUMBER, 2, 0, ELEMENT_PART); p->item[1].kind = ITEM_ADD; break;
    case 16: one_row(p, SET_NUMBER, 2, 0, ELEMENT_PART); p->item[0].kind = ITEM_PLUS; break;
    case 17:
        one_row(p, SET_NUMBER, 3, 0, ELEMENT_PART);
        p->item[1].kind = ITEM_MULTIPLY;
        p->item[2].kind = ITEM_OPERAND;
        break;
    default: return 0;
    }
    return 1;
}

/* Scans at the edges of rule 11. No deck has a string behind a filler of its name: the string is read as G, and then every G is made F. */
static int make_scan(int which, struct oracle_program *p, int *keeps)
{
    static const struct { const char *scan; int keeps; } scans[] = {
        {"SCAN S[(F),G]", 0},             {"SCAN S[(F),G$1]", 0},         {"BACKSCAN S[(F),G$N]", 0},      {"SCAN S[(F$1),G]", 0},
        {"SCAN S[(F$N),G$1]", 0},         {"SCAN S[(F),\"A\",S,G]", 0},   {"SCAN S[G,(F),G]", 0},          {"SCAN S$1[(F),G]=F", 0},
        {"SCAN S[(F)]|SCAN S[(F),G]", 0}, {"SCAN S[F,(F)]", 1},           {"BACKSCAN S[F$1,F$N,(F)]", 1},  {"SCAN S[F,(F$1),(F)]", 1},
        {"SCAN S[(F),S]", 1},             {"SCAN S[(F),STRING(1,M)]", 1}, {"SCAN S[(F),STRING(M,M)]=", 1}, {"SCAN S[(F)]=F,F$1,F$N", 1},
        {"SCAN S[(F)]=", 1},              {"SCAN S[(F)]|SCAN S[F]", 1},   {"SCAN S[(F)]=F|SCAN S[F]=", 1}, {"SCAN S[(F)]|PRINT F", 1},
    };
    enum { SCAN_COUNT = sizeof scans / sizeof scans[0], F = 1, G = 2 };
    static struct deck d;
    char lines[100];
    uint32_t card;
    if (which >= SCAN_COUNT) return 0;
    snprintf(lines, sizeof lines, "PROGRAM P|NUMBER N,M|S=F,G|%s|END|", scans[which].scan);
    short_deck(lines, &d);
    if (oracle_read(d.bytes, d.length, p, &card) != 0) fail("%s is refused", scans[which].scan);
    for (int i = 0; i < p->elements; i++)
        if (p->element[i].part.string == G) p->element[i].part.string = F;
    *keeps = scans[which].keeps;
    return 1;
}

#define ROW_AT(i) (STEPS_AT + (i) * ROW_SIZE)
#define FLAG_AT(i) (ROW_AT(i) + 1)
#define LEFT_AT(i) (ROW_AT(i) + CELL)
#define RIGHT_AT(i) (ROW_AT(i) + 2 * CELL)
#define ELEMENT_AT(i) (ELEMENTS_AT + (i) * CELL)
#define ITEM_AT(i) (ITEMS_AT + (i) * CELL)

/* Bytes of the rich deck's table that hold a kind or a flag: the one that stands there, and all others with which the table keeps the rules. Kinds of
   cells are many where place and value have a meaning with each of them. */
static const struct { int at; uint8_t kept[6]; } kinds[] = {
    {ROW_AT(0), {SET_NUMBER}}, {ROW_AT(2), {SET_STRING}}, {ROW_AT(5), {IF_NULL, IF_NUMERIC, READS}}, {ROW_AT(6), {IF_NUMERIC, READS}},
    {ROW_AT(10), {IF_COMPARES}}, {ROW_AT(11), {REPLACES}}, {ROW_AT(12), {SCANS, REPLACES}}, {ROW_AT(13), {REPLACES, SCANS}},
    {ROW_AT(16), {READS, IF_NULL, IF_NUMERIC}}, {ROW_AT(17), {WRITES}}, {ROW_AT(18), {EXECUTES, GOES}},
    {ROW_AT(20), {RETURNS, FINISHES, GOES, EXECUTES}}, {ROW_AT(23), {GOES, EXECUTES}}, {ROW_AT(24), {FINISHES}},
    {FLAG_AT(7), {AT_MOST, EQUAL, UNEQUAL, LESS, GREATER, AT_LEAST}}, {FLAG_AT(11), {1, 2}}, {FLAG_AT(12), {2, 1}}, {FLAG_AT(13), {1, 2}},
    {FLAG_AT(5), {0}}, {FLAG_AT(16), {0}}, {FLAG_AT(17), {0}}, {FLAG_AT(24), {0}},
    {LEFT_AT(1), {NUMBER_CELL}}, {LEFT_AT(5), {STRING_CELL}}, {LEFT_AT(11), {STRING_CELL, VARIABLE_PART}}, {LEFT_AT(12), {CONSTANT_PART}},
    {LEFT_AT(15), {VARIABLE_PART, STRING_CELL}}, {LEFT_AT(8), {LENGTH_CELL, NUMBER_CELL, VALUE_CELL, VARIABLE_VALUE}},
    {RIGHT_AT(7), {CONSTANT_CELL}}, {RIGHT_AT(8), {VARIABLE_VALUE}}, {RIGHT_AT(9), {CONSTANT_VALUE}},
    {RIGHT_AT(10), {NUMBER_CELL, LENGTH_CELL, VALUE_CELL, VARIABLE_VALUE}}, {RIGHT_AT(0), {RANGE_CELL}}, {RIGHT_AT(12), {RANGE_CELL}},
    {LEFT_AT(17), {NO_CELL}}, {RIGHT_AT(16), {NO_CELL}}, {LEFT_AT(22), {NO_CELL}}, {RIGHT_AT(23), {NO_CELL}},
    {ELEMENT_AT(0), {LITERAL_CELL}}, {ELEMENT_AT(1), {STRING_CELL, VARIABLE_PART, VARIABLE_TEXT}}, {ELEMENT_AT(2), {CONSTANT_PART, CONSTANT_TEXT}},
    {ELEMENT_AT(5), {CONSTANT_TEXT}}, {ELEMENT_AT(8), {FREE_CELL, VARIABLE_FIXED, STRING_CELL, VARIABLE_PART, VARIABLE_TEXT}},
    {ELEMENT_AT(10), {CONSTANT_FIXED, CONSTANT_PART}}, {ELEMENT_AT(11), {VARIABLE_FIXED}}, {ELEMENT_AT(12), {CONSTANT_PART, CONSTANT_FIXED}},
    {ELEMENT_AT(13), {STRING_CELL, VARIABLE_PART, VARIABLE_TEXT}}, {ELEMENT_AT(16), {FREE_CELL, VARIABLE_FIXED, STRING_CELL, VARIABLE_PART}},
    {ELEMENT_AT(17), {CONSTANT_TEXT, CONSTANT_PART}}, {ELEMENT_AT(19), {STRING_CELL, VARIABLE_PART, VARIABLE_TEXT}},
    {ITEM_AT(0), {NUMBER_CELL, LENGTH_CELL, VALUE_CELL, VARIABLE_VALUE}}, {ITEM_AT(1), {MINUS_CELL, PLUS_CELL}},
    {ITEM_AT(2), {CONSTANT_CELL, CONSTANT_VALUE}}, {ITEM_AT(5), {SUBTRACT_CELL, ADD_CELL, MULTIPLY_CELL, DIVIDE_CELL}},
    {ITEM_AT(12), {CONSTANT_VALUE}}, {ITEM_AT(14), {VARIABLE_VALUE, NUMBER_CELL, LENGTH_CELL, VALUE_CELL}},
};

/* Each of them changed to every value. Its place is told as the seed. */
static void try_kinds(const struct oracle_program *rich_program)
{
    uint8_t *table = lent.b[TABLE].at;
    doing.part = "kinds";
    oracle_table(rich_program, table);
    for (size_t i = 0; i < sizeof kinds / sizeof kinds[0]; i++) {
        doing.seed = (uint64_t)kinds[i].at;
        for (int value = 0; value < BYTES; value++) {
            int keeps = value == kinds[i].kept[0] || (value != 0 && memchr(kinds[i].kept, value, sizeof kinds[i].kept) != NULL);
            table[kinds[i].at] = (uint8_t)value;
            if (oracle_keeps(table) != keeps) fail("the oracle's own judgement of %d", value);
        }
        table[kinds[i].at] = kinds[i].kept[0];
    }
}

/* The change's place is told as the seed. */
static void try_rules(void)
{
    static struct oracle_program rich_program, p;
    struct draws d;
    int keeps, made = 0, scans = 0;
    begin_seed(&d, 1968);
    prepare_rich(&rich_program);
    try_kinds(&rich_program);
    doing.part = "rules";
    for (int which = 0;; which++) {
        p = rich_program;
        if (!change_program(which, &p, &keeps) && !make_program(made++, &p, &keeps) && !make_scan(scans++, &p, &keeps)) return;
        doing.seed = (uint64_t)which;
        oracle_table(&p, lent.b[TABLE].at);
        if (oracle_keeps(lent.b[TABLE].at) != keeps) fail("the oracle's own judgement");
        for (int times = 0; times < 20; times++) try_table(&d);
    }
}

int main(int argc, char **argv)
{
    int seeds = argc > 1 ? 1 : SEEDS;
    begin_test("step test", &lent);
    if (argc == 1) {
        if (each_stem("tests/vectors/decks/*.deck", try_vector) == 0) fail("no vectors");
        if (each_stem("tests/vectors/wish*/*.deck", try_vector) == 0) fail("no vectors of wishes");
        try_edges();
        for (int i = 0; i < SIDES; i++) {
            side = (enum side)i;
            try_costs();
            try_sizes();
            try_rules();
            try_rich();
        }
    }
    for (int i = 1; i <= seeds; i++) try_seed(argc > 1 ? strtoull(argv[1], NULL, 10) : (uint64_t)i);
    show_met(START, argc == 1);
    show_met(STEP, argc == 1);
    show_met(RUN, 0);
    printf("step test: %d vectors, %d random decks, %d runs, %d changed tables keep the rules, %u trials at most, %d failures\n", vectors_tried,
           seeds, runs_tried, changed_kept, trials_met, failures);
    return failures != 0;
}
