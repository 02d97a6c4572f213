/* Random decks. A deck is planned first (which statements stand in which routine, which have labels), then each statement is made from
   names that fit, and laid on cards with blanks, joins, comments and blank lines. A well-formed one is accepted; others are spoilt on the
   way. */
#define _POSIX_C_SOURCE 200809L
#include "decks.h"
#include "oracle.h"

#include <glob.h>
#include <stdio.h>
#include <stdlib.h>
#include <string.h>

/* Draws */

void draws_from(struct draws *d, uint64_t seed)
{
    d->state = seed;
}

static uint64_t next_draw(struct draws *d)
{
    uint64_t z = d->state += 0x9e3779b97f4a7c15u;
    z = (z ^ (z >> 30)) * 0xbf58476d1ce4e5b9u;
    z = (z ^ (z >> 27)) * 0x94d049bb133111ebu;
    return z ^ (z >> 31);
}

uint32_t draw(struct draws *d, uint32_t below)
{
    return (uint32_t)((next_draw(d) >> 11) % below);
}

/* Once in so many. */
static int one_in(struct draws *d, uint32_t times)
{
    return draw(d, times) == 0;
}

/* The plan of a deck */

enum { MOST_PLAN = 80, MOST_SPELT = 4096, MOST_POOL = 24, MOST_BLOCKS = 4, NO_LABEL = -1, OUTER = -1 };
enum planned { PLAIN, PLAN_PROGRAM, PLAN_NUMBER, PLAN_ROUTINE, PLAN_ENDROUTINE, PLAN_END };

struct plan { enum planned planned; int scope, label; };

struct maker {
    struct draws *d;
    struct deck *deck;
    struct plan plan[MOST_PLAN];
    int plans, labels, routines, strings, numbers, declared;
    const char *string[MOST_POOL], *number[MOST_POOL], *label[MOST_POOL];
    int scope, setups;
    int spread;
    char spelt[MOST_SPELT];
    int length;
};

static const char *const string_pool[] = {"A",    "B",      "C",   "S1",   "LINE", "TEXT",  "X9",     "LONGNAME", "READ",
                                          "SCAN", "STRING", "END", "NULL", "IF",   "WRITE", "NUMERIC"};
static const char *const number_pool[] = {"N", "M", "I", "K9", "COUNT", "NUMBER", "LENGTH", "RETURN", "PRINT"};
static const char *const label_pool[] = {"L1",    "L2",   "L3",      "LOOP", "DONE", "NEXT", "AGAIN", "Z",       "OUT",
                                         "RETRY", "GOTO", "LABEL88", "EXIT", "BACK", "LL",   "Q1",    "EXECUTE", "PP"};
static const char *const routine_pool[] = {"R1", "R2", "ROUTINE", "SUB"};

static int size_of_pool(const char *const *pool, const char *const *end)
{
    return (int)(end - pool);
}

#define SIZE(pool) size_of_pool(pool, pool + sizeof pool / sizeof pool[0])

/* Chooses so many different names of a pool. */
static void choose(struct draws *d, const char *const *pool, int size, const char **chosen, int count)
{
    const char *rest[MOST_POOL];
    for (int i = 0; i < size; i++) rest[i] = pool[i];
    for (int i = 0; i < count; i++) {
        int at = one_in(d, 3) ? (int)draw(d, (uint32_t)(size - i)) : 0;
        chosen[i] = rest[at];
        for (int j = at; j + 1 < size - i; j++) rest[j] = rest[j + 1];
    }
}

static void add_plan(struct maker *m, enum planned planned, int scope)
{
    int label = NO_LABEL;
    if (m->plans == MOST_PLAN) return;
    if (m->labels < SIZE(label_pool) && one_in(m->d, 3)) label = m->labels++;
    m->plan[m->plans++] = (struct plan){planned, scope, label};
}

static void plan_block(struct maker *m, int scope, int statements)
{
    for (int i = 0; i < statements; i++) add_plan(m, one_in(m->d, 25) ? PLAN_NUMBER : PLAIN, scope);
}

static void plan_deck(struct maker *m)
{
    struct draws *d = m->d;
    m->plans = m->labels = m->declared = 0;
    m->setups = one_in(d, 3) ? 0 : 2 + (int)draw(d, 5);
    m->routines = one_in(d, 2) ? 0 : 1 + (int)draw(d, MOST_BLOCKS);
    m->strings = 1 + (int)draw(d, 6);
    m->numbers = 1 + (int)draw(d, 6);
    choose(d, string_pool, SIZE(string_pool), m->string, m->strings);
    choose(d, number_pool, SIZE(number_pool), m->number, m->numbers);
    choose(d, label_pool, SIZE(label_pool), m->label, SIZE(label_pool));
    add_plan(m, PLAN_PROGRAM, OUTER);
    if (!one_in(d, 8)) add_plan(m, PLAN_NUMBER, OUTER);
    for (int i = 0; i < m->routines; i++) {
        plan_block(m, OUTER, (int)draw(d, 6));
        add_plan(m, PLAN_ROUTINE, OUTER);
        plan_block(m, i, (int)draw(d, 6));
        add_plan(m, PLAN_ENDROUTINE, i);
    }
    plan_block(m, OUTER, 1 + m->setups + (int)draw(d, 12));
    add_plan(m, PLAN_END, OUTER);
}

/* Statements, spelt without blanks. The makers of parts add to what is spelt. */

static void begin_statement(struct maker *m)
{
    m->length = 0;
    m->spelt[0] = 0;
}

static void spell(struct maker *m, const char *text)
{
    int n = (int)strlen(text);
    if (m->length + n >= MOST_SPELT) return;
    memcpy(m->spelt + m->length, text, (size_t)n + 1);
    m->length += n;
}

static void spell_number(struct maker *m, uint32_t n)
{
    char text[16];
    snprintf(text, sizeof text, "%u", n);
    spell(m, text);
}

static void spell_constant(struct maker *m)
{
    static const uint32_t some[] = {0, 1, 2, 3, 5, 8, 10, 64, 512, 1023, 1024, 1025, 3000, 8388607};
    if (one_in(m->d, 12)) spell(m, "00");
    if (one_in(m->d, 3)) spell_number(m, some[draw(m->d, 14)]);
    else spell_number(m, draw(m->d, 6));
}

static const char *a_string(struct maker *m)
{
    return m->string[draw(m->d, (uint32_t)m->strings)];
}

static const char *a_number(struct maker *m)
{
    return m->number[draw(m->d, (uint32_t)m->declared)];
}

static void spell_bound(struct maker *m)
{
    spell(m, "$");
    if (m->declared > 0 && one_in(m->d, 2)) spell(m, a_number(m));
    else spell_constant(m);
}

/* A name, and sometimes a length. */
static void spell_part_of(struct maker *m, const char *name)
{
    spell(m, name);
    if (one_in(m->d, 3)) spell_bound(m);
}

static void spell_part(struct maker *m)
{
    spell_part_of(m, a_string(m));
}

/* A function of a whole string, or of one with perhaps a length. */
static void spell_of_string(struct maker *m, const char *function)
{
    spell(m, function);
    spell(m, a_string(m));
    spell(m, ")");
}

static void spell_of_part(struct maker *m, const char *function)
{
    spell(m, function);
    spell_part(m);
    spell(m, ")");
}

static void spell_literal(struct maker *m)
{
    static const char bytes[] = "AAABBB1122  ,,+-0*/=.a|[]()$";
    char text[40];
    int n = 1 + (int)draw(m->d, one_in(m->d, 6) ? 30 : 3);
    if (one_in(m->d, 15)) {
        spell(m, "\"\"\"");
        return;
    }
    text[0] = '"';
    for (int i = 1; i <= n; i++) text[i] = bytes[draw(m->d, one_in(m->d, 3) ? sizeof bytes - 1 : 10)];
    text[n + 1] = '"';
    text[n + 2] = 0;
    spell(m, text);
}

static void spell_text_call(struct maker *m)
{
    spell(m, "STRING(");
    if (one_in(m->d, 2)) {
        if (one_in(m->d, 3)) {
            spell(m, a_number(m));
        } else {
            spell(m, one_in(m->d, 3) ? "-" : one_in(m->d, 6) ? "+" : "");
            spell_constant(m);
        }
        spell(m, ",");
    }
    spell(m, a_number(m));
    spell(m, ")");
}

static void spell_string_element(struct maker *m)
{
    uint32_t which = draw(m->d, 8);
    if (which < 3) spell_literal(m);
    else if (which == 3 && m->declared > 0) spell_text_call(m);
    else spell_part(m);
}

static uint32_t row_length(struct maker *m)
{
    if (one_in(m->d, 40)) return 15 + draw(m->d, 6);
    return draw(m->d, 5);
}

static void spell_row(struct maker *m)
{
    uint32_t count = row_length(m);
    for (uint32_t i = 0; i < count; i++) {
        if (i > 0) spell(m, ",");
        spell_string_element(m);
    }
}

/* A pattern for a scan of this string: no filler has its name, and no string the name of a filler left of it. */
static void spell_pattern(struct maker *m, const char *searched)
{
    const char *fillers[20];
    uint32_t count = row_length(m), filled = 0;
    for (uint32_t i = 0; i < count; i++) {
        const char *name = a_string(m);
        int is_filler = one_in(m->d, 2) && name != searched;
        for (uint32_t j = 0; j < filled; j++)
            if (fillers[j] == name && !one_in(m->d, 2)) is_filler = 1;
        if (i > 0) spell(m, ",");
        if (is_filler) {
            spell(m, "(");
            spell_part_of(m, name);
            spell(m, ")");
            fillers[filled++] = name;
        } else {
            int taken = 0;
            for (uint32_t j = 0; j < filled; j++) taken |= fillers[j] == name;
            if (taken || one_in(m->d, 2)) {
                if (m->declared > 0 && one_in(m->d, 6)) spell_text_call(m);
                else spell_literal(m);
            } else {
                spell_part_of(m, name);
            }
        }
    }
}

/* A label of the present scope, or NULL. */
static const char *a_label(struct maker *m)
{
    const char *found = NULL;
    uint32_t seen = 0;
    for (int i = 0; i < m->plans; i++)
        if (m->plan[i].label != NO_LABEL && m->plan[i].scope == m->scope)
            if (one_in(m->d, ++seen)) found = m->label[m->plan[i].label];
    return found;
}

static void spell_branch(struct maker *m)
{
    const char *s = a_label(m), *f = a_label(m);
    uint32_t which = draw(m->d, 3);
    if (s == NULL) return;
    spell(m, "/");
    if (which != 0) spell(m, s);
    if (which != 1) {
        spell(m, ",");
        spell(m, f);
    }
}

static void spell_expression(struct maker *m, int depth);

static void spell_factor(struct maker *m, int depth)
{
    uint32_t which = draw(m->d, 9);
    if (which < 3 || m->declared == 0) {
        spell_constant(m);
    } else if (which < 5) {
        spell(m, a_number(m));
    } else if (which == 5) {
        spell_of_string(m, "LENGTH(");
    } else if (which == 6) {
        spell_of_part(m, "NUMBER(");
    } else if (depth < 15) {
        spell(m, "(");
        spell_expression(m, depth + 1);
        spell(m, ")");
    } else {
        spell(m, "1");
    }
}

static void spell_expression(struct maker *m, int depth)
{
    static const char *const operators[] = {"+", "-", "+", "-", "*", "/"};
    uint32_t count = draw(m->d, depth > 2 ? 2 : 3);
    if (one_in(m->d, 5)) spell(m, one_in(m->d, 3) ? "+" : "-");
    spell_factor(m, depth);
    for (uint32_t i = 0; i < count; i++) {
        spell(m, operators[draw(m->d, 6)]);
        spell_factor(m, depth);
    }
}

static void spell_if_operand(struct maker *m)
{
    uint32_t which = draw(m->d, 6);
    if (which == 0) {
        spell_of_string(m, "LENGTH(");
    } else if (which == 1) {
        spell_of_part(m, "NUMBER(");
    } else if (which < 4 && m->declared > 0) {
        spell(m, a_number(m));
    } else {
        spell(m, one_in(m->d, 4) ? "-" : one_in(m->d, 6) ? "+" : "");
        spell_constant(m);
    }
}

static void spell_if(struct maker *m)
{
    static const char *const signs[] = {"=", "<>", "<", ">", "<=", ">="};
    uint32_t which = draw(m->d, 5);
    spell(m, "IF(");
    if (which == 0) {
        spell_of_string(m, "NULL(");
    } else if (which == 1) {
        spell_of_part(m, "NUMERIC(");
    } else {
        spell_if_operand(m);
        spell(m, signs[draw(m->d, 6)]);
        spell_if_operand(m);
    }
    spell(m, ")");
    spell_branch(m);
}

static void spell_scan(struct maker *m)
{
    const char *searched = a_string(m);
    spell(m, one_in(m->d, 3) ? "BACKSCAN" : "SCAN");
    spell(m, searched);
    if (one_in(m->d, 5)) spell_bound(m);
    spell(m, "[");
    spell_pattern(m, searched);
    spell(m, "]");
    if (one_in(m->d, 2)) {
        spell(m, "=");
        spell_row(m);
    }
    if (one_in(m->d, 2)) spell_branch(m);
}

/* A string grows fast in a loop of these. */
static void spell_growth(struct maker *m)
{
    const char *name = a_string(m);
    char text[80];
    snprintf(text, sizeof text, "%s=%s,%s,\"A1\",%s", name, name, name, name);
    spell(m, text);
}

static void spell_execute(struct maker *m)
{
    int lowest = m->scope + 1;
    if (lowest >= m->routines) {
        spell(m, "PRINT");
        spell_row(m);
        return;
    }
    spell(m, "EXECUTE");
    spell(m, routine_pool[lowest + (int)draw(m->d, (uint32_t)(m->routines - lowest))]);
}

/* Gives a number or a string something to begin with. */
static void spell_setup(struct maker *m)
{
    static const char *const strings[] = {
        "\"AB,12,ABA\"", "\"-12\"", "\"99999999\"", "\" 8388607\"", "\"+8388608\"", "\"1 2\"", "\"AABAABAAB\",\"1\"",
        "\"12,,,21, ,\"", "\"A\",\"\"\",\"A\"", "\"ABBA=ABBA\"", "\"+\"", "\"-8388607\"",
    };
    static const char *const numbers[] = {"-1", "-4", "2", "3", "7", "1024", "1025", "-1025", "8388607", "-8388607", "3000", "-12"};
    if (m->declared > 0 && one_in(m->d, 2)) {
        spell(m, a_number(m));
        spell(m, "=");
        spell(m, numbers[draw(m->d, 12)]);
    } else {
        spell(m, a_string(m));
        spell(m, "=");
        spell(m, strings[draw(m->d, 12)]);
    }
}

static void spell_plain(struct maker *m)
{
    uint32_t which = draw(m->d, 24);
    if (m->setups > 0 && m->scope == OUTER) {
        m->setups--;
        spell_setup(m);
    } else if (which < 3 && m->declared > 0) {
        spell(m, a_number(m));
        spell(m, "=");
        spell_expression(m, 0);
    } else if (which < 6) {
        spell_part(m);
        spell(m, "=");
        spell_row(m);
    } else if (which < 8 && a_label(m) != NULL) {
        spell_if(m);
    } else if (which == 8 && a_label(m) != NULL) {
        spell(m, "GOTO");
        spell(m, a_label(m));
    } else if (which < 14) {
        spell_scan(m);
    } else if (which < 17) {
        spell(m, one_in(m->d, 3) ? "READ(60)" : "READ");
        spell_part(m);
        if (one_in(m->d, 2)) spell_branch(m);
    } else if (which < 20) {
        spell(m, one_in(m->d, 2) ? "PRINT" : "WRITE");
        if (one_in(m->d, 4)) spell(m, "(61)");
        spell_row(m);
    } else if (which < 22) {
        spell_execute(m);
    } else if (which == 22) {
        spell_growth(m);
    } else {
        spell(m, m->scope != OUTER ? "RETURN" : one_in(m->d, 6) ? "EXIT" : "PRINT\"*\"");
    }
}

/* Declares some numbers more; where all are declared, another statement stands. */
static void spell_declaration(struct maker *m)
{
    int count = 1 + (int)draw(m->d, 4);
    if (m->declared == m->numbers) {
        spell_plain(m);
        return;
    }
    spell(m, "NUMBER");
    for (int i = 0; i < count && m->declared < m->numbers; i++) {
        if (i > 0) spell(m, ",");
        spell(m, m->number[m->declared++]);
    }
}

static void spell_planned(struct maker *m, int i)
{
    begin_statement(m);
    m->scope = m->plan[i].scope;
    switch (m->plan[i].planned) {
    case PLAN_PROGRAM: spell(m, "PROGRAMP"); break;
    case PLAN_NUMBER: spell_declaration(m); break;
    case PLAN_ENDROUTINE: spell(m, "ENDROUTINE"); break;
    case PLAN_END: spell(m, "END"); break;
    case PLAN_ROUTINE: {
        int before = 0;
        for (int j = 0; j < i; j++) before += m->plan[j].planned == PLAN_ROUTINE;
        spell(m, "ROUTINE");
        spell(m, routine_pool[before]);
        break;
    }
    case PLAIN: spell_plain(m); break;
    }
}

/* Cards */

void put_byte(struct deck *deck, uint8_t byte)
{
    if (deck->length < DECK_ROOM) deck->bytes[deck->length++] = byte;
}

static void put_text(struct deck *deck, const char *text)
{
    for (; *text; text++) put_byte(deck, (uint8_t)*text);
}

static void put_blanks(struct deck *deck, int count)
{
    while (count-- > 0) put_byte(deck, ' ');
}

/* Columns 1 to 8. */
static void put_label(struct maker *m, const char *label)
{
    int n = (int)strlen(label), before = (int)draw(m->d, (uint32_t)(9 - n)), room = 8 - n - before;
    if (!one_in(m->d, 3)) {
        room += before;
        before = 0;
    }
    put_blanks(m->deck, before);
    for (int i = 0; i < n; i++) {
        put_byte(m->deck, (uint8_t)label[i]);
        if (room > 0 && one_in(m->d, 12)) {
            put_blanks(m->deck, 1);
            room--;
        }
    }
    put_blanks(m->deck, room);
}

static void put_skipped_line(struct maker *m)
{
    static const char bytes[] = "ABC /*\"|z.~19";
    uint32_t which = draw(m->d, 4);
    if (which < 2) {
        int n = (int)draw(m->d, 80);
        put_byte(m->deck, '*');
        for (int i = 0; i < n; i++) put_byte(m->deck, (uint8_t)bytes[draw(m->d, sizeof bytes - 1)]);
    } else {
        put_blanks(m->deck, which == 2 ? (int)draw(m->d, 81) : 72);
        if (which == 3) put_text(m->deck, "SEQ 0/*");
    }
    put_byte(m->deck, 10);
}

void put_statement(struct deck *deck, const char *label, const char *text, size_t n, int numbered)
{
    enum { COLUMNS = 63, WHOLE_CARD = 81 };
    char card[WHOLE_CARD + 1];
    size_t from = 0;
    do {
        int joins = n - from > COLUMNS, count = joins ? COLUMNS : (int)(n - from);
        snprintf(card, sizeof card, numbered ? "%-8s%c%-63.*sSEQ%05u\n" : "%-8s%c%.*s\n", from == 0 ? label : "", joins ? '+' : ' ', count,
                 text + from, (unsigned)(deck->length / WHOLE_CARD + 1) % 100000);
        put_text(deck, card);
        from += (size_t)count;
    } while (from < n);
}

void pad_to(struct deck *deck, size_t length)
{
    enum { LINE = 80 };
    while (deck->length < length) {
        size_t n = length - deck->length < LINE ? length - deck->length : LINE;
        for (size_t i = 0; i + 1 < n; i++) put_byte(deck, i == 0 ? '*' : '-');
        put_byte(deck, 10);
    }
}

void show_deck(const struct deck *deck)
{
    for (size_t i = 0; i < deck->length; i++) {
        uint8_t c = deck->bytes[i];
        if (c == 10 || (c >= 32 && c < 127)) putchar(c);
        else printf("<%d>", c);
    }
    if (deck->length > 0 && deck->bytes[deck->length - 1] != 10) printf("<no byte 10>\n");
}

const char *made_name(int i)
{
    static char text[4];
    text[0] = (char)('A' + i / 36 / 26 % 26);
    text[1] = (char)('A' + i / 36 % 26);
    text[2] = "ABCDEFGHIJKLMNOPQRSTUVWXYZ0123456789"[i % 36];
    return text;
}

/* The statement with some blanks outside its literals. */
static int spread_blanks(struct maker *m, char *to)
{
    int n = 0, in_literal = 0;
    for (int i = 0; i < m->length; i++) {
        if (!in_literal && m->spelt[i] == '"' && m->spelt[i + 1] == '"' && m->spelt[i + 2] == '"') {
            memcpy(to + n, "\"\"\"", 3);
            n += 3;
            i += 2;
            continue;
        }
        if (!in_literal && m->spread && one_in(m->d, 9))
            for (uint32_t blanks = 1 + draw(m->d, 2); blanks > 0; blanks--) to[n++] = ' ';
        if (m->spelt[i] == '"') in_literal = !in_literal;
        to[n++] = m->spelt[i];
    }
    return n;
}

/* Whether the text up to here ends inside a literal, where blanks behind it would count. */
static int ends_inside(const char *text, int n)
{
    int in_literal = 0;
    for (int i = 0; i < n; i++) in_literal ^= text[i] == '"';
    return in_literal || (n > 0 && text[n - 1] == '"');
}

static int is_blank_text(const char *text, int n)
{
    for (int i = 0; i < n; i++)
        if (text[i] != ' ') return 0;
    return 1;
}

/* Lays the statement on as many cards as it needs, or more. */
static void lay(struct maker *m, const char *label)
{
    static const char joiners[] = "+X1*A-$\"";
    static char text[3 * MOST_SPELT];
    int n, from = 0;
    m->spread = one_in(m->d, 3);
    n = spread_blanks(m, text);
    do {
        int room = one_in(m->d, 10) ? (int)draw(m->d, 64) : 63, count = n - from < room ? n - from : room;
        int joins = from + count < n;
        if (from == 0) put_label(m, label);
        else if (one_in(m->d, 8) || is_blank_text(text + from, count)) put_text(m->deck, "IG 1+?.\"");
        else put_blanks(m->deck, 8);
        put_byte(m->deck, joins ? (uint8_t)joiners[draw(m->d, sizeof joiners - 1)] : ' ');
        for (int i = 0; i < count; i++) put_byte(m->deck, (uint8_t)text[from + i]);
        from += count;
        if (one_in(m->d, 10) && (count == 63 || !joins || !ends_inside(text, from))) {
            put_blanks(m->deck, 63 - count);
            put_text(m->deck, "SEQ*\"/09" + draw(m->d, 8));
        }
        put_byte(m->deck, 10);
    } while (from < n);
}

void start_deck(struct deck *deck, const char *name)
{
    deck->length = 0;
    deck->number = 0;
    deck->card = 0;
    deck->name = name;
}

/* Ways to spoil a statement. `#S`, `#N`, `#L`, `#R` stand for a string, a declared number, a label of the same routine and that routine. */
static const char *const mistakes[] = {
    "GOTONOWHERE", "EXECUTENOBODY", "RETURN", "ENDROUTINE", "ROUTINENEWR", "END", "PROGRAMQ", "PROGRAM1", "PRINT#N", "#N$3=\"A\"",
    "#N=UNKNOWN+1", "#N=1+#S", "#N=#L", "#L=\"A\"", "PRINTP", "GOTOP", "GOTOR1", "GOTO#S", "EXECUTE#L", "EXECUTER1", "EXECUTE#R",
    "EXECUTE#R", "EXECUTE#R", "NUMBER#N", "NUMBER#S", "NUMBERNEW1,NEW1", "SCAN#S[(A),A]", "SCANA[\"1\",(A)]", "SCANA[(B$2),\"1\",B$1]",
    "SCANA[(B),(B)]",
    "IF(#S=1)/#L", "IF(UNKNOWN<3)/#L", "IF(1<2)", "IF(1<2)/", "IF1<2/#L", "IF(-#N=1)/#L", "READ", "READ(61)A", "READ\"A\"", "PRINT(60)A",
    "PRINT\"\"", "PRINT\"A", "A=\"A\"\"B\"", "A=\"A\",", "A=,\"A\"", "REWIND60", "SPACE", "#N=2*-3", "#N=8388608", "#N=", "#N=\"A\"",
    "NOTHERE=NOTHERE+1", "A$N$N=", "PRINTSTRING(3)", "PRINTSTRING(-N,N)", "PRINTA$-1", "SCANA(B)", "SCANA[B", "SCANA[]]", "SCANA[]=(B)",
    "WRITE(A)", "GOTO", "GOTO#L,#L", "EXIT1", "TOOLONGNAME=", "PRINTTOOLONGNAME", "READA/#L,", "READA/,", "READA/NOWHERE", "READA/,NOWHERE",
    "#N=((((((((((((((((1))))))))))))))))", "#N=(((((((((((((((((1)))))))))))))))))", "PRINTSTRING(UNKNOWN)", "PRINTA$UNKNOWN",
    "#N=(1", "#N=1)", "#N=1.5", "#N=1+", "IF(1==2)/#L", "IF(1=<2)/#L", "IF(1><2)/#L", "IF(NULL(A$1))/#L", "IF(LENGTH(A$1)=1)/#L", "a=\"A\"",
    "A=A$A", "A$8388608=", "A$8388607=", "ENDX", "RETURNX", "NUMBER", "NUMBER1", "ROUTINE", "PROGRAM", "EXECUTE", "SCAN",
};

static void spell_mistake(struct maker *m)
{
    const char *from = mistakes[draw(m->d, sizeof mistakes / sizeof mistakes[0])];
    const char *label = a_label(m);
    char one[2] = {0};
    begin_statement(m);
    for (; *from; from++) {
        if (*from == '#') {
            from++;
            if (*from == 'S') spell(m, a_string(m));
            else if (*from == 'N') spell(m, m->declared > 0 ? a_number(m) : "N");
            else if (*from == 'R') spell(m, routine_pool[m->scope == OUTER ? 0 : m->scope]);
            else spell(m, label != NULL ? label : "L1");
        } else {
            one[0] = *from;
            spell(m, one);
        }
    }
}

/* Takes out, puts in or changes one or two signs of a plain statement. */
static void spell_bent(struct maker *m)
{
    static const char signs[] = "()[]$,,\"/=+-*<>AN1L";
    begin_statement(m);
    spell_plain(m);
    for (uint32_t times = 1 + draw(m->d, 2); times > 0 && m->length > 0 && m->length < MOST_SPELT - 2; times--) {
        int at = (int)draw(m->d, (uint32_t)m->length);
        char sign = signs[draw(m->d, sizeof signs - 1)];
        switch (draw(m->d, 3)) {
        case 0:
            memmove(m->spelt + at, m->spelt + at + 1, (size_t)(m->length - at));
            m->length--;
            break;
        case 1:
            memmove(m->spelt + at + 1, m->spelt + at, (size_t)(m->length - at + 1));
            m->spelt[at] = sign;
            m->length++;
            break;
        default: m->spelt[at] = sign; break;
        }
    }
    if (m->length == 0) spell(m, "A");
}

/* In a routine: executes it or an earlier one, which may execute this one. */
static void spell_ring(struct maker *m)
{
    begin_statement(m);
    spell(m, "EXECUTE");
    spell(m, routine_pool[draw(m->d, (uint32_t)m->scope + 1)]);
}

enum mistake { NO_MISTAKE, ANY_MISTAKE, RING };

static void make_deck(struct draws *d, struct deck *deck, enum mistake mistake)
{
    static struct maker m;
    int at = -1, replaces = one_in(d, 2);
    m.d = d;
    m.deck = deck;
    start_deck(deck, "random");
    plan_deck(&m);
    if (mistake != NO_MISTAKE) at = (int)draw(d, (uint32_t)m.plans);
    if (mistake == RING)
        while (at >= 0 && (m.plan[at].scope == OUTER || m.plan[at].planned == PLAN_ENDROUTINE)) at--;
    for (int i = 0; i < m.plans; i++) {
        const char *label = m.plan[i].label == NO_LABEL ? "" : m.label[m.plan[i].label];
        if (one_in(d, 8)) put_skipped_line(&m);
        spell_planned(&m, i);
        if (i != at || !replaces) lay(&m, label);
        if (i != at) continue;
        if (mistake == RING) spell_ring(&m);
        else if (one_in(d, 3)) spell_bent(&m);
        else spell_mistake(&m);
        lay(&m, replaces ? label : one_in(d, 6) ? "L1" : "");
    }
    while (one_in(d, 5)) put_skipped_line(&m);
    if (one_in(d, 10)) deck->length--;
}

void running_deck(struct draws *d, struct deck *deck)
{
    make_deck(d, deck, NO_MISTAKE);
}

/* Damage to the bytes and lines of a deck */

static void insert_bytes(struct deck *deck, size_t at, const uint8_t *bytes, size_t n)
{
    if (deck->length + n > DECK_ROOM) return;
    memmove(deck->bytes + at + n, deck->bytes + at, deck->length - at);
    memcpy(deck->bytes + at, bytes, n);
    deck->length += n;
}

static void remove_bytes(struct deck *deck, size_t at, size_t n)
{
    memmove(deck->bytes + at, deck->bytes + at + n, deck->length - at - n);
    deck->length -= n;
}

/* A random line: where it begins and how many bytes it has with its byte 10. */
static size_t a_line(struct draws *d, const struct deck *deck, size_t *length)
{
    size_t from = draw(d, (uint32_t)deck->length), to;
    while (from > 0 && deck->bytes[from - 1] != 10) from--;
    to = from;
    while (to < deck->length && deck->bytes[to] != 10) to++;
    *length = (to < deck->length ? to + 1 : to) - from;
    return from;
}

static uint8_t a_byte(struct draws *d)
{
    static const uint8_t likely[] = "ABN0129 \"\"/,*=+-()[]<>$$.a~LPSR";
    static const uint8_t rare[] = {0, 9, 10, 13, 31, 127, 128, 255};
    return one_in(d, 8) ? rare[draw(d, sizeof rare)] : likely[draw(d, sizeof likely - 1)];
}

static void damage(struct draws *d, struct deck *deck)
{
    static uint8_t kept[DECK_ROOM];
    size_t n, from, at;
    uint8_t byte = a_byte(d);
    if (deck->length == 0) return;
    at = draw(d, (uint32_t)deck->length);
    from = a_line(d, deck, &n);
    memcpy(kept, deck->bytes + from, n);
    switch (draw(d, 12)) {
    case 0: case 1: case 2: deck->bytes[at] = byte; break;
    case 3: case 4: insert_bytes(deck, at, &byte, 1); break;
    case 5: remove_bytes(deck, at, 1); break;
    case 6: remove_bytes(deck, from, n); break;
    case 7: insert_bytes(deck, from, kept, n); break;
    case 8: if (n > 1) remove_bytes(deck, from + n - 2, 1 + draw(d, 2)); break;
    case 9: if (n > 9) deck->bytes[from + (one_in(d, 3) ? 0 : 8)] = byte; break;
    case 10:
        remove_bytes(deck, from, n);
        if (deck->length == 0) break;
        from = a_line(d, deck, &at);
        insert_bytes(deck, from, kept, n);
        break;
    default: deck->length = one_in(d, 4) ? at : deck->length - deck->length % 7; break;
    }
}

/* Decks with a count at its limit, one below or one above. */

static void put_card(struct deck *deck, const char *statement)
{
    put_blanks(deck, 9);
    put_text(deck, statement);
    put_byte(deck, 10);
}

static void put_counted(struct deck *deck, const char *form, uint32_t i)
{
    char text[128];
    snprintf(text, sizeof text, form, i, i);
    put_text(deck, text);
}

static void counted_deck(struct draws *d, struct deck *deck)
{
    uint32_t which = draw(d, 10), over = draw(d, 3);
    int scans;
    start_deck(deck, "random");
    put_card(deck, "PROGRAM P");
    put_card(deck, "NUMBER N0");
    switch (which) {
    case 0: for (uint32_t i = 0; i < 252 + over; i++) put_card(deck, one_in(d, 2) ? "A=" : "N0=1"); break;
    case 1: for (uint32_t i = 0; i < 31 + over; i++) put_counted(deck, "         S%u=\n", i); break;
    case 2: for (uint32_t i = 1; i < 31 + over; i++) put_counted(deck, "         NUMBER N%u\n", i); break;
    case 3: for (uint32_t i = 10; i < 73 + over; i++) put_counted(deck, "L%u      A=\n", i); break;
    case 4: for (uint32_t i = 0; i < 15 + over; i++) put_counted(deck, "         ROUTINE R%u\n         ENDROUTINE\n", i); break;
    case 5:
        scans = one_in(d, 2);
        put_text(deck, scans ? "         SCAN B[(A)" : "         PRINT A");
        for (uint32_t i = 1; i < 19 + over; i++) put_text(deck, ",C");
        put_text(deck, scans ? "]\n" : "\n");
        break;
    case 6:
        for (uint32_t i = 0; i < 51; i++) put_card(deck, "PRINT A,A,A,A,A,A,A,A,A,A,A,A,A,A,A,A,A,A,A,A");
        put_text(deck, "         PRINT A,A");
        for (uint32_t i = 0; i < 1 + over; i++) put_text(deck, ",A");
        put_byte(deck, 10);
        break;
    case 7:
        for (uint32_t i = 0; i < 102; i++) put_card(deck, "N0=-N0*(1+2)/3-NUMBER(A)");
        put_card(deck, over == 0 ? "N0=1+1" : over == 1 ? "N0=-1+1" : "N0=-1+(-1)");
        break;
    case 8:
        for (uint32_t i = 0; i < 81; i++) put_card(deck, "A=\"12345678901234567890123456789012345678901234567890\"");
        put_text(deck, "         A=\"123456789012345678901234567890123456789012345");
        for (uint32_t i = 0; i < over; i++) put_byte(deck, 'X');
        put_text(deck, "\"\n");
        break;
    default: break;
    }
    put_card(deck, "END");
    if (which == 9) pad_to(deck, 32767 + over);
}

void random_deck(struct draws *d, struct deck *deck)
{
    uint32_t which = draw(d, 100);
    if (which < 44) {
        make_deck(d, deck, NO_MISTAKE);
    } else if (which < 65) {
        make_deck(d, deck, ANY_MISTAKE);
    } else if (which < 68) {
        make_deck(d, deck, RING);
    } else if (which < 74) {
        counted_deck(d, deck);
    } else {
        make_deck(d, deck, one_in(d, 5) ? ANY_MISTAKE : NO_MISTAKE);
        for (uint32_t times = 1 + draw(d, 2); times > 0; times--) damage(d, deck);
    }
}

size_t random_input(struct draws *d, uint8_t input[INPUT_ROOM])
{
    static const char bytes[] = "AAABB1122 ,+-0*\"=a";
    size_t n = draw(d, one_in(d, 20) ? INPUT_ROOM : 120);
    for (size_t i = 0; i < n; i++) {
        if (one_in(d, 9)) input[i] = 10;
        else input[i] = one_in(d, 60) ? (uint8_t)draw(d, 256) : (uint8_t)bytes[draw(d, sizeof bytes - 1)];
    }
    if (one_in(d, n > 1000 ? 2 : 15))
        for (size_t i = 0; i < n; i++)
            if (input[i] == 10) input[i] = '1';
    /* a first record of 1,023 to 1,025 bytes */
    if (n > MOST_STRING + 1 && one_in(d, 2)) {
        for (size_t i = 0; i < MOST_STRING; i++)
            if (input[i] == 10) input[i] = '1';
        input[MOST_STRING - 1 + draw(d, 3)] = 10;
    }
    return n;
}

/* Files */

long file_bytes(const char *stem, const char *ending, uint8_t *to, size_t most)
{
    char path[4096];
    FILE *file;
    long n;
    snprintf(path, sizeof path, "%s%s", stem, ending);
    file = fopen(path, "rb");
    if (file == NULL) return -1;
    n = (long)fread(to, 1, most, file);
    if (fgetc(file) != EOF) n = -1;
    fclose(file);
    return n;
}

int each_stem(const char *pattern, void (*each)(const char *stem))
{
    glob_t found;
    int count = 0;
    if (glob(pattern, 0, NULL, &found) != 0) return 0;
    for (; count < (int)found.gl_pathc; count++) {
        char *stem = found.gl_pathv[count];
        *strrchr(stem, '.') = 0;
        each(stem);
    }
    globfree(&found);
    return count;
}

int from_hex(const char *hex, uint8_t *bytes)
{
    int n = 0;
    unsigned byte;
    if (strcmp(hex, "-") == 0) return 0;
    for (; sscanf(hex + 2 * n, "%2x", &byte) == 1; n++) bytes[n] = (uint8_t)byte;
    return n;
}

void example_of(const char *page, uint8_t *bytes, size_t size)
{
    FILE *file = fopen(page, "r");
    char line[512];
    int inside = 0;
    while (file && fgets(line, sizeof line, file)) {
        const char *word;
        size_t place;
        if (line[0] == '#') inside = strcmp(line, "## An example\n") == 0;
        word = strtok(line, " \n");
        if (!inside || !word || strspn(word, "0123456789") != strlen(word)) continue;
        place = strtoul(word, NULL, 10);
        while ((word = strtok(NULL, " \n")) && strlen(word) == 2 && strspn(word, "0123456789ABCDEF") == 2 && place < size)
            from_hex(word, bytes + place++);
    }
    if (file) fclose(file);
}
