/* Reads a deck by document 01: cards, packed statements, forms, names, and the numbers 1 and 3 to 12 in their order. */
#include "oracle.h"

#include <string.h>

/* The purposes of a name (S2), as bits. */
enum purpose { PROGRAM_NAME = 1, LABEL_NAME = 2, ROUTINE_NAME = 4, NUMBER_NAME = 8, STRING_NAME = 16 };

enum keyword {
    NONE, REPLACEMENT, NUMBER, PROGRAM, END, GOTO, EXIT, IF, SCAN, BACKSCAN, READ, WRITE, PRINT, ROUTINE, EXECUTE, ENDROUTINE, RETURN
};

static const struct { const char *word; enum keyword keyword; } keywords[] = {
    {"NUMBER", NUMBER}, {"PROGRAM", PROGRAM}, {"END", END},           {"GOTO", GOTO},       {"EXIT", EXIT},
    {"IF", IF},         {"SCAN", SCAN},       {"BACKSCAN", BACKSCAN}, {"READ", READ},       {"WRITE", WRITE},
    {"PRINT", PRINT},   {"ROUTINE", ROUTINE}, {"EXECUTE", EXECUTE},   {"ENDROUTINE", ENDROUTINE}, {"RETURN", RETURN},
};

enum { OUTSIDE = -1, ABSENT = -1, NOTHING = 0x1ffff, LITERAL = 0x10000 };

struct line { const uint8_t *at; size_t length; };

/* A name met in the deck: what it was used as so far, whether it was declared (a string: whether it has its place), and what it stands for.
   `step`: a label's step, or the step behind a routine's ROUTINE. `scope`: the routine around a label, by place, or OUTSIDE. */
struct symbol { char name[MOST_NAME + 1]; int purposes, declared, place, step, scope; };

/* One mention of a name in a statement. */
struct use { int symbol; enum purpose purpose; int declares; };

/* The statement being read. Its step, elements and items hold symbols where a program holds places. */
struct statement {
    uint32_t card;
    struct line label;
    uint8_t text[MOST_DECK];
    size_t length;
    int32_t packed[MOST_DECK];
    size_t packed_length, at;
    struct { size_t from, length; } literal[MOST_DECK];
    int literals, literals_whole;
    enum keyword keyword;
    struct use use[MOST_DECK];
    int uses;
    struct step step;
    struct element element[MOST_DECK];
    struct item item[MOST_DECK];
    int elements, items, literal_bytes;
};

static struct reading {
    const uint8_t *deck;
    size_t length, at;
    uint32_t line;
    struct symbol symbol[MOST_DECK];
    int symbols;
    struct statement now;
    int statements, ended, labels, routines, scope, scope_step;
    int step_scope[MOST_STEPS], is_routine[MOST_STEPS];
    struct oracle_program *program;
} r;

/* Cards (C1 to C5) */

static int next_line(struct line *l)
{
    if (r.at == r.length) return 0;
    l->at = r.deck + r.at;
    l->length = 0;
    while (r.at + l->length < r.length && l->at[l->length] != 10) l->length++;
    r.at += l->length;
    if (r.at < r.length) r.at++;
    r.line++;
    return 1;
}

static int is_comment(struct line l)
{
    return l.length > 0 && l.at[0] == '*';
}

static int is_blank(struct line l)
{
    for (size_t i = 0; i < l.length && i < 72; i++)
        if (l.at[i] != ' ') return 0;
    return 1;
}

/* What Q3 says of the bytes and the length of every line. */
static int is_sound(struct line l)
{
    if (l.length > 80) return 0;
    for (size_t i = 0; i < l.length; i++)
        if (l.at[i] < 32 || l.at[i] > 126) return 0;
    return 1;
}

static uint8_t column9(struct line l)
{
    return l.length >= 9 ? l.at[8] : ' ';
}

static void append_text(struct line l)
{
    for (size_t i = 9; i < l.length && i < 72; i++) r.now.text[r.now.length++] = l.at[i];
}

/* Gathers the statement whose first line is given: 0 if one of its lines breaks Q3. */
static int gather(struct line l)
{
    r.now.card = r.line;
    r.now.label = l;
    r.now.length = 0;
    for (;;) {
        if (!is_sound(l) || column9(l) == '/') return 0;
        append_text(l);
        if (column9(l) == ' ') return 1;
        if (!next_line(&l) || is_comment(l) || is_blank(l)) return 0;
    }
}

/* Packing (C6, C9): the text with the blanks outside literals left out; each literal is one sign, LITERAL and its place in the list.
   Packing ends at a literal that is empty or not closed. */
static void pack(void)
{
    struct statement *s = &r.now;
    size_t i = 0;
    s->packed_length = 0;
    s->literals = 0;
    s->literals_whole = 1;
    while (i < s->length) {
        if (s->text[i] == ' ') {
            i++;
        } else if (s->text[i] != '"') {
            s->packed[s->packed_length++] = s->text[i++];
        } else {
            size_t from = i + 1, end = i + 1;
            if (i + 2 < s->length && s->text[i + 1] == '"' && s->text[i + 2] == '"') {
                end = i + 2;
            } else {
                while (end < s->length && s->text[end] != '"') end++;
                if (end == s->length || end == from) {
                    s->literals_whole = 0;
                    return;
                }
            }
            s->literal[s->literals].from = from;
            s->literal[s->literals].length = end - from;
            s->packed[s->packed_length++] = LITERAL + s->literals++;
            i = end + 1;
        }
    }
}

/* Signs of the packed statement */

static int is_letter(int32_t c)
{
    return c >= 'A' && c <= 'Z';
}

static int is_digit(int32_t c)
{
    return c >= '0' && c <= '9';
}

static int32_t sign_at(size_t at)
{
    return at < r.now.packed_length ? r.now.packed[at] : NOTHING;
}

static int32_t peek(void)
{
    return sign_at(r.now.at);
}

static int take(int32_t sign)
{
    if (peek() != sign) return 0;
    r.now.at++;
    return 1;
}

static int begins(size_t at, const char *word)
{
    for (size_t i = 0; word[i]; i++)
        if (sign_at(at + i) != word[i]) return 0;
    return 1;
}

static int take_word(const char *word)
{
    if (!begins(r.now.at, word)) return 0;
    r.now.at += strlen(word);
    return 1;
}

static int at_end(void)
{
    return peek() == NOTHING;
}

/* Names and constants */

/* How many signs a name at this place has; 0 if there is none or it is too long (S1). */
static size_t name_length(size_t at)
{
    size_t n = 0;
    if (!is_letter(sign_at(at))) return 0;
    while (is_letter(sign_at(at + n)) || is_digit(sign_at(at + n))) n++;
    return n <= MOST_NAME ? n : 0;
}

static int symbol_of(const char *name)
{
    for (int i = 0; i < r.symbols; i++)
        if (strcmp(r.symbol[i].name, name) == 0) return i;
    memset(&r.symbol[r.symbols], 0, sizeof r.symbol[0]);
    strcpy(r.symbol[r.symbols].name, name);
    return r.symbols++;
}

static void note_use(int symbol, enum purpose purpose, int declares)
{
    r.now.use[r.now.uses++] = (struct use){symbol, purpose, declares};
}

static int read_name(int *symbol)
{
    char name[MOST_NAME + 1] = {0};
    size_t n = name_length(r.now.at);
    if (n == 0) return 0;
    for (size_t i = 0; i < n; i++) name[i] = (char)sign_at(r.now.at + i);
    r.now.at += n;
    *symbol = symbol_of(name);
    return 1;
}

static int read_name_as(enum purpose purpose, int declares, int *symbol)
{
    if (!read_name(symbol)) return 0;
    note_use(*symbol, purpose, declares);
    return 1;
}

static int read_constant(int32_t *value)
{
    int64_t v = 0;
    if (!is_digit(peek())) return 0;
    for (; is_digit(peek()); r.now.at++)
        if (v <= LIMIT) v = 10 * v + (peek() - '0');
    *value = (int32_t)(v <= LIMIT ? v : 0);
    return v <= LIMIT;
}

/* An optional sign, then a constant. */
static int read_signed(int32_t *value)
{
    int negative = peek() == '-';
    if (peek() == '+' || peek() == '-') r.now.at++;
    if (!read_constant(value)) return 0;
    if (negative) *value = -*value;
    return 1;
}

/* The length behind `$` (S17). */
static int read_bound(enum bound *bound, int32_t *n)
{
    int symbol = 0;
    if (is_digit(peek())) {
        *bound = CONSTANT;
        return read_constant(n);
    }
    *bound = VARIABLE;
    if (!read_name_as(NUMBER_NAME, 0, &symbol)) return 0;
    *n = symbol;
    return 1;
}

static int read_part(struct part *p)
{
    *p = (struct part){0, WHOLE, 0};
    if (!read_name_as(STRING_NAME, 0, &p->string)) return 0;
    return !take('$') || read_bound(&p->bound, &p->n);
}

/* Numeric expressions (S11 to S13) */

static int read_called_or_number(struct operand *o)
{
    *o = (struct operand){OPERAND_NUMBER, 0, 0, {0, WHOLE, 0}};
    if (take_word("LENGTH(")) {
        o->kind = OPERAND_LENGTH;
        return read_name_as(STRING_NAME, 0, &o->part.string) && take(')');
    }
    if (take_word("NUMBER(")) {
        o->kind = OPERAND_VALUE;
        return read_part(&o->part) && take(')');
    }
    return read_name_as(NUMBER_NAME, 0, &o->number);
}

static void put_item(enum item_kind kind, struct operand operand)
{
    r.now.item[r.now.items++] = (struct item){kind, operand};
}

static const struct operand no_operand;

static int read_expression(int depth);

static int read_factor(int depth)
{
    struct operand o = no_operand;
    if (take('(')) return depth < MOST_DEPTH && read_expression(depth + 1) && take(')');
    if (is_digit(peek())) {
        if (!read_constant(&o.constant)) return 0;
    } else if (!read_called_or_number(&o)) {
        return 0;
    }
    put_item(ITEM_OPERAND, o);
    return 1;
}

static int read_term(int depth)
{
    if (!read_factor(depth)) return 0;
    while (peek() == '*' || peek() == '/') {
        enum item_kind operator = peek() == '*' ? ITEM_MULTIPLY : ITEM_DIVIDE;
        r.now.at++;
        if (!read_factor(depth)) return 0;
        put_item(operator, no_operand);
    }
    return 1;
}

static int read_expression(int depth)
{
    int32_t sign = peek() == '+' || peek() == '-' ? peek() : 0;
    if (sign) r.now.at++;
    if (!read_term(depth)) return 0;
    if (sign) put_item(sign == '+' ? ITEM_PLUS : ITEM_MINUS, no_operand);
    while (peek() == '+' || peek() == '-') {
        enum item_kind operator = peek() == '+' ? ITEM_ADD : ITEM_SUBTRACT;
        r.now.at++;
        if (!read_term(depth)) return 0;
        put_item(operator, no_operand);
    }
    return 1;
}

/* String expressions and patterns (S16 to S19) */

/* Behind `STRING(`: m), or n,m). */
static int read_text_call(struct element *e)
{
    int symbol;
    e->kind = ELEMENT_TEXT;
    e->bound = CONSTANT;
    e->n = 0;
    if (is_letter(peek())) {
        if (!read_name_as(NUMBER_NAME, 0, &symbol)) return 0;
        if (take(')')) {
            e->number = symbol;
            return 1;
        }
        e->bound = VARIABLE;
        e->n = symbol;
    } else if (!read_signed(&e->n)) {
        return 0;
    }
    return take(',') && read_name_as(NUMBER_NAME, 0, &e->number) && take(')');
}

static int read_filler(struct element *e)
{
    if (!read_part(&e->part)) return 0;
    e->kind = e->part.bound == WHOLE ? ELEMENT_FREE : ELEMENT_FIXED;
    return take(')');
}

static int read_element(int in_pattern)
{
    struct element *e = &r.now.element[r.now.elements++];
    memset(e, 0, sizeof *e);
    if (peek() >= LITERAL && peek() < NOTHING) {
        int i = peek() - LITERAL;
        e->kind = ELEMENT_LITERAL;
        e->from = (int)r.now.literal[i].from;
        e->length = (int)r.now.literal[i].length;
        r.now.literal_bytes += e->length;
        r.now.at++;
        return 1;
    }
    if (take_word("STRING(")) return read_text_call(e);
    if (in_pattern && take('(')) return read_filler(e);
    e->kind = ELEMENT_PART;
    return read_part(&e->part);
}

/* Nothing, or elements parted by commas. Where no element begins, nothing is taken; the caller then looks for what must follow. */
static int read_row(int in_pattern, int *count)
{
    int32_t c = peek();
    *count = 0;
    if (!(is_letter(c) || (c >= LITERAL && c < NOTHING) || (in_pattern && c == '('))) return 1;
    do {
        if (!read_element(in_pattern)) return 0;
        (*count)++;
    } while (take(','));
    return 1;
}

/* Statements: each reader begins behind the keyword and reads to the end. */

/* `/s,f`, `/s` or `/,f` (S9). */
static int read_branch(void)
{
    if (!take('/')) return 0;
    if (take(',')) return read_name_as(LABEL_NAME, 0, &r.now.step.failure);
    if (!read_name_as(LABEL_NAME, 0, &r.now.step.success)) return 0;
    return !take(',') || read_name_as(LABEL_NAME, 0, &r.now.step.failure);
}

static int read_optional_branch(void)
{
    return at_end() || read_branch();
}

static int read_declared_numbers(void)
{
    int symbol;
    do {
        if (!read_name_as(NUMBER_NAME, 1, &symbol)) return 0;
    } while (take(','));
    return 1;
}

static int read_comparison(enum comparison *c)
{
    static const struct { const char *sign; enum comparison comparison; } signs[] = {
        {"<>", UNEQUAL}, {"<=", AT_MOST}, {">=", AT_LEAST}, {"=", EQUAL}, {"<", LESS}, {">", GREATER},
    };
    for (size_t i = 0; i < sizeof signs / sizeof signs[0]; i++)
        if (take_word(signs[i].sign)) {
            *c = signs[i].comparison;
            return 1;
        }
    return 0;
}

static int read_if_operand(struct operand *o)
{
    *o = no_operand;
    if (peek() == '+' || peek() == '-' || is_digit(peek())) return read_signed(&o->constant);
    return read_called_or_number(o);
}

static int read_test(void)
{
    struct step *s = &r.now.step;
    if (take_word("NULL(")) {
        s->kind = IF_NULL;
        return read_name_as(STRING_NAME, 0, &s->part.string) && take(')');
    }
    if (take_word("NUMERIC(")) {
        s->kind = IF_NUMERIC;
        return read_part(&s->part) && take(')');
    }
    s->kind = IF_COMPARES;
    return read_if_operand(&s->left) && read_comparison(&s->comparison) && read_if_operand(&s->right);
}

static int read_scan(int backwards)
{
    struct step *s = &r.now.step;
    s->backwards = backwards;
    if (!read_part(&s->part) || !take('[') || !read_row(1, &s->count) || !take(']')) return 0;
    s->kind = take('=') ? REPLACES : SCANS;
    if (s->kind == REPLACES && !read_row(0, &s->more)) return 0;
    return read_optional_branch();
}

static int read_read(void)
{
    r.now.step.kind = READS;
    take_word("(60)");
    return read_part(&r.now.step.part) && read_optional_branch();
}

static int read_write(void)
{
    r.now.step.kind = WRITES;
    take_word("(61)");
    return read_row(0, &r.now.step.count);
}

/* A bare name before `=` is a number if it was declared before, else a string. */
static int read_replacement(void)
{
    struct step *s = &r.now.step;
    size_t n = name_length(r.now.at);
    int symbol;
    if (sign_at(r.now.at + n) == '=') {
        read_name(&symbol);
        if (r.symbol[symbol].purposes == NUMBER_NAME) {
            s->kind = SET_NUMBER;
            s->number = symbol;
            note_use(symbol, NUMBER_NAME, 0);
            take('=');
            return read_expression(0);
        }
        r.now.at -= n;
    }
    s->kind = SET_STRING;
    return read_part(&s->part) && take('=') && read_row(0, &s->count);
}

static int read_form(void)
{
    struct step *s = &r.now.step;
    int symbol;
    switch (r.now.keyword) {
    case REPLACEMENT: return read_replacement();
    case NUMBER: return read_declared_numbers();
    case PROGRAM: return read_name_as(PROGRAM_NAME, 1, &symbol);
    case END: case EXIT: s->kind = FINISHES; return 1;
    case GOTO: s->kind = GOES; return read_name_as(LABEL_NAME, 0, &s->success);
    case IF: return take('(') && read_test() && take(')') && read_branch();
    case SCAN: return read_scan(0);
    case BACKSCAN: return read_scan(1);
    case READ: return read_read();
    case WRITE: case PRINT: return read_write();
    case ROUTINE: s->kind = GOES; return read_name_as(ROUTINE_NAME, 1, &symbol);
    case EXECUTE: s->kind = EXECUTES; return read_name_as(ROUTINE_NAME, 0, &s->success);
    case ENDROUTINE: case RETURN: s->kind = RETURNS; return 1;
    case NONE: break;
    }
    return 0;
}

/* What the statement is (S3 to S5). */

/* A name, perhaps `$` and digits or a name, then `=`. */
static int is_replacement(void)
{
    size_t at = name_length(0);
    if (at == 0) return 0;
    if (sign_at(at) == '$') {
        at++;
        if (is_digit(sign_at(at))) {
            while (is_digit(sign_at(at))) at++;
        } else {
            if (name_length(at) == 0) return 0;
            at += name_length(at);
        }
    }
    return sign_at(at) == '=';
}

static enum keyword leading(size_t *length)
{
    enum keyword found = NONE;
    *length = 0;
    if (is_replacement()) return REPLACEMENT;
    for (size_t i = 0; i < sizeof keywords / sizeof keywords[0]; i++)
        if (begins(0, keywords[i].word) && strlen(keywords[i].word) > *length) {
            found = keywords[i].keyword;
            *length = strlen(keywords[i].word);
        }
    return found;
}

/* The label in columns 1 to 8 of the first line: none, a name, or 0 if its form is broken. */
static int read_label(int *symbol)
{
    char name[MOST_NAME + 1] = {0};
    size_t n = 0;
    for (size_t i = 0; i < r.now.label.length && i < 8; i++) {
        uint8_t c = r.now.label.at[i];
        if (c == ' ') continue;
        if (!(is_letter(c) || (n > 0 && is_digit(c)))) return 0;
        name[n++] = (char)c;
    }
    *symbol = ABSENT;
    if (n > 0) {
        *symbol = symbol_of(name);
        note_use(*symbol, LABEL_NAME, 1);
    }
    return 1;
}

/* The numbers of one statement (Q4 to Q10) */

static int is_misplaced(void)
{
    return r.ended || (r.now.keyword == PROGRAM) != (r.statements == 0);
}

/* Label and form (Q5). */
static int has_form(size_t keyword_length, int *label)
{
    r.now.at = keyword_length;
    r.now.uses = r.now.elements = r.now.items = r.now.literal_bytes = 0;
    memset(&r.now.step, 0, sizeof r.now.step);
    r.now.step.success = r.now.step.failure = ABSENT;
    return read_label(label) && r.now.literals_whole && read_form() && at_end();
}

/* Q6, learning each purpose and declaration on the way. */
static int is_ambiguous(void)
{
    for (int i = 0; i < r.now.uses; i++) {
        struct use u = r.now.use[i];
        struct symbol *s = &r.symbol[u.symbol];
        if (s->purposes & ~(int)u.purpose) return 1;
        if (u.declares && s->declared) return 1;
        s->purposes = u.purpose;
        if (u.declares) s->declared = 1;
    }
    return 0;
}

static int is_undeclared(void)
{
    for (int i = 0; i < r.now.uses; i++)
        if (r.now.use[i].purpose == NUMBER_NAME && !r.symbol[r.now.use[i].symbol].declared) return 1;
    return 0;
}

static int is_filler(struct element e)
{
    return e.kind == ELEMENT_FREE || e.kind == ELEMENT_FIXED;
}

static int clashes(void)
{
    const struct element *e = r.now.element;
    if (!is_scan(r.now.step.kind)) return 0;
    for (int i = 0; i < r.now.step.count; i++) {
        if (!is_filler(e[i])) continue;
        if (e[i].part.string == r.now.step.part.string) return 1;
        for (int j = i + 1; j < r.now.step.count; j++)
            if (e[j].kind == ELEMENT_PART && e[j].part.string == e[i].part.string) return 1;
    }
    return 0;
}

static int is_out_of_scope(void)
{
    switch (r.now.keyword) {
    case ROUTINE: case END: return r.scope != OUTSIDE;
    case RETURN: case ENDROUTINE: return r.scope == OUTSIDE;
    default: return 0;
    }
}

/* How many strings the statement names for the first time; each gets its place. */
static int place_strings(void)
{
    int strings = r.program->strings;
    for (int i = 0; i < r.now.uses; i++) {
        struct symbol *s = &r.symbol[r.now.use[i].symbol];
        if (r.now.use[i].purpose != STRING_NAME || s->declared) continue;
        s->declared = 1;
        s->place = strings++;
        if (s->place < MOST_STRINGS) strcpy(r.program->string_name[s->place], s->name);
    }
    return strings;
}

static int place_numbers(void)
{
    int numbers = r.program->numbers;
    for (int i = 0; i < r.now.uses; i++) {
        struct symbol *s = &r.symbol[r.now.use[i].symbol];
        if (r.now.use[i].purpose != NUMBER_NAME || !r.now.use[i].declares) continue;
        s->place = numbers++;
        if (s->place < MOST_NUMBERS) strcpy(r.program->number_name[s->place], s->name);
    }
    return numbers;
}

/* Q10, counting the statement in. */
static int is_too_much(int label)
{
    struct oracle_program *p = r.program;
    p->strings = place_strings();
    p->numbers = place_numbers();
    r.statements++;
    r.labels += label != ABSENT;
    r.routines += r.now.keyword == ROUTINE;
    return r.statements > MOST_STEPS || p->strings > MOST_STRINGS || p->numbers > MOST_NUMBERS || r.labels > MOST_LABELS ||
           r.routines > MOST_ROUTINES || r.now.step.count > MOST_ROW || r.now.step.more > MOST_ROW ||
           p->elements + r.now.elements > MOST_ELEMENTS || p->items + r.now.items > MOST_ITEMS ||
           p->literals + r.now.literal_bytes > MOST_LITERALS;
}

/* From symbols to places */

static void place_part(struct part *p)
{
    p->string = r.symbol[p->string].place;
    if (p->bound == VARIABLE) p->n = r.symbol[p->n].place;
}

static void place_operand(struct operand *o)
{
    if (o->kind == OPERAND_NUMBER) o->number = r.symbol[o->number].place;
    if (o->kind == OPERAND_LENGTH || o->kind == OPERAND_VALUE) place_part(&o->part);
}

static void add_element(struct element e)
{
    struct oracle_program *p = r.program;
    if (e.kind == ELEMENT_LITERAL) {
        memcpy(p->literal + p->literals, r.now.text + e.from, (size_t)e.length);
        e.from = p->literals;
        p->literals += e.length;
    } else if (e.kind == ELEMENT_TEXT) {
        e.number = r.symbol[e.number].place;
        if (e.bound == VARIABLE) e.n = r.symbol[e.n].place;
    } else {
        place_part(&e.part);
    }
    p->element[p->elements++] = e;
}

static void add_item(struct item i)
{
    if (i.kind == ITEM_OPERAND) place_operand(&i.operand);
    r.program->item[r.program->items++] = i;
}

/* Adds the statement's step. Branches stay symbols until the deck is read. */
static void add_step(void)
{
    struct oracle_program *p = r.program;
    struct step s = r.now.step;
    s.card = r.now.card;
    s.first = s.kind == SET_NUMBER ? p->items : p->elements;
    if (s.kind == SET_NUMBER) {
        s.number = r.symbol[s.number].place;
        s.count = r.now.items;
    }
    if (has_part(s.kind)) place_part(&s.part);
    if (s.kind == IF_COMPARES) {
        place_operand(&s.left);
        place_operand(&s.right);
    }
    for (int i = 0; i < r.now.elements; i++) add_element(r.now.element[i]);
    for (int i = 0; i < r.now.items; i++) add_item(r.now.item[i]);
    r.step_scope[p->steps] = r.scope;
    r.is_routine[p->steps] = r.now.keyword == ROUTINE;
    p->step[p->steps++] = s;
}

/* Labels mean the next step (S7); a routine begins behind its ROUTINE and ends with its ENDROUTINE (S8). */
static void learn(int label)
{
    struct oracle_program *p = r.program;
    if (label != ABSENT) {
        r.symbol[label].step = p->steps;
        r.symbol[label].scope = r.scope;
    }
    if (r.now.keyword != PROGRAM && r.now.keyword != NUMBER) add_step();
    if (r.now.keyword == ROUTINE) {
        struct symbol *s = &r.symbol[r.now.use[r.now.uses - 1].symbol];
        s->place = r.routines - 1;
        s->step = p->steps;
        r.scope = s->place;
        r.scope_step = p->steps - 1;
    }
    if (r.now.keyword == ENDROUTINE) {
        p->step[r.scope_step].success = p->steps;
        r.scope = OUTSIDE;
    }
    if (r.now.keyword == END) r.ended = 1;
}

static int judge_statement(struct line first)
{
    size_t keyword_length;
    int label = ABSENT;
    if (!gather(first)) return 3;
    pack();
    r.now.keyword = leading(&keyword_length);
    if (is_misplaced()) return 4;
    if (!has_form(keyword_length, &label)) return 5;
    if (is_ambiguous()) return 6;
    if (is_undeclared()) return 7;
    if (clashes()) return 8;
    if (is_out_of_scope()) return 9;
    if (is_too_much(label)) return 10;
    learn(label);
    return 0;
}

/* The whole deck (Q11, Q12) */

static int is_bad_label(int symbol, int scope)
{
    if (symbol == ABSENT) return 0;
    return !r.symbol[symbol].declared || r.symbol[symbol].scope != scope;
}

static int has_bad_branch(void)
{
    for (int i = 0; i < r.program->steps; i++) {
        const struct step *s = &r.program->step[i];
        if (s->kind == EXECUTES) {
            if (!r.symbol[s->success].declared) return 1;
        } else if (!r.is_routine[i]) {
            if (is_bad_label(s->success, r.step_scope[i]) || is_bad_label(s->failure, r.step_scope[i])) return 1;
        }
    }
    return 0;
}

static int has_recursion(void)
{
    int executes[MOST_ROUTINES][MOST_ROUTINES] = {{0}};
    for (int i = 0; i < r.program->steps; i++)
        if (r.program->step[i].kind == EXECUTES && r.step_scope[i] != OUTSIDE)
            executes[r.step_scope[i]][r.symbol[r.program->step[i].success].place] = 1;
    for (int k = 0; k < MOST_ROUTINES; k++)
        for (int i = 0; i < MOST_ROUTINES; i++)
            for (int j = 0; j < MOST_ROUTINES; j++)
                if (executes[i][k] && executes[k][j]) executes[i][j] = 1;
    for (int i = 0; i < MOST_ROUTINES; i++)
        if (executes[i][i]) return 1;
    return 0;
}

static int step_of(int symbol, int next)
{
    return symbol == ABSENT ? next : r.symbol[symbol].step;
}

/* Branches as steps; one left out is the next step. ROUTINE's step is known already. */
static void resolve(void)
{
    for (int i = 0; i < r.program->steps; i++) {
        struct step *s = &r.program->step[i];
        int tests = s->kind == IF_NULL || s->kind == IF_NUMERIC || s->kind == IF_COMPARES || is_scan(s->kind) || s->kind == READS;
        int leads = tests || s->kind == EXECUTES || s->kind == GOES;
        if (!r.is_routine[i]) s->success = leads ? step_of(s->success, i + 1) : 0;
        s->failure = tests ? step_of(s->failure, i + 1) : 0;
    }
}

int oracle_read(const uint8_t *deck, size_t n, struct oracle_program *p, uint32_t *card)
{
    struct line l;
    *card = 0;
    memset(p, 0, sizeof *p);
    if (n > MOST_DECK) return 1;
    r.deck = deck;
    r.length = n;
    r.at = 0;
    r.line = 0;
    r.symbols = r.statements = r.ended = r.labels = r.routines = 0;
    r.scope = OUTSIDE;
    r.program = p;
    while (next_line(&l)) {
        uint32_t line = r.line;
        int skipped = is_comment(l) || is_blank(l);
        int number = skipped ? (is_sound(l) ? 0 : 3) : judge_statement(l);
        if (number != 0) {
            *card = line;
            return number;
        }
    }
    if (!r.ended) return 4;
    if (has_bad_branch()) return 11;
    if (has_recursion()) return 12;
    resolve();
    return 0;
}
