/* Carries out one step by document 01: values, the scan with its trials, records in and out, routines, and the numbers 15 to 21. */
#include "oracle.h"

#include <string.h>

/* The value of a string expression before anything is cut or stored. */
enum { MOST_VALUE = MOST_ROW * MOST_STRING + MOST_LITERALS };
struct value { int length; uint8_t bytes[MOST_VALUE]; };

/* One step's work: on a copy of the machine, which counts only if nothing stops the step. */
struct work {
    const struct oracle_program *p;
    struct machine m;
    const uint8_t *input;
    size_t input_len, output_len;
    uint8_t record[MOST_STRING + 1];
    int record_length;
    uint32_t notes;
    int stop;
};

static void stop_by(struct work *w, int number)
{
    if (w->stop == 0) w->stop = number;
}

/* Values (V) */

static int64_t bound_value(const struct work *w, enum bound bound, int32_t n)
{
    return bound == CONSTANT ? n : w->m.numbers[n];
}

static int64_t smaller(int64_t a, int64_t b)
{
    return a < b ? a : b;
}

/* The bytes of S or S$n: how many from the string's start (V3). A negative n: a note, `*negative`, and none (V4). */
static int part_length(struct work *w, struct part p, int *negative)
{
    int whole = w->m.strings[p.string].length;
    int64_t n;
    *negative = 0;
    if (p.bound == WHOLE) return whole;
    n = bound_value(w, p.bound, p.n);
    if (n < 0) {
        w->notes++;
        *negative = 1;
        return 0;
    }
    return (int)smaller(n, whole);
}

/* V7 */
static int is_numeric(const uint8_t *s, int n)
{
    int from = n > 0 && (s[0] == '+' || s[0] == '-');
    if (n == from) return 0;
    for (int i = from; i < n; i++)
        if (s[i] != ' ' && !(s[i] >= '0' && s[i] <= '9')) return 0;
    return 1;
}

/* NUMBER of a string (V8, Q19). */
static int64_t number_of(struct work *w, const uint8_t *s, int n)
{
    int64_t v = 0;
    if (!is_numeric(s, n)) {
        w->notes++;
        return 0;
    }
    for (int i = 0; i < n; i++) {
        if (s[i] == '+' || s[i] == '-') continue;
        v = 10 * v + (s[i] == ' ' ? 0 : s[i] - '0');
        if (v > LIMIT) {
            stop_by(w, 19);
            return 0;
        }
    }
    return s[0] == '-' ? -v : v;
}

static int64_t operand_value(struct work *w, struct operand o)
{
    int negative, n;
    switch (o.kind) {
    case OPERAND_CONSTANT: return o.constant;
    case OPERAND_NUMBER: return w->m.numbers[o.number];
    case OPERAND_LENGTH: return w->m.strings[o.part.string].length;
    default: break;
    }
    n = part_length(w, o.part, &negative);
    return number_of(w, w->m.strings[o.part.string].bytes, n);
}

/* One operator (V2): 18 for a divisor of zero, 19 for a result out of range. C's division drops the fraction. */
static int64_t operate(struct work *w, enum item_kind kind, int64_t a, int64_t b)
{
    int64_t v = 0;
    if (kind == ITEM_DIVIDE && b == 0) {
        stop_by(w, 18);
        return 0;
    }
    if (kind == ITEM_ADD) v = a + b;
    if (kind == ITEM_SUBTRACT) v = a - b;
    if (kind == ITEM_MULTIPLY) v = a * b;
    if (kind == ITEM_DIVIDE) v = a / b;
    if (v < -LIMIT || v > LIMIT) stop_by(w, 19);
    return v;
}

static int64_t expression_value(struct work *w, const struct step *s)
{
    int64_t waiting[MOST_WAITING] = {0};
    int count = 0;
    for (int i = 0; i < s->count && w->stop == 0; i++) {
        struct item it = w->p->item[s->first + i];
        if (it.kind == ITEM_OPERAND) {
            waiting[count++] = operand_value(w, it.operand);
        } else if (it.kind == ITEM_MINUS) {
            waiting[count - 1] = -waiting[count - 1];
        } else if (it.kind != ITEM_PLUS) {
            count--;
            waiting[count - 1] = operate(w, it.kind, waiting[count - 1], waiting[count]);
        }
    }
    return waiting[0];
}

/* Strings */

static void append(struct value *v, const uint8_t *bytes, int n)
{
    memcpy(v->bytes + v->length, bytes, (size_t)n);
    v->length += n;
}

static void append_byte(struct value *v, uint8_t byte)
{
    append(v, &byte, 1);
}

/* Each digit after those of the quotient by ten (V9). */
static void append_digits(struct value *v, int64_t n)
{
    if (n >= 10) append_digits(v, n / 10);
    append_byte(v, (uint8_t)('0' + n % 10));
}

/* STRING(n,m) (V9, V10): 20 if |n| exceeds 1,024. */
static void append_text(struct work *w, struct value *v, int64_t n, int64_t m)
{
    static struct value digits, text;
    int64_t width = n < 0 ? -n : n;
    if (width > MOST_STRING) {
        stop_by(w, 20);
        return;
    }
    digits.length = text.length = 0;
    append_digits(&digits, m < 0 ? -m : m);
    if (m < 0) append_byte(&text, '-');
    while (text.length + digits.length < width) append_byte(&text, n < 0 ? ' ' : '0');
    append(&text, digits.bytes, digits.length);
    if (n != 0 && text.length > width) {
        w->notes++;
        text.length = (int)width;
    }
    append(v, text.bytes, text.length);
}

/* A literal, a name, a substring or a STRING call. */
static void append_element(struct work *w, struct value *v, struct element e)
{
    int negative;
    if (e.kind == ELEMENT_LITERAL) append(v, w->p->literal + e.from, e.length);
    if (e.kind == ELEMENT_PART) append(v, w->m.strings[e.part.string].bytes, part_length(w, e.part, &negative));
    if (e.kind == ELEMENT_TEXT) append_text(w, v, bound_value(w, e.bound, e.n), w->m.numbers[e.number]);
}

static void row_value(struct work *w, struct value *v, int first, int count)
{
    v->length = 0;
    for (int i = 0; i < count && w->stop == 0; i++) append_element(w, v, w->p->element[first + i]);
}

/* Stores a value as a whole string: 20 if it is too long. */
static void store(struct work *w, int string, const struct value *v)
{
    struct text *t = &w->m.strings[string];
    if (w->stop != 0) return;
    if (v->length > MOST_STRING) {
        stop_by(w, 20);
        return;
    }
    memset(t, 0, sizeof *t);
    t->length = v->length;
    memcpy(t->bytes, v->bytes, (size_t)v->length);
}

static void make_null(struct work *w, int string)
{
    memset(&w->m.strings[string], 0, sizeof w->m.strings[string]);
}

/* The scan (N) */

/* Whether a piece of this length at this place suits the element; a free filler that is last must reach the reference's end (N2). */
static int suits(const uint8_t *reference, int n, struct scan_element e, int is_last, int at, int length)
{
    if (length > n - at) return 0;
    if (e.kind == SCAN_STRING) return length == e.length && memcmp(reference + at, e.bytes, (size_t)length) == 0;
    if (e.kind == SCAN_FIXED) return length == e.length;
    return !is_last || at + length == n;
}

/* Whether the element can have a piece at this place behind which the rest, which can begin where `rest` says, still fits. A free filler
   can if the rest begins right here or further right. */
static int can_stand(const uint8_t *reference, int n, struct scan_element e, int is_last, int at, const uint8_t *rest)
{
    int l = e.kind == SCAN_FREE && is_last ? n - at : e.length;
    if (e.kind != SCAN_FREE || is_last) return l <= n - at && rest[at + l] && suits(reference, n, e, is_last, at, l);
    for (int to = at; to <= n; to++)
        if (rest[to]) return 1;
    return 0;
}

/* The first split that fits: the least start, then the least length of each piece in turn, with which the rest can still fit. `can[i][at]`:
   the elements from i on can have pieces from `at` on. */
static int first_fit(const uint8_t *reference, int n, const struct scan_element *e, int count, struct answer *a)
{
    static uint8_t can[MOST_ROW + 1][MOST_STRING + 1];
    int at;
    for (at = 0; at <= n; at++) can[count][at] = 1;
    for (int i = count - 1; i >= 0; i--)
        for (at = 0; at <= n; at++) can[i][at] = (uint8_t)can_stand(reference, n, e[i], i == count - 1, at, can[i + 1]);
    for (at = 0; at <= n && !can[0][at]; at++) continue;
    if (at > n) return 0;
    a->start = at;
    for (int i = 0; i < count; i++) {
        int l = 0;
        while (!(at + l <= n && suits(reference, n, e[i], i == count - 1, at, l) && can[i + 1][at + l])) l++;
        a->lengths[i] = l;
        at += l;
    }
    return 1;
}

/* The trials (N9 to N13). A group that fails for too few bytes ends the scan. */
static uint32_t count_trials(const uint8_t *reference, int n, const struct scan_element *e, int count)
{
    uint32_t trials = 0;
    int place = 0, from = 0;
    while (from <= count) {
        int to = from, matched = 0;
        while (to < count && e[to].kind != SCAN_FREE) to++;
        while (!matched) {
            int at = place, i = from;
            for (; i < to; i++) {
                trials++;
                if (e[i].length > n - at) return trials;
                if (e[i].kind == SCAN_STRING && memcmp(reference + at, e[i].bytes, (size_t)e[i].length) != 0) break;
                at += e[i].length;
            }
            matched = i == to;
            place = matched ? at : place + 1;
        }
        from = to + 1;
    }
    return trials;
}

void oracle_scan(const uint8_t *reference, int n, const struct scan_element *e, int count, struct answer *a)
{
    memset(a->lengths, 0, sizeof a->lengths);
    a->start = 0;
    a->pieces = count;
    a->found = first_fit(reference, n, e, count, a);
    a->trials = count_trials(reference, n, e, count);
}

static void turn(uint8_t *bytes, int n)
{
    for (int i = 0; i < n / 2; i++) {
        uint8_t byte = bytes[i];
        bytes[i] = bytes[n - 1 - i];
        bytes[n - 1 - i] = byte;
    }
}

/* The pattern's values, before the fillers are made null. A negative fixed filler: a note and a null string, `ignored` (N4). */
static void pattern_values(struct work *w, const struct step *s, struct scan_element *e, int *ignored)
{
    static struct value values[MOST_ROW];
    for (int i = 0; i < s->count && w->stop == 0; i++) {
        struct element from = w->p->element[s->first + i];
        int64_t n = from.kind == ELEMENT_FIXED ? bound_value(w, from.part.bound, from.part.n) : 0;
        ignored[i] = 0;
        values[i].length = 0;
        if (from.kind == ELEMENT_FREE) {
            e[i] = (struct scan_element){SCAN_FREE, 0, NULL};
        } else if (from.kind == ELEMENT_FIXED && n >= 0) {
            e[i] = (struct scan_element){SCAN_FIXED, (int)n, NULL};
        } else {
            if (from.kind == ELEMENT_FIXED) {
                w->notes++;
                ignored[i] = 1;
            } else {
                append_element(w, &values[i], from);
            }
            e[i] = (struct scan_element){SCAN_STRING, values[i].length, values[i].bytes};
        }
    }
}

static int is_filler(struct element e)
{
    return e.kind == ELEMENT_FREE || e.kind == ELEMENT_FIXED;
}

/* Puts the replacement where the pieces lay, in the reference as it was scanned, turns it back if it was turned, and stores the string with
   what lies outside the reference (N5, N7). */
static void replace(struct work *w, const struct step *s, const uint8_t *reference, int n, int from, int to)
{
    static struct value replacement, inside, whole;
    struct text *t = &w->m.strings[s->part.string];
    row_value(w, &replacement, s->first + s->count, s->more);
    inside.length = whole.length = 0;
    append(&inside, reference, from);
    append(&inside, replacement.bytes, replacement.length);
    append(&inside, reference + to, n - to);
    if (s->backwards) {
        turn(inside.bytes, inside.length);
        append(&whole, t->bytes, t->length - n);
        append(&whole, inside.bytes, inside.length);
    } else {
        append(&whole, inside.bytes, inside.length);
        append(&whole, t->bytes + n, t->length - n);
    }
    store(w, s->part.string, &whole);
}

/* A SCAN or BACKSCAN in the order of work (N5). */
static int scan_step(struct work *w, const struct step *s, struct answer *a)
{
    uint8_t reference[MOST_STRING];
    struct scan_element e[MOST_ROW];
    const struct text *t = &w->m.strings[s->part.string];
    int ignored[MOST_ROW], n = t->length, at;
    if (s->part.bound != WHOLE) {
        int64_t bound = bound_value(w, s->part.bound, s->part.n);
        if (bound < 0) {
            stop_by(w, 17);
            return 0;
        }
        n = (int)smaller(bound, n);
    }
    memcpy(reference, s->backwards ? t->bytes + t->length - n : t->bytes, (size_t)n);
    if (s->backwards) turn(reference, n);
    pattern_values(w, s, e, ignored);
    if (w->stop != 0) return 0;
    for (int i = 0; i < s->count; i++)
        if (is_filler(w->p->element[s->first + i])) make_null(w, w->p->element[s->first + i].part.string);
    oracle_scan(reference, n, e, s->count, a);
    if (!a->found) return s->failure;
    at = a->start;
    for (int i = 0; i < s->count; i++) {
        struct element from = w->p->element[s->first + i];
        if (is_filler(from) && !ignored[i]) {
            struct text *named = &w->m.strings[from.part.string];
            memset(named, 0, sizeof *named);
            named->length = a->lengths[i];
            memcpy(named->bytes, reference + at, (size_t)a->lengths[i]);
        }
        at += a->lengths[i];
    }
    if (s->kind == REPLACES) replace(w, s, reference, n, a->start, at);
    return s->success;
}

/* The other statements: each answers the next step. */

static int set_string(struct work *w, const struct step *s, int next)
{
    static struct value v;
    const struct text *t = &w->m.strings[s->part.string];
    int negative, n = part_length(w, s->part, &negative);
    if (negative) return next;
    row_value(w, &v, s->first, s->count);
    append(&v, t->bytes + n, t->length - n);
    store(w, s->part.string, &v);
    return next;
}

static int is_true(struct work *w, const struct step *s)
{
    int64_t a = operand_value(w, s->left), b = w->stop == 0 ? operand_value(w, s->right) : 0;
    switch (s->comparison) {
    case EQUAL: return a == b;
    case UNEQUAL: return a != b;
    case LESS: return a < b;
    case GREATER: return a > b;
    case AT_MOST: return a <= b;
    default: return a >= b;
    }
}

static int numeric_part(struct work *w, const struct step *s)
{
    int negative, n = part_length(w, s->part, &negative);
    return is_numeric(w->m.strings[s->part.string].bytes, n);
}

/* READ (R1, R2, Q17); a record that loses bytes gets a note (W1.3). */
static int read_step(struct work *w, const struct step *s)
{
    int64_t most = s->part.bound == WHOLE ? MOST_STRING : bound_value(w, s->part.bound, s->part.n);
    size_t from = (size_t)w->m.taken, to = from;
    struct text *t = &w->m.strings[s->part.string];
    if (most < 0) {
        stop_by(w, 17);
        return 0;
    }
    if (most == 0 || from == w->input_len) return s->failure;
    while (to < w->input_len && w->input[to] != 10) to++;
    memset(t, 0, sizeof *t);
    t->length = (int)smaller((int64_t)(to - from), smaller(most, MOST_STRING));
    memcpy(t->bytes, w->input + from, (size_t)t->length);
    if (to - from > (size_t)t->length) w->notes++;
    w->m.taken = to < w->input_len ? to + 1 : to;
    return s->success;
}

/* WRITE and PRINT (R3, Q21) */
static int write_step(struct work *w, const struct step *s, int next)
{
    static struct value v;
    row_value(w, &v, s->first, s->count);
    if (w->stop != 0 || v.length == 0) return next;
    if (v.length > MOST_STRING) {
        w->notes++;
        v.length = MOST_STRING;
    }
    if ((size_t)v.length + 1 > w->output_len - w->m.put) {
        stop_by(w, 21);
        return next;
    }
    memcpy(w->record, v.bytes, (size_t)v.length);
    w->record[v.length] = 10;
    w->record_length = v.length + 1;
    return next;
}

/* Carries out the step that comes next and answers the one behind it. */
static int carry_out(struct work *w, const struct step *s, int next, struct answer *a)
{
    switch (s->kind) {
    case SET_NUMBER: {
        int64_t v = expression_value(w, s);
        if (w->stop == 0) w->m.numbers[s->number] = v;
        return next;
    }
    case SET_STRING: return set_string(w, s, next);
    case GOES: return s->success;
    case FINISHES: w->m.status = FINISHED; return next - 1;
    case IF_NULL: return w->m.strings[s->part.string].length == 0 ? s->success : s->failure;
    case IF_NUMERIC: return numeric_part(w, s) ? s->success : s->failure;
    case IF_COMPARES: return is_true(w, s) ? s->success : s->failure;
    case SCANS: case REPLACES: return scan_step(w, s, a);
    case READS: return read_step(w, s);
    case WRITES: return write_step(w, s, next);
    case EXECUTES: w->m.returns[w->m.held++] = (uint64_t)next; return s->success;
    case RETURNS: return (int)w->m.returns[--w->m.held];
    }
    return next;
}

/* Q15 and Q16 */
static int turned_down(const struct oracle_program *p, const struct machine *m, size_t input_len, size_t output_len)
{
    if (m->next >= (uint64_t)p->steps || m->held > MOST_HELD || m->taken > input_len || m->put > output_len) return 15;
    for (uint64_t i = 0; i < m->held; i++)
        if (m->returns[i] >= (uint64_t)p->steps) return 15;
    for (int i = 0; i < MOST_NUMBERS; i++)
        if (m->numbers[i] < -LIMIT || m->numbers[i] > LIMIT) return 15;
    if (p->step[m->next].kind == RETURNS && m->held == 0) return 15;
    if (p->step[m->next].kind == EXECUTES && m->held == MOST_HELD) return 15;
    return m->status != RUNNING ? 16 : 0;
}

void oracle_fresh(struct machine *m)
{
    memset(m, 0, sizeof *m);
}

/* Of strings only the bytes that count. */
static void copy_machine(struct machine *to, const struct machine *from)
{
    memcpy(to, from, offsetof(struct machine, strings));
    for (int i = 0; i < MOST_STRINGS; i++) {
        to->strings[i].length = from->strings[i].length;
        memcpy(to->strings[i].bytes, from->strings[i].bytes, (size_t)from->strings[i].length);
    }
}

void oracle_step(const struct oracle_program *p, struct machine *m, const uint8_t *input, size_t input_len, uint8_t *output,
                 size_t output_len, struct answer *a)
{
    static struct work w;
    int next;
    memset(a, 0, sizeof *a);
    a->number = turned_down(p, m, input_len, output_len);
    if (a->number != 0) return;
    w.p = p;
    copy_machine(&w.m, m);
    w.input = input;
    w.input_len = input_len;
    w.output_len = output_len;
    w.record_length = 0;
    w.notes = 0;
    w.stop = 0;
    next = carry_out(&w, &p->step[m->next], (int)m->next + 1, a);
    if (w.stop != 0) {
        memset(a, 0, sizeof *a);
        a->number = w.stop;
        m->status = STOPPED;
        return;
    }
    a->notes = w.notes;
    if (w.record_length > 0) memcpy(output + w.m.put, w.record, (size_t)w.record_length);
    w.m.put += (uint64_t)w.record_length;
    w.m.next = (uint64_t)next;
    copy_machine(m, &w.m);
}
