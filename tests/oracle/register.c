/* A second register of contract lines: document 02's wishes 2, 4 and 10 with the layout of docs/REGISTER.md. A buffer is read into a list of lines,
   a call works on the list, and the list is written again. A buffer keeps the rules when what is read of it, written again, is the same bytes. */
#include "oracle.h"

#include <inttypes.h>
#include <stdio.h>
#include <stdlib.h>
#include <string.h>

enum { MOST_CONTRACT = 8, GRAIN = 2, MOST_TONNES = 99999, OLD_FIELDS = 4, FIELDS = 5 };

/* A line of good form, and what its fields say. */
struct record {
    size_t length, contract_len;
    uint8_t bytes[LINE_SIZE], currency[CURRENCY_SIZE];
    uint64_t tonnes, price;
};

/* What a buffer holds. Until it is opened it has no house currency, and its lines have four fields. */
struct held {
    int opened;
    uint8_t house[CURRENCY_SIZE];
    uint64_t count;
    struct record records[MOST_LINES];
};

/* The form of a line */

struct field { const uint8_t *at; size_t n; };

/* So many letters A-Z. */
static int are_letters(struct field f, size_t n)
{
    for (size_t i = 0; i < f.n; i++)
        if (f.at[i] < 'A' || f.at[i] > 'Z') return 0;
    return f.n == n;
}

static int is_contract(struct field f)
{
    for (size_t i = 0; i < f.n; i++)
        if ((f.at[i] < 'A' || f.at[i] > 'Z') && (f.at[i] < '0' || f.at[i] > '9')) return 0;
    return f.n >= 1 && f.n <= MOST_CONTRACT;
}

/* A number from 1 to the highest, without leading zeros: its value, or 0 for anything else. */
static uint64_t number_in(struct field f, uint64_t most)
{
    uint64_t value = 0;
    if (f.n > 0 && f.at[0] == '0') return 0;
    for (size_t i = 0; i < f.n; i++) {
        if (f.at[i] < '0' || f.at[i] > '9') return 0;
        value = 10 * value + (uint64_t)(f.at[i] - '0');
        if (value > most) return 0;
    }
    return value;
}

/* The fields between the commas: how many, 0 if there are more than five. */
static int cut(const uint8_t *line, size_t n, struct field f[FIELDS])
{
    int last = 0;
    f[0] = (struct field){line, 0};
    for (size_t i = 0; i < n; i++) {
        if (line[i] != ',') f[last].n++;
        else if (++last == FIELDS) return 0;
        else f[last] = (struct field){line + i + 1, 0};
    }
    return last + 1;
}

/* W2.2 to W2.4, and W10.2 for the fifth field. How many fields the line has, 0 if it breaks its form. */
static int parse(const uint8_t *line, size_t n, struct record *r)
{
    struct field f[FIELDS];
    int fields = cut(line, n, f);
    if (fields < OLD_FIELDS || !is_contract(f[0]) || !are_letters(f[1], GRAIN)) return 0;
    r->tonnes = number_in(f[2], MOST_TONNES);
    r->price = number_in(f[3], PRICE_LIMIT);
    if (r->tonnes == 0 || r->price == 0) return 0;
    if (fields == FIELDS && !are_letters(f[4], CURRENCY_SIZE)) return 0;
    if (fields == FIELDS) memcpy(r->currency, f[4].at, CURRENCY_SIZE);
    memcpy(r->bytes, line, n);
    r->length = n;
    r->contract_len = f[0].n;
    return fields;
}

/* W10.3: the currency written out behind four fields. */
static void add_currency(struct record *r, const uint8_t currency[CURRENCY_SIZE])
{
    r->bytes[r->length] = ',';
    memcpy(r->bytes + r->length + 1, currency, CURRENCY_SIZE);
    memcpy(r->currency, currency, CURRENCY_SIZE);
    r->length += 1 + CURRENCY_SIZE;
}

/* Buffers */

/* Whether one of the lines held has the contract of this one. */
static int is_held(const struct held *h, const struct record *r)
{
    for (uint64_t i = 0; i < h->count; i++) {
        const struct record *other = &h->records[i];
        if (other->contract_len == r->contract_len && memcmp(other->bytes, r->bytes, r->contract_len) == 0) return 1;
    }
    return 0;
}

static void write_held(const struct held *h, uint8_t buffer[REGISTER_SIZE])
{
    memset(buffer, 0, REGISTER_SIZE);
    if (h->opened) memcpy(buffer, h->house, CURRENCY_SIZE);
    for (uint64_t i = 0; i < h->count; i++) memcpy(buffer + SLOTS_AT + i * SLOT_SIZE, h->records[i].bytes, h->records[i].length);
}

/* W2.6. A register that begins with byte 0 isn't opened. 0 for a buffer that gets 14 from every call. */
static int read_held(const uint8_t *buffer, size_t buffer_len, struct held *h)
{
    uint8_t image[REGISTER_SIZE];
    uint64_t lines;
    if (buffer_len < REGISTER_SIZE) return 0;
    h->opened = buffer[0] != 0;
    memcpy(h->house, buffer, CURRENCY_SIZE);
    if (h->opened && !are_letters((struct field){h->house, CURRENCY_SIZE}, CURRENCY_SIZE)) return 0;
    lines = oracle_register_lines(buffer);
    for (h->count = 0; h->count < lines; h->count++) {
        const uint8_t *slot = buffer + SLOTS_AT + h->count * SLOT_SIZE, *zero = memchr(slot, 0, SLOT_SIZE);
        struct record *r = &h->records[h->count];
        if (parse(slot, zero != NULL ? (size_t)(zero - slot) : SLOT_SIZE, r) != (h->opened ? FIELDS : OLD_FIELDS) || is_held(h, r)) return 0;
    }
    write_held(h, image);
    return memcmp(image, buffer, REGISTER_SIZE) == 0;
}

/* W10.6: until it is opened, only opening takes a register. */
static int read_opened(const uint8_t *buffer, size_t buffer_len, struct held *h)
{
    return read_held(buffer, buffer_len, h) && h->opened;
}

uint64_t oracle_register_lines(const uint8_t buffer[REGISTER_SIZE])
{
    uint64_t count = 0;
    while (count < MOST_LINES && buffer[SLOTS_AT + count * SLOT_SIZE] != 0) count++;
    return count;
}

/* Calls */

/* W10.3, W10.6. */
uint32_t oracle_register_open(uint8_t *buffer, size_t buffer_len, const uint8_t *currency, size_t currency_len)
{
    struct held h;
    if (!are_letters((struct field){currency, currency_len}, CURRENCY_SIZE)) return 29;
    if (!read_held(buffer, buffer_len, &h)) return 14;
    for (uint64_t i = 0; i < h.count && !h.opened; i++) add_currency(&h.records[i], currency);
    h.opened = 1;
    memcpy(h.house, currency, CURRENCY_SIZE);
    write_held(&h, buffer);
    return 0;
}

/* W2.7; W10.3 for a line of four fields. */
uint32_t oracle_register_offer(uint8_t *buffer, size_t buffer_len, const uint8_t *line, size_t line_len)
{
    struct held h;
    struct record r;
    int fields;
    if (!read_opened(buffer, buffer_len, &h)) return 14;
    fields = parse(line, line_len, &r);
    if (fields == 0) return 25;
    if (is_held(&h, &r)) return 26;
    if (h.count == MOST_LINES) return 27;
    if (fields == OLD_FIELDS) add_currency(&r, h.house);
    h.records[h.count++] = r;
    write_held(&h, buffer);
    return 0;
}

/* W2.5, W10.5. */
uint32_t oracle_register_line(const uint8_t *buffer, size_t buffer_len, uint64_t place, uint8_t *line, uint32_t *length)
{
    struct held h;
    memset(line, 0, LINE_SIZE);
    *length = 0;
    if (!read_opened(buffer, buffer_len, &h)) return 14;
    if (place >= h.count) return 0;
    memcpy(line, h.records[place].bytes, h.records[place].length);
    *length = (uint32_t)h.records[place].length;
    return 0;
}

/* A report, as far as it is made. */
struct report { size_t length; char bytes[MOST_REPORT + 1]; };

static void add_lines(const struct held *h, struct report *out)
{
    for (uint64_t i = 0; i < h->count; i++) {
        memcpy(out->bytes + out->length, h->records[i].bytes, h->records[i].length);
        out->length += h->records[i].length;
        out->bytes[out->length++] = 10;
    }
}

static int by_currency(const void *a, const void *b)
{
    return memcmp(((const struct record *)a)->currency, ((const struct record *)b)->currency, CURRENCY_SIZE);
}

/* W10.4: the lines in order of their currencies; each run of one currency makes a TOTAL line. */
static void add_totals(struct held *h, struct report *out)
{
    const struct record *r = h->records, *end = r + h->count;
    qsort(h->records, h->count, sizeof h->records[0], by_currency);
    while (r < end) {
        const struct record *first = r;
        uint64_t tonnes = 0, value = 0;
        for (; r < end && by_currency(r, first) == 0; r++) {
            tonnes += r->tonnes;
            value += r->tonnes * r->price;
        }
        out->length += (size_t)snprintf(out->bytes + out->length, sizeof out->bytes - out->length, "TOTAL,%.*s,%td,%" PRIu64 ",%" PRIu64 "\n",
                                        CURRENCY_SIZE, (const char *)first->currency, r - first, tonnes, value);
    }
}

/* W4.5. */
uint32_t oracle_register_report(const uint8_t *buffer, size_t buffer_len, uint8_t *output, size_t output_len, uint32_t *length)
{
    struct held h;
    struct report out = {.length = 0};
    *length = 0;
    if (!read_opened(buffer, buffer_len, &h)) return 14;
    add_lines(&h, &out);
    add_totals(&h, &out);
    if (out.length > output_len) return 21;
    memcpy(output, out.bytes, out.length);
    *length = (uint32_t)out.length;
    return 0;
}
