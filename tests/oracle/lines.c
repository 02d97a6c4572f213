/* Lines, house currencies and registers. Numbers at the ends of their ranges, contracts and currencies much alike and bytes just outside a class are
   met more often than others. */
#include "lines.h"
#include "damage.h"

#include <stdio.h>
#include <string.h>

#define PICK(d, list) (list)[draw(d, sizeof(list) / sizeof((list)[0]))]
enum { MOST_CONTRACT = 8, NUMBER_ROOM = 12 };
static const char signs[] = "ABCDEFGHIJKLMNOPQRSTUVWXYZ0123456789";

void make_line(struct line *line, const char *contract, const char *grain, const char *tonnes, const char *price, const char *currency)
{
    int n = snprintf((char *)line->bytes, LINE_ROOM, "%s,%s,%s,%s%s%s", contract, grain, tonnes, price, currency != NULL ? "," : "",
                     currency != NULL ? currency : "");
    line->length = n < LINE_ROOM ? (size_t)n : LINE_ROOM - 1;
}

/* A number from 1 to the highest of so many digits, as text. */
static const char *number_text(struct draws *d, int digits, char text[NUMBER_ROOM])
{
    uint32_t power = 1;
    for (uint32_t i = draw(d, (uint32_t)digits + 1); i > 0; i--) power *= 10;
    switch (draw(d, 4)) {
    case 0: snprintf(text, NUMBER_ROOM, "%u", power > 1 ? power - 1 : 1); break;
    case 1: snprintf(text, NUMBER_ROOM, "%u", power > 1 ? power / 10 : 1); break;
    default: snprintf(text, NUMBER_ROOM, "%u", power > 1 ? 1 + draw(d, power - 1) : 1); break;
    }
    return text;
}

/* Contracts of a kind: any; of one letter twice or more; in a row; eight signs that differ in one or two. */
static const char *contract_text(struct draws *d, uint32_t kind, char text[MOST_CONTRACT + 1])
{
    uint32_t n = 1 + draw(d, MOST_CONTRACT);
    memset(text, 0, MOST_CONTRACT + 1);
    switch (kind) {
    case 0: for (uint32_t i = 0; i < n; i++) text[i] = signs[draw(d, 36)]; break;
    case 1: for (uint32_t i = 0; i < n; i++) text[i] = "A0"[draw(d, 2)]; break;
    case 2: snprintf(text, MOST_CONTRACT + 1, "C%07u", draw(d, 600)); break;
    default:
        memcpy(text, "ZZZZZZZZ", MOST_CONTRACT);
        for (int i = 0; i < 2; i++) text[draw(d, MOST_CONTRACT)] = signs[draw(d, 36)];
        break;
    }
    return text;
}

enum { CONTRACT_KINDS = 4 };

/* Currencies of a kind: two; eight that are near each other; any. */
static const char *currency_text(struct draws *d, uint32_t kind, char text[CURRENCY_SIZE + 1])
{
    if (kind == 0) return draw(d, 2) ? "EUR" : "USD";
    for (int i = 0; i < CURRENCY_SIZE; i++) text[i] = kind == 1 ? "AZ"[draw(d, 2)] : signs[draw(d, 26)];
    text[CURRENCY_SIZE] = 0;
    return text;
}

enum { CURRENCY_KINDS = 3, NO_CURRENCY = CURRENCY_KINDS };

/* A line with a contract and a currency of these kinds, or of four fields. */
static void good_line(struct draws *d, uint32_t kind, uint32_t currency_kind, struct line *line)
{
    char contract[MOST_CONTRACT + 1], grain[3] = {signs[draw(d, 26)], signs[draw(d, 26)], 0}, tonnes[NUMBER_ROOM], price[NUMBER_ROOM];
    char currency[CURRENCY_SIZE + 1];
    make_line(line, contract_text(d, kind, contract), grain, number_text(d, 5, tonnes), number_text(d, 6, price),
              currency_kind == NO_CURRENCY ? NULL : currency_text(d, currency_kind, currency));
}

/* A currency of any kind, or none where this register isn't opened. */
static uint32_t kind_for(struct draws *d, const uint8_t *buffer)
{
    return buffer[0] != 0 ? draw(d, CURRENCY_KINDS) : NO_CURRENCY;
}

static uint8_t *slot(uint8_t *buffer, uint64_t place)
{
    return buffer + SLOTS_AT + place * SLOT_SIZE;
}

void put_line(uint8_t buffer[REGISTER_SIZE], uint64_t place, const struct line *line)
{
    memset(slot(buffer, place), 0, SLOT_SIZE);
    memcpy(slot(buffer, place), line->bytes, line->length < SLOT_SIZE ? line->length : SLOT_SIZE);
}

/* Whether one of the first lines has the contract of this good one: the same bytes up to the comma, and the comma. */
static int is_held(uint8_t *buffer, uint64_t count, const struct line *line)
{
    size_t n = (size_t)((const uint8_t *)memchr(line->bytes, ',', line->length) - line->bytes) + 1;
    for (uint64_t i = 0; i < count; i++)
        if (memcmp(slot(buffer, i), line->bytes, n) == 0) return 1;
    return 0;
}

void random_register(struct draws *d, int opened, uint8_t buffer[REGISTER_SIZE])
{
    uint32_t which = draw(d, 12), kind = draw(d, CONTRACT_KINDS), currency_kind = opened ? draw(d, CURRENCY_KINDS) : NO_CURRENCY;
    uint64_t lines = which == 0 ? MOST_LINES - draw(d, 3) : which == 1 ? draw(d, MOST_LINES) : draw(d, 12), count = 0;
    char house[CURRENCY_SIZE + 1];
    memset(buffer, 0, REGISTER_SIZE);
    if (opened) memcpy(buffer, currency_text(d, currency_kind, house), CURRENCY_SIZE);
    while (count < lines) {
        struct line line;
        good_line(d, draw(d, 8) ? kind : 0, currency_kind, &line);
        if (!is_held(buffer, count, &line)) put_line(buffer, count++, &line);
    }
}

/* The line in a slot, with zeros behind it. */
static void line_of(const uint8_t *slot, struct line *line)
{
    memset(line, 0, sizeof *line);
    while (line->length < SLOT_SIZE && slot[line->length] != 0) line->length++;
    memcpy(line->bytes, slot, line->length);
}

/* A byte next to those that a line may have, or any. */
static uint8_t odd_byte(struct draws *d)
{
    static const uint8_t odd[] = {0,   9,   10,  13,  ' ', '"', '+', ',', '-', '.', '/', '0',  '1',  '9', ':',
                                  '@', 'A', 'Z', '[', '`', 'a', 'z', 'w', 127, 128, 172, 177, 193, 255};
    return draw(d, 3) ? PICK(d, odd) : (uint8_t)draw(d, 256);
}

static void insert_byte(struct line *line, size_t at, uint8_t byte)
{
    memmove(line->bytes + at + 1, line->bytes + at, line->length - at);
    line->bytes[at] = byte;
    line->length++;
}

static void delete_byte(struct line *line, size_t at)
{
    line->length--;
    memmove(line->bytes + at, line->bytes + at + 1, line->length - at);
}

/* A line whose field of this number, from 0, is at its edge or past it. */
static void line_with(struct draws *d, uint32_t field, struct line *line)
{
    static const char *const contracts[] = {"", "ABCDEFGHI", "123456789", "a", "Aa", "A B", "A-B", "A/1", "A:", "A@", "A[", "A\n", "TOTAL", "0",
                                            "00000000"};
    static const char *const grains[] = {"", "W", "WHE", "wh", "Wh", "wH", "W1", "1H", "12", "W ", " H", "@A", "A[", "AZ", "ZA"};
    static const char *const numbers[] = {
        "", "0", "00", "01", "007", "1", "9", "10", "99998", "99999", "099999", "100000", "999998", "999999", "0999999", "1000000", "9999999",
        "4294967296", "4294967297", "18446744073709551616", "18446744073709551617", "100000000000000000000000000000000000001", "+1", "-1", "1-",
        "1.5", "1.", " 1", "1 ", "1/", "1:", "/1", ":1", "1A", "A", "0x1", "1e3", "\"1\""};
    static const char *const currencies[] = {"", "E", "EU", "EURO", "EUREUR", "eur", "eUR", "EuR", "EUr", "E1R", "123", "EU ", " EU", "EUR ", "@UR",
                                             "E[R", "EU\n", "EUR\n", "EUR,", ",EUR", "EUR,EUR", "E,R", "EU\xd2", "AAA", "ZZZ"};
    make_line(line, field == 0 ? PICK(d, contracts) : "K7", field == 1 ? PICK(d, grains) : "WH", field == 2 ? PICK(d, numbers) : "250",
              field == 3 ? PICK(d, numbers) : "19950", field == 4 ? PICK(d, currencies) : draw(d, 2) ? "EUR" : NULL);
}

/* Signs of lines in any order. */
static void any_line(struct draws *d, struct line *line)
{
    line->length = draw(d, 34);
    for (size_t i = 0; i < line->length; i++) line->bytes[i] = (uint8_t)"A0,19,Z,"[draw(d, 8)];
}

/* A good line, changed. */
static void spoil_line(struct draws *d, struct line *line)
{
    static const char *const ends[] = {"\n", "\r", "\r\n", " ", ",", ",EUR", ",EU", ",1", "0", "A", "00000000", "\nB,WH,1,1"};
    size_t at = draw(d, (uint32_t)line->length);
    const char *end = PICK(d, ends);
    switch (draw(d, 9)) {
    case 0: case 1: line->bytes[at] = odd_byte(d); break;
    case 2: insert_byte(line, at, odd_byte(d)); break;
    case 3: delete_byte(line, at); break;
    case 4: insert_byte(line, draw(d, 2) ? 0 : line->length, draw(d, 2) ? 0 : odd_byte(d)); break;
    case 5: while (*end != 0) insert_byte(line, line->length, (uint8_t)*end++); break;
    case 6: line->length = at; break;
    case 7: insert_byte(line, 1 + (size_t)((uint8_t *)memchr(line->bytes, ',', line->length) - line->bytes), ','); break;
    default: while (line->length < LINE_ROOM && draw(d, 200)) insert_byte(line, line->length, line->bytes[draw(d, (uint32_t)line->length)]); break;
    }
}

static void bad_line(struct draws *d, struct line *line)
{
    switch (draw(d, 8)) {
    case 0: case 1: case 2: line_with(d, draw(d, 5), line); break;
    case 3: any_line(d, line); break;
    case 4:
        line->length = draw(d, 2) ? draw(d, 30) : draw(d, LINE_ROOM + 1);
        garbage(d, line->bytes, line->length);
        break;
    default: spoil_line(d, line); break;
    }
}

/* Takes the contract of a line that is held, whole or changed in its last byte, for a good line with a currency of this kind. */
static void take_contract(struct draws *d, const uint8_t *held, uint32_t currency_kind, struct line *line)
{
    char contract[SLOT_SIZE + 2] = {0}, tonnes[NUMBER_ROOM], price[NUMBER_ROOM], currency[CURRENCY_SIZE + 1];
    size_t n = strcspn((const char *)held, ",");
    memcpy(contract, held, n);
    switch (draw(d, 6)) {
    case 0: contract[n - 1] = signs[draw(d, 36)]; break;
    case 1: if (n > 1) contract[n - 1] = 0; break;
    case 2: if (n < MOST_CONTRACT) contract[n] = signs[draw(d, 36)]; break;
    default: break;
    }
    make_line(line, contract, "RY", number_text(d, 5, tonnes), number_text(d, 6, price),
              currency_kind == NO_CURRENCY ? NULL : currency_text(d, currency_kind, currency));
}

void random_line(struct draws *d, const uint8_t buffer[REGISTER_SIZE], struct line *line)
{
    uint64_t count = oracle_register_lines(buffer);
    uint32_t currency_kind = draw(d, 2) ? NO_CURRENCY : draw(d, CURRENCY_KINDS);
    struct line held;
    good_line(d, draw(d, CONTRACT_KINDS), currency_kind, line);
    if (count > 0 && draw(d, 3) == 0) {
        line_of(buffer + SLOTS_AT + draw(d, (uint32_t)count) * SLOT_SIZE, &held);
        if (memchr(held.bytes, ',', MOST_CONTRACT + 1) != NULL && held.bytes[0] != ',') take_contract(d, held.bytes, currency_kind, line);
    }
    if (draw(d, 5) < 2) bad_line(d, line);
}

void random_house(struct draws *d, struct line *house)
{
    char text[CURRENCY_SIZE + 1];
    house->length = CURRENCY_SIZE;
    memcpy(house->bytes, currency_text(d, draw(d, CURRENCY_KINDS), text), CURRENCY_SIZE);
    switch (draw(d, 10)) {
    case 0: house->bytes[draw(d, CURRENCY_SIZE)] = odd_byte(d); break;
    case 1: insert_byte(house, draw(d, CURRENCY_SIZE + 1), draw(d, 2) ? 'A' : odd_byte(d)); break;
    case 2: house->length = draw(d, CURRENCY_SIZE); break;
    case 3:
        house->length = draw(d, 2) ? CURRENCY_SIZE : draw(d, LINE_ROOM + 1);
        garbage(d, house->bytes, house->length);
        break;
    default: break;
    }
}

uint64_t random_place(struct draws *d, const uint8_t buffer[REGISTER_SIZE])
{
    uint64_t count = oracle_register_lines(buffer), inside = draw(d, (uint32_t)count + 1);
    switch (draw(d, 10)) {
    case 0: return 0;
    case 1: return count - 1;
    case 2: return count;
    case 3: return MOST_LINES - 1;
    case 4: return MOST_LINES;
    case 5: return inside + ((uint64_t)1 << 32);
    case 6: return inside + ((uint64_t)1 << (8 + draw(d, 56)));
    case 7: return UINT64_MAX - draw(d, 3);
    case 8: return draw(d, 2 * MOST_LINES);
    default: return inside;
    }
}

/* Damage */

static void copy_slot(uint8_t *buffer, uint64_t from, uint64_t to)
{
    memmove(slot(buffer, to), slot(buffer, from), SLOT_SIZE);
}

/* One byte of a slot in use: at its ends, about the end of its line, or any. */
static uint8_t *byte_of_slot(struct draws *d, uint8_t *slot)
{
    struct line line;
    size_t behind;
    line_of(slot, &line);
    behind = line.length < SLOT_SIZE ? line.length : SLOT_SIZE - 1;
    switch (draw(d, 6)) {
    case 0: return slot;
    case 1: return slot + SLOT_SIZE - 1;
    case 2: return slot + line.length - 1;
    case 3: return slot + behind;
    case 4: return slot + behind + draw(d, SLOT_SIZE - (uint32_t)behind);
    default: return slot + draw(d, SLOT_SIZE);
    }
}

/* Leaves no zero in a slot. */
static void fill_slot(uint8_t *slot)
{
    for (int i = 0; i < SLOT_SIZE; i++)
        if (slot[i] == 0) slot[i] = '1';
}

/* Gives a slot the contract of another, or one near it, and other fields. */
static void share_contract(struct draws *d, uint8_t *buffer, uint64_t from, uint64_t to)
{
    struct line line;
    line_of(slot(buffer, from), &line);
    take_contract(d, line.bytes, kind_for(d, buffer), &line);
    put_line(buffer, to, &line);
}

/* Takes the currency out of a line of five fields, or writes one behind four: a line of the other kind of register. */
static void change_fields(struct draws *d, uint8_t *buffer, uint64_t place)
{
    char currency[CURRENCY_SIZE + 1];
    struct line line;
    line_of(slot(buffer, place), &line);
    if (buffer[0] != 0) {
        line.length -= 1 + CURRENCY_SIZE;
    } else {
        line.bytes[line.length] = ',';
        memcpy(line.bytes + line.length + 1, currency_text(d, draw(d, CURRENCY_KINDS), currency), CURRENCY_SIZE);
        line.length += 1 + CURRENCY_SIZE;
    }
    put_line(buffer, place, &line);
}

/* The header: cut off, no currency, one too long, a byte behind it; that of the other kind of register over these lines, or the other kind's lines
   below this one. */
static void damage_header(struct draws *d, uint8_t *buffer)
{
    uint64_t count = oracle_register_lines(buffer);
    char currency[CURRENCY_SIZE + 1];
    int opened = buffer[0] != 0;
    if (!opened) memcpy(buffer, currency_text(d, draw(d, CURRENCY_KINDS), currency), CURRENCY_SIZE);
    switch (draw(d, 8)) {
    case 0: memset(buffer + 1 + draw(d, 2), 0, CURRENCY_SIZE); break;
    case 1: buffer[draw(d, CURRENCY_SIZE)] |= 'a' - 'A'; break;
    case 2: buffer[draw(d, CURRENCY_SIZE)] = odd_byte(d); break;
    case 3: buffer[CURRENCY_SIZE] = draw(d, 2) ? 'A' : odd_byte(d); break;
    case 4: buffer[CURRENCY_SIZE + draw(d, SLOTS_AT - CURRENCY_SIZE)] = (uint8_t)(1 + draw(d, 255)); break;
    case 5: buffer[0] = 0; break;
    case 6: if (opened) memset(buffer, 0, CURRENCY_SIZE); break;
    default:
        memset(buffer, 0, opened ? 0 : CURRENCY_SIZE);
        for (uint64_t i = 0; i < count; i++) change_fields(d, buffer, i);
        break;
    }
}

/* Bytes where a slot, the header or the buffer begins or ends. */
static uint8_t *byte_at_edge(struct draws *d, uint8_t *buffer, uint64_t count)
{
    const size_t free_at = SLOTS_AT + count * SLOT_SIZE;
    const size_t edges[] = {0, 1, 2, 3, 4, SLOTS_AT - 1, SLOTS_AT, free_at - 1, free_at, free_at + 1, free_at + SLOT_SIZE - 1, free_at + SLOT_SIZE,
                            REGISTER_SIZE - SLOT_SIZE - 1, REGISTER_SIZE - SLOT_SIZE, REGISTER_SIZE - 1};
    size_t at = PICK(d, edges);
    return buffer + (at < REGISTER_SIZE ? at : REGISTER_SIZE - 1);
}

static void put_bad_line(struct draws *d, uint8_t *buffer, uint64_t place)
{
    struct line line;
    good_line(d, 0, kind_for(d, buffer), &line);
    bad_line(d, &line);
    put_line(buffer, place, &line);
}

/* The lines, or any bytes. A register with no line gets one first. */
static void damage_lines(struct draws *d, uint8_t *buffer)
{
    uint64_t count = oracle_register_lines(buffer), one, other;
    struct line line;
    if (count == 0) {
        good_line(d, 0, kind_for(d, buffer), &line);
        put_line(buffer, count++, &line);
    }
    one = draw(d, (uint32_t)count);
    other = draw(d, (uint32_t)count);
    switch (draw(d, 18)) {
    case 0: buffer[draw(d, REGISTER_SIZE)] = odd_byte(d); break;
    case 1: case 2: case 3: *byte_of_slot(d, slot(buffer, one)) = odd_byte(d); break;
    case 4: copy_slot(buffer, one, other); break;
    case 5: if (count < MOST_LINES) copy_slot(buffer, one, count); break;
    case 6: share_contract(d, buffer, one, other); break;
    case 7: share_contract(d, buffer, one, count < MOST_LINES ? count : other); break;
    case 8: memset(slot(buffer, one), 0, SLOT_SIZE); break;
    case 9: buffer[draw(d, SLOTS_AT)] = (uint8_t)(1 + draw(d, 255)); break;
    case 10: *byte_at_edge(d, buffer, count) = odd_byte(d); break;
    case 11: case 12: put_bad_line(d, buffer, one); break;
    case 13: if (count < MOST_LINES) copy_slot(buffer, one, count + draw(d, MOST_LINES - (uint32_t)count)); break;
    case 14: fill_slot(slot(buffer, one)); break;
    case 15: case 16: change_fields(d, buffer, one); break;
    default: garbage(d, buffer + draw(d, 2) * SLOTS_AT, REGISTER_SIZE - SLOTS_AT); break;
    }
}

void damage_register(struct draws *d, uint8_t buffer[REGISTER_SIZE])
{
    if (draw(d, 4) == 0) damage_header(d, buffer);
    else damage_lines(d, buffer);
}
