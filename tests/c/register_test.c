/* Tries the register's four calls of the static library against the oracle, numbers and every byte between the fences:

   scripts    those of tests/vectors/register10, by the oracle alone and by the library, against their answers; those of register02 and register04,
              which are from before there were currencies, on a register that isn't opened, and on an opened one
   old        the registers that a library from before left, kept in tests/vectors/register10, and others of 0 to 256 lines of four fields: 14 until
              they are opened, and then what an opened register makes of their lines
   example    the register that docs/REGISTER.md prints, and its report
   houses     all house currencies of a few signs up to 5 bytes, and EUR with one byte changed, put in or left out, on registers of every kind
   form       all lines of a few signs up to 9 bytes, four fields with all of up to 7 behind them, all lines of fields at their edges, good lines with
              one byte changed, put in or left out
   reports    of 0 to 256 lines, the longest and the shortest, in the house currency, in three and in a currency each, with output just enough, one
              byte short, longer and none
   lists      random registers, opened, offered lines, asked for lines and reported one after another, with all places at the edge and output of any
              length
   damaged    registers near sound ones and random ones, of right and wrong size

   A register that the rules let pass is what opening zeros and offering its lines, one by one, leaves. The TOTAL lines of a report are worked out
   once more from the records put above them. A first argument is the only seed to try. */
#include "beside.h"

#include <inttypes.h>
#include <stdarg.h>
#include <stdio.h>
#include <stdlib.h>
#include <string.h>

enum {
    LISTS = 12000, LIST_CALLS = 16, DAMAGED = 90000, OTHERS = 0x3c,
    SCRIPT_ROOM = 65536, BUFFER_ROOM = 2 * STRIGOL_REGISTER_SIZE, OUTPUT_ROOM = STRIGOL_REPORT_MOST + PAGE
};

static struct lent lent;

static void show_bytes(enum which which)
{
    const struct buffer *b = &lent.b[which];
    printf("%s of %zu bytes:", buffer_name[which], b->length);
    for (size_t i = 0; i < b->length && i < 40; i++) printf(" %02x", b->at[i]);
    printf("\n");
}

/* Opens with what is laid, or offers it; shows the first that went wrong. */
static uint32_t make_and_show(enum call call, enum which which)
{
    int before = failures;
    uint32_t number = make_right(&lent, call);
    if (before == 0 && failures > 0) show_bytes(which);
    return number;
}

static uint32_t open_right(void)
{
    return make_and_show(OPEN, HOUSE);
}

static uint32_t offer_right(void)
{
    return make_and_show(OFFER, OFFERED);
}

static uint32_t hand_out_right(uint64_t place, enum side side)
{
    int before = failures;
    uint32_t number;
    lent.place = place;
    lay_empty(&lent, side, LINE, STRIGOL_LINE_SIZE);
    lay_empty(&lent, side, LENGTH, sizeof(uint32_t));
    number = make_right(&lent, HAND_OUT);
    if (before == 0 && failures > 0) printf("place %" PRIu64 "\n", place);
    return number;
}

static long read_back;

/* A record put: its currency and numbers. */
struct record { char currency[STRIGOL_CURRENCY_SIZE + 1]; uint32_t tonnes, price; };

/* The line that a currency's records come to, and how many they are. */
static uint64_t total_of(const struct record *records, uint64_t count, const char *currency, char total[64])
{
    uint64_t lines = 0, tonnes = 0, value = 0;
    for (uint64_t i = 0; i < count; i++) {
        if (strcmp(records[i].currency, currency) != 0) continue;
        lines++;
        tonnes += records[i].tonnes;
        value += (uint64_t)records[i].tonnes * records[i].price;
    }
    snprintf(total, 64, "TOTAL,%s,%" PRIu64 ",%" PRIu64 ",%" PRIu64 "\n", currency, lines, tonnes, value);
    return lines;
}

/* Whether the TOTAL lines put are those of the records above them: each currency's once, in order, and of no other currency. */
static void check_totals(const uint8_t *put, uint32_t length)
{
    static char text[OUTPUT_ROOM + 1];
    static struct record records[STRIGOL_LINES_MOST + 1];
    char total[64], before[STRIGOL_CURRENCY_SIZE + 1] = "", currency[STRIGOL_CURRENCY_SIZE + 1];
    uint64_t count = 0, told = 0;
    const char *at = text;
    int n = 0;
    memcpy(text, put, length);
    text[length] = 0;
    for (; count <= STRIGOL_LINES_MOST; count++, at += n, n = 0) {
        struct record *r = &records[count];
        int fields = sscanf(at, "%*8[A-Z0-9],%*2[A-Z],%" SCNu32 ",%" SCNu32 ",%3[A-Z]%n", &r->tonnes, &r->price, r->currency, &n);
        if (fields != 3 || at[n++] != '\n') break;
    }
    for (; sscanf(at, "TOTAL,%3[A-Z],", currency) == 1; at += strlen(total)) {
        uint64_t lines = total_of(records, count, currency, total);
        if (lines == 0 || strcmp(before, currency) >= 0 || strncmp(at, total, strlen(total)) != 0) break;
        told += lines;
        strcpy(before, currency);
    }
    if (*at != 0 || told != count) fail("%" PRIu64 " records, of which %" PRIu64 " are told before %.40s", count, told, at);
    read_back++;
}

/* Asks for the report, with so many bytes of output; reads it back. */
static uint32_t report_right(size_t output_len, enum side side)
{
    int before = failures;
    uint32_t number;
    lay_empty(&lent, side, OUTPUT, output_len);
    lay_empty(&lent, side, LENGTH, sizeof(uint32_t));
    number = make_right(&lent, REPORT);
    if (number == 0 && failures == before) check_totals(lent.b[OUTPUT].at, *NUMBERS_32(&lent, LENGTH));
    if (before == 0 && failures > 0) printf("%zu bytes of output\n", output_len);
    return number;
}

/* Scripts */

/* A register's calls: the oracle's, or the library's between fences. */
struct calls_of {
    const char *name;
    uint32_t (*open)(uint8_t *, size_t, const uint8_t *, size_t);
    uint32_t (*offer)(uint8_t *, size_t, const uint8_t *, size_t);
    uint32_t (*line)(const uint8_t *, size_t, uint64_t, uint8_t *, uint32_t *);
    uint32_t (*report)(const uint8_t *, size_t, uint8_t *, size_t, uint32_t *);
};

/* a call that may change the buffer, given bytes in one of the fenced places */
static uint32_t fenced_change(uint8_t *buffer, size_t buffer_len, int which, const uint8_t *bytes, size_t bytes_len, uint32_t (*make)(void))
{
    uint32_t number;
    lay(&lent.b[REGISTER], BEHIND, buffer, buffer_len, buffer_len);
    lay(&lent.b[which], BEHIND, bytes, bytes_len, bytes_len);
    number = make();
    memcpy(buffer, lent.b[REGISTER].at, buffer_len);
    return number;
}

static uint32_t fenced_open(uint8_t *buffer, size_t buffer_len, const uint8_t *currency, size_t currency_len)
{
    return fenced_change(buffer, buffer_len, HOUSE, currency, currency_len, open_right);
}

static uint32_t fenced_offer(uint8_t *buffer, size_t buffer_len, const uint8_t *line, size_t line_len)
{
    return fenced_change(buffer, buffer_len, OFFERED, line, line_len, offer_right);
}

static uint32_t fenced_line(const uint8_t *buffer, size_t buffer_len, uint64_t place, uint8_t *line, uint32_t *length)
{
    uint32_t number;
    lay(&lent.b[REGISTER], BEHIND, buffer, buffer_len, buffer_len);
    number = hand_out_right(place, BEHIND);
    memcpy(line, lent.b[LINE].at, STRIGOL_LINE_SIZE);
    *length = *NUMBERS_32(&lent, LENGTH);
    return number;
}

static uint32_t fenced_report(const uint8_t *buffer, size_t buffer_len, uint8_t *output, size_t output_len, uint32_t *length)
{
    uint32_t number;
    lay(&lent.b[REGISTER], BEHIND, buffer, buffer_len, buffer_len);
    number = report_right(output_len, BEHIND);
    *length = *NUMBERS_32(&lent, LENGTH);
    memcpy(output, lent.b[OUTPUT].at, *length < output_len ? *length : output_len);
    return number;
}

static const struct calls_of by_oracle = {"oracle", oracle_register_open, oracle_register_offer, oracle_register_line, oracle_register_report};
static const struct calls_of by_library = {"library", fenced_open, fenced_offer, fenced_line, fenced_report};

/* How a script is meant: as it is written; or written before there were currencies, for a register that isn't opened, or for one opened with EUR. */
enum meant { AS_WRITTEN, NOT_OPENED, OPENED };
static const uint8_t house[] = {'E', 'U', 'R'};

/* A script's buffer, of which so many bytes are lent; how many lines its old answers say are held; what it has answered so far, and what is right. */
struct answers { size_t length; char bytes[SCRIPT_ROOM]; };
static struct { uint8_t buffer[BUFFER_ROOM]; size_t lent; uint64_t held; struct answers answers, right; } script;
static long left_out;

/* Puts one more answer, or a part of it. */
__attribute__((format(printf, 2, 3))) static void put(struct answers *to, const char *form, ...)
{
    va_list values;
    va_start(values, form);
    to->length += (size_t)vsnprintf(to->bytes + to->length, SCRIPT_ROOM - to->length, form, values);
    va_end(values);
    if (to->length >= SCRIPT_ROOM) {
        fail("too many answers");
        to->length = 0;
    }
}

/* The buffer is zeros again. */
static void reset_script(const struct calls_of *calls, enum meant meant)
{
    memset(script.buffer, 0, STRIGOL_REGISTER_SIZE);
    memset(script.buffer + STRIGOL_REGISTER_SIZE, OTHERS, BUFFER_ROOM - STRIGOL_REGISTER_SIZE);
    script.lent = STRIGOL_REGISTER_SIZE;
    script.held = 0;
    if (meant == OPENED && calls->open(script.buffer, script.lent, house, sizeof house) != 0) fail("zeros aren't opened");
}

/* Bytes that must stay as they were laid. */
static void check_others(const char *what, const uint8_t *bytes, size_t from, size_t to)
{
    for (size_t i = from; i < to; i++)
        if (bytes[i] != OTHERS) fail("byte %zu of the %s is written", i, what);
}

/* A command, and the bytes behind its blank; those of `offerhex` and `openhex` are what they stand for. */
struct command { const char *word; const uint8_t *bytes; size_t length; };

static int is(const struct command *c, const char *word)
{
    return strcmp(c->word, word) == 0;
}

/* Takes the command that begins here, in a text that ends at `to` and has room for one byte more. Answers where the next one begins. A line offered
   may have zero bytes. */
static char *take_command(char *at, char *to, struct command *c)
{
    static uint8_t bytes[SCRIPT_ROOM];
    char *end = memchr(at, '\n', (size_t)(to - at)), *rest;
    if (end == NULL) end = to;
    *end = 0;
    rest = at + strcspn(at, " ");
    if (*rest != 0) *rest++ = 0;
    *c = (struct command){at, (const uint8_t *)rest, (size_t)(end - rest)};
    if (is(c, "offerhex")) *c = (struct command){"offer", bytes, (size_t)from_hex(rest, bytes)};
    if (is(c, "openhex")) *c = (struct command){"open", bytes, (size_t)from_hex(rest, bytes)};
    return end + 1;
}

static uint64_t number_in(const struct command *c)
{
    return strtoull((const char *)c->bytes, NULL, 10);
}

static int commas_in(const struct command *c)
{
    int commas = 0;
    for (size_t i = 0; i < c->length; i++) commas += c->bytes[i] == ',';
    return commas;
}

static void answer_report(const struct calls_of *calls, size_t output_len)
{
    static uint8_t output[OUTPUT_ROOM + 1];
    uint32_t length, number;
    memset(output, OTHERS, OUTPUT_ROOM);
    number = calls->report(script.buffer, script.lent, output, output_len, &length);
    put(&script.answers, "%u\n%.*s--\n", number, (int)length, (const char *)output);
    check_others("output", output, length, OUTPUT_ROOM);
}

static void answer_line(const struct calls_of *calls, uint64_t place)
{
    uint8_t line[STRIGOL_LINE_SIZE];
    uint32_t length, number = calls->line(script.buffer, script.lent, place, line, &length);
    put(&script.answers, "%u|%.*s\n", number, (int)length, (const char *)line);
}

/* The bytes of an old register that stand for the script which made it, in the same folder. */
static void load_old(const char *stem, const char *name)
{
    char path[4096];
    snprintf(path, sizeof path, "%.*s%.*s", (int)(strrchr(stem, '/') + 1 - stem), stem, (int)strcspn(name, "."), name);
    if (file_bytes(path, ".bytes", script.buffer, STRIGOL_REGISTER_SIZE) != STRIGOL_REGISTER_SIZE) fail("%s.bytes isn't a register", path);
}

/* How much longer a report is than it was: W10.4 and W10.5 put a comma and a currency into each line and into TOTAL. */
static size_t longer_by(enum meant meant)
{
    return meant == OPENED && script.held > 0 ? (1 + STRIGOL_CURRENCY_SIZE) * (script.held + 1) : 0;
}

/* Carries out a command. */
static void answer(const struct calls_of *calls, const char *stem, enum meant meant, const struct command *c)
{
    if (is(c, "open")) put(&script.answers, "%u\n", calls->open(script.buffer, script.lent, c->bytes, c->length));
    else if (is(c, "offer")) put(&script.answers, "%u\n", calls->offer(script.buffer, script.lent, c->bytes, c->length));
    else if (is(c, "get")) answer_line(calls, number_in(c));
    else if (is(c, "report") && number_in(c) + longer_by(meant) <= OUTPUT_ROOM) answer_report(calls, number_in(c) + longer_by(meant));
    else if (is(c, "old")) load_old(stem, (const char *)c->bytes);
    else if (is(c, "size") && number_in(c) <= BUFFER_ROOM) script.lent = number_in(c);
    else if (is(c, "reset")) reset_script(calls, meant);
    else fail("a command that isn't known: %s", c->word);
    if (is(c, "old") || is(c, "size") || is(c, "reset")) put(&script.answers, "0\n");
}

/* What is right of an old answer, which lies from `from` to `to` with byte 10 at its end:

   not opened   "until it is opened, every other call on a register gets 14" (W10.6)
   opened       numbers are what they were. "Handing out gives five fields" (W10.5), so `,EUR` stands behind each line. "The report prints one TOTAL
                line for each currency held, .. with the currency as its second field .. ; an empty register prints none" (W10.4). The output that the
                report gets is longer by as much as the report is. */

static void right_not_opened(const struct command *c, const char *from, const char *to)
{
    if (is(c, "offer")) put(&script.right, "14\n");
    else if (is(c, "get")) put(&script.right, "14|\n");
    else if (is(c, "report")) put(&script.right, "14\n--\n");
    else put(&script.right, "%.*s", (int)(to - from), from);
}

static void right_report(const char *from)
{
    const char *number = from, *end;
    from = strchr(from, '\n') + 1;
    put(&script.right, "%.*s", (int)(from - number), number);
    for (; strncmp(from, "--\n", 3) != 0; from = end + 1) {
        end = strchr(from, '\n');
        if (strncmp(end, "\n--\n", 4) == 0) put(&script.right, "TOTAL,EUR%.*s\n", (int)(end - from) - 5, from + 5);
        else put(&script.right, "%.*s,EUR\n", (int)(end - from), from);
    }
    put(&script.right, "--\n");
}

static void right_opened(const struct command *c, const char *from, const char *to)
{
    int has_line = is(c, "get") && to[-2] != '|';
    if (is(c, "report") && script.held == 0 && strncmp(from, "14\n", 3) != 0) put(&script.right, "0\n--\n");
    else if (is(c, "report")) right_report(from);
    else put(&script.right, "%.*s%s\n", (int)(to - 1 - from), from, has_line ? ",EUR" : "");
    script.held += is(c, "offer") && strncmp(from, "0\n", 2) == 0;
}

/* Where the answer that begins here ends. */
static const char *answer_end(const struct command *c, const char *from)
{
    const char *end = is(c, "report") ? strstr(from, "--\n") : from;
    return end == NULL || strchr(end, '\n') == NULL ? NULL : strchr(end, '\n') + 1;
}

/* Carries out a script's command, and notes what is right by its old answer. Answers where the next one begins, NULL if there is none. A line of five
   fields broke its form until W10.2; so a script from before, on an opened register, goes without offers of lines with four commas. */
static const char *check_command(const struct calls_of *calls, const char *stem, enum meant meant, const struct command *c, const char *old)
{
    const char *end = answer_end(c, old);
    if (end == NULL) {
        fail("the script has too few answers");
    } else if (meant == OPENED && is(c, "offer") && commas_in(c) == 4) {
        left_out += calls == &by_library;
    } else {
        answer(calls, stem, meant, c);
        if (meant == NOT_OPENED) right_not_opened(c, old, end);
        else if (meant == OPENED) right_opened(c, old, end);
        else put(&script.right, "%.*s", (int)(end - old), old);
        check_others("buffer", script.buffer, STRIGOL_REGISTER_SIZE, BUFFER_ROOM);
    }
    return end;
}

static void check_script(const struct calls_of *calls, const char *stem, enum meant meant)
{
    static const char *const meanings[] = {"as it is written", "not opened", "opened with EUR"};
    static char text[SCRIPT_ROOM], answers[SCRIPT_ROOM];
    const char *old = answers;
    long text_len = file_bytes(stem, ".register", (uint8_t *)text, SCRIPT_ROOM - 1);
    long answers_len = file_bytes(stem, ".answers", (uint8_t *)answers, SCRIPT_ROOM - 1);
    doing.part = stem;
    doing.call = calls->name;
    if (text_len < 0 || answers_len < 0) {
        fail("a file is missing");
        return;
    }
    answers[answers_len] = 0;
    script.answers.length = script.right.length = 0;
    reset_script(calls, meant);
    for (char *at = text; at < text + text_len && old != NULL;) {
        struct command c;
        at = take_command(at, text + text_len, &c);
        if (c.word[0] != '#') old = check_command(calls, stem, meant, &c, old);
    }
    doing.call = calls->name;
    if (old != answers + answers_len) fail("the script has other answers than commands");
    if (script.answers.length != script.right.length || memcmp(script.answers.bytes, script.right.bytes, script.right.length) != 0)
        fail("%s, the script gets other answers", meanings[meant]);
}

static void try_script(const char *stem)
{
    check_script(&by_oracle, stem, AS_WRITTEN);
    check_script(&by_library, stem, AS_WRITTEN);
}

static void try_old_script(const char *stem)
{
    for (enum meant meant = NOT_OPENED; meant <= OPENED; meant++) {
        check_script(&by_oracle, stem, meant);
        check_script(&by_library, stem, meant);
    }
}

/* The files of a folder. */
static int try_files(const char *pattern, void (*each)(const char *stem))
{
    int files = each_stem(pattern, each);
    if (files == 0) fail("no files: %s", pattern);
    return files;
}

static void try_scripts(void)
{
    int scripts = try_files("tests/vectors/register10/[hm]*.register", try_script);
    int before = try_files("tests/vectors/register02/*.register", try_old_script) + try_files("tests/vectors/register04/*.register", try_old_script);
    printf("register test: %d scripts, by the oracle and by the library; %d from before there were currencies, not opened and opened, "
           "there without %ld lines with four commas\n", scripts, before, left_out);
}

/* Reports and their sizes */

/* How long the report of a register is; where there is none, how long one can be. */
static uint32_t report_length(const uint8_t *buffer)
{
    static uint8_t report[STRIGOL_REPORT_MOST];
    uint32_t length, number = oracle_register_report(buffer, STRIGOL_REGISTER_SIZE, report, sizeof report, &length);
    return number == 0 ? length : STRIGOL_REPORT_MOST;
}

/* The report of the register laid, with output just enough, one byte short, one byte longer and none. */
static void try_outputs(enum side side)
{
    size_t length = report_length(lent.b[REGISTER].at);
    report_right(length, side);
    if (length > 0) report_right(length - 1, side);
    report_right(length + 1, side);
    report_right(0, side);
}

/* Registers from before there were currencies */

static long old_opened;

/* A register that isn't opened, and what is right of it once it is opened with EUR. */
struct old { uint64_t count; uint8_t bytes[STRIGOL_REGISTER_SIZE], opened[STRIGOL_REGISTER_SIZE]; };

static void start_old(struct old *old)
{
    memset(old, 0, sizeof *old);
    oracle_register_open(old->opened, sizeof old->opened, house, sizeof house);
}

/* Offers a line by the rules of then: one of four fields that an opened register takes stands in the next slot as it came. */
static void offer_old(struct old *old, const struct line *line)
{
    const struct command c = {"offer", line->bytes, line->length};
    if (commas_in(&c) == 3 && oracle_register_offer(old->opened, sizeof old->opened, line->bytes, line->length) == 0)
        put_line(old->bytes, old->count++, line);
}

/* Every call but opening gets 14. Opened, it is what the opened register made of its lines; opened again, it has another house currency alone. */
static void check_old(const struct old *old, enum side side)
{
    static const struct line euro = {3, "EUR"}, dollar = {3, "USD"}, line = {12, "NEW,WH,1,100"};
    lay_register(&lent, side, old->bytes, sizeof old->bytes);
    lay_line(&lent, side, &line);
    if (offer_right() != 14 || hand_out_right(0, side) != 14 || report_right(OUTPUT_ROOM, side) != 14) fail("another number than 14 before opening");
    lay_house(&lent, side, &euro);
    if (open_right() != 0) fail("a register of %" PRIu64 " lines isn't opened", old->count);
    if (memcmp(lent.b[REGISTER].at, old->opened, sizeof old->opened) != 0) fail("other lines than the register had");
    try_outputs(side);
    hand_out_right(old->count - 1, side);
    lay_house(&lent, side, &dollar);
    if (open_right() != 0 || memcmp(lent.b[REGISTER].at, "USD", 3) != 0) fail("it isn't opened again");
    if (memcmp(lent.b[REGISTER].at + 3, old->opened + 3, sizeof old->opened - 3) != 0) fail("opening again changes more than the house currency");
    offer_right();
    try_outputs(side);
    old_opened++;
}

/* The bytes kept are those that the offers of their script leave. */
static void try_kept(const char *stem)
{
    static char text[SCRIPT_ROOM];
    static uint8_t kept_bytes[STRIGOL_REGISTER_SIZE];
    static struct old old;
    long text_len = file_bytes(stem, ".register", (uint8_t *)text, SCRIPT_ROOM - 1);
    start_old(&old);
    for (char *at = text; at < text + text_len;) {
        struct command c;
        struct line line;
        at = take_command(at, text + text_len, &c);
        line.length = c.length < LINE_ROOM ? c.length : LINE_ROOM;
        memcpy(line.bytes, c.bytes, line.length);
        if (is(&c, "offer")) offer_old(&old, &line);
        else fail("%s has another command than offers: %s", stem, c.word);
    }
    if (text_len < 0 || file_bytes(stem, ".bytes", kept_bytes, sizeof kept_bytes) != sizeof kept_bytes) fail("%s: a file is missing", stem);
    if (memcmp(kept_bytes, old.bytes, sizeof kept_bytes) != 0) fail("%s.bytes isn't what its offers leave", stem);
    check_old(&old, BEHIND);
}

/* Old registers of 0 to 256 lines with these numbers, and with contracts of so many signs or more. */
static void try_old_counts(int signs, const char *tonnes, const char *price)
{
    static struct old old;
    start_old(&old);
    for (int i = 0; i <= STRIGOL_LINES_MOST; i++) {
        struct line line;
        char contract[16];
        check_old(&old, (enum side)(i % SIDES));
        snprintf(contract, sizeof contract, "%0*X", signs, i);
        make_line(&line, contract, "ZZ", tonnes, price, NULL);
        offer_old(&old, &line);
    }
    if (old.count != STRIGOL_LINES_MOST) fail("%" PRIu64 " lines, not %d", old.count, STRIGOL_LINES_MOST);
}

static void try_old_registers(void)
{
    int kept_registers;
    doing.part = "old";
    kept_registers = try_files("tests/vectors/register10/old-*.bytes", try_kept);
    try_old_counts(1, "1", "1");
    try_old_counts(8, "99999", "999999");
    printf("register test: %d registers of a library from before, and %ld of lines of four fields, opened\n", kept_registers,
           old_opened - kept_registers);
}

/* The example of the page */

/* The page has the register's report, as a block of its own. */
static void check_example_report(void)
{
    static uint8_t page[SCRIPT_ROOM], block[STRIGOL_REPORT_MOST + 9] = "```\n";
    uint32_t length;
    long page_len = file_bytes("docs/REGISTER", ".md", page, sizeof page - 1);
    fenced_report(script.buffer, STRIGOL_REGISTER_SIZE, block + 4, STRIGOL_REPORT_MOST, &length);
    memcpy(block + 4 + length, "```\n", 5);
    page[page_len < 0 ? 0 : page_len] = 0;
    if (strstr((const char *)page, (const char *)block) == NULL) fail("not the report of docs/REGISTER.md");
}

static void check_example(void)
{
    static const char *const lines[] = {"A17,WH,250,19950", "ZZZZZZZZ,ZZ,99999,999999,CHF"};
    static uint8_t right[STRIGOL_REGISTER_SIZE];
    doing.part = "example";
    example_of("docs/REGISTER.md", right, sizeof right);
    reset_script(&by_library, OPENED);
    for (int i = 0; i < 2; i++) fenced_offer(script.buffer, STRIGOL_REGISTER_SIZE, (const uint8_t *)lines[i], strlen(lines[i]));
    if (memcmp(script.buffer, right, sizeof right) != 0) fail("not the register of docs/REGISTER.md");
    check_example_report();
}

/* Every line or house currency near one */

/* Every one of these signs, behind what is there, of so many bytes. */
static void try_signs(struct line *line, size_t left, const char *few, void (*each)(const struct line *))
{
    if (left == 0) {
        each(line);
        return;
    }
    for (const char *sign = few; *sign != 0; sign++) {
        line->bytes[line->length++] = (uint8_t)*sign;
        try_signs(line, left - 1, few, each);
        line->length--;
    }
}

/* Every byte changed into every other, put in, or left out. */
static void try_changes(const char *good, void (*each)(const struct line *))
{
    struct line line, changed;
    line.length = strlen(good);
    memcpy(line.bytes, good, line.length);
    for (size_t at = 0; at <= line.length; at++) {
        size_t behind = line.length - at;
        for (int byte = 0; byte < 256; byte++) {
            changed = line;
            changed.bytes[at] = (uint8_t)byte;
            if (behind > 0) each(&changed);
            memcpy(changed.bytes + at + 1, line.bytes + at, behind);
            changed.length++;
            each(&changed);
        }
        if (behind == 0) continue;
        changed = line;
        memcpy(changed.bytes + at, line.bytes + at + 1, behind - 1);
        changed.length--;
        each(&changed);
    }
}

/* House currencies */

static long houses, houses_taken;

/* Opens zeros with it, a register from before, an opened one, one against the rules, and one that is too small. */
static void try_house(const struct line *given)
{
    static const struct { const char *house, *line; size_t size; } registers[] = {
        {"", "", STRIGOL_REGISTER_SIZE},
        {"", "A,WH,1,1", STRIGOL_REGISTER_SIZE},
        {"USD", "A,WH,1,1,GBP", STRIGOL_REGISTER_SIZE},
        {"USD", "A,WH,1,1", STRIGOL_REGISTER_SIZE},
        {"", "A,WH,1,1,GBP", STRIGOL_REGISTER_SIZE},
        {"USD", "A,WH,1,1,GBP", STRIGOL_REGISTER_SIZE - 1},
        {"", "", 0},
    };
    enum side side = (enum side)(houses++ % SIDES);
    lay_house(&lent, side, given);
    for (size_t i = 0; i < SIZE(registers); i++) {
        uint8_t bytes[STRIGOL_REGISTER_SIZE] = {0};
        memcpy(bytes, registers[i].house, strlen(registers[i].house));
        memcpy(bytes + SLOTS_AT, registers[i].line, strlen(registers[i].line));
        lay_register(&lent, side, bytes, registers[i].size);
        houses_taken += open_right() == 0 && i == 0;
    }
}

static void try_houses(void)
{
    struct line given = {0};
    doing.part = "houses";
    for (size_t n = 0; n <= 5; n++) try_signs(&given, n, "AZ1,", try_house);
    try_changes("EUR", try_house);
    try_changes("AZ", try_house);
    printf("register test: houses: %ld house currencies, %ld taken\n", houses, houses_taken);
}

/* The form of a line */

static long formed, judged;

/* Offers a line to an opened register without one. */
static void try_form(const struct line *line)
{
    static const uint8_t empty[STRIGOL_REGISTER_SIZE] = "EUR";
    enum side side = (enum side)(judged++ % SIDES);
    lay_register(&lent, side, empty, sizeof empty);
    lay_line(&lent, side, line);
    formed += offer_right() == 0;
}

static const char *const contracts[] = {"", "A", "Z", "0", "9", "a", "/", ":", "@", "[", "AB", "A,", "ABCDEFGH", "98765432", "ABCDEFG8", "ABCDEFGHI"};
static const char *const grains[] = {"", "W", "WH", "AZ", "ZA", "W1", "1W", "wH", "Wh", "@Z", "A[", "WHE", "W,"};
static const char *const numbers[] = {"", "0", "1", "9", "01", "10", "99", "/", ":", "1:", "/1", "+1", "1 ", "99999", "99998", "099999", "100000",
                                      "999999", "999998", "0999999", "1000000", "4294967297", "18446744073709551617", "1,"};
static const char *const currencies[] = {"",    "E",   "EU",  "EUR", "AZA", "ZAZ", "EURO", "eUR",
                                         "EuR", "EUr", "@UR", "EU[", "1UR", "EU ", "EUR,", "EUR,EUR"};

static void try_line(const char *contract, const char *grain, const char *tonnes, const char *price, const char *currency)
{
    struct line line;
    make_line(&line, contract, grain, tonnes, price, currency);
    try_form(&line);
}

/* Every line of four of these fields, and every one of five with a good price or with a good contract and grain. */
static void try_fields(void)
{
    for (size_t c = 0; c < SIZE(contracts); c++)
        for (size_t g = 0; g < SIZE(grains); g++)
            for (size_t t = 0; t < SIZE(numbers); t++) {
                for (size_t p = 0; p < SIZE(numbers); p++) try_line(contracts[c], grains[g], numbers[t], numbers[p], NULL);
                for (size_t m = 0; m < SIZE(currencies); m++) try_line(contracts[c], grains[g], numbers[t], "1", currencies[m]);
            }
    for (size_t t = 0; t < SIZE(numbers); t++)
        for (size_t p = 0; p < SIZE(numbers); p++)
            for (size_t m = 0; m < SIZE(currencies); m++) try_line("A", "WH", numbers[t], numbers[p], currencies[m]);
}

static void try_forms(void)
{
    static const char *const good[] = {"A,WH,1,1", "A17,WH,250,19950", "ZZZZZZZZ,ZZ,99999,999999", "00000000,AA,10000,100000", "TOTAL,BA,9,10",
                                       "A,WH,1,1,EUR", "A17,WH,250,19950,USD", "ZZZZZZZZ,ZZ,99999,999999,ZZZ", "TOTAL,BA,9,10,AAA"};
    struct line line = {0};
    doing.part = "form";
    for (size_t n = 0; n <= 9; n++) try_signs(&line, n, "A01,", try_form);
    make_line(&line, "A", "AA", "1", "1", NULL);
    for (size_t n = 0; n <= 7; n++) try_signs(&line, n, "A01,", try_form);
    for (size_t i = 0; i < SIZE(good); i++) try_changes(good[i], try_form);
    try_fields();
    printf("register test: form: %ld lines offered to an opened register without one, %ld taken\n", judged, formed);
}

/* Reports of every count of lines */

/* Lines with these numbers, with contracts of so many signs or more, in so many currencies or of four fields, offered one by one. Each is offered
   again, and declined. */
static void try_counts(int signs, const char *tonnes, const char *price, int among)
{
    static const uint8_t empty[STRIGOL_REGISTER_SIZE] = "EUR";
    lay_register(&lent, BEHIND, empty, sizeof empty);
    try_outputs(BEHIND);
    for (int i = 0; i <= STRIGOL_LINES_MOST; i++) {
        enum side side = (enum side)(i % SIDES);
        int which = among == 0 ? 0 : 37 * i % among;
        char contract[16], currency[] = {'A', (char)('Z' - which % 26), (char)('A' + which / 26), 0};
        struct line line;
        snprintf(contract, sizeof contract, "%0*X", signs, i);
        make_line(&line, contract, "ZZ", tonnes, price, among == 0 ? NULL : currency);
        lay_again(&lent.b[REGISTER], side, STRIGOL_REGISTER_SIZE);
        lay_line(&lent, side, &line);
        offer_right();
        offer_right();
        try_outputs(side);
    }
}

static void try_reports(void)
{
    doing.part = "reports";
    for (int among = 0; among <= 3; among += 3) {
        try_counts(1, "1", "1", among);
        try_counts(8, "99999", "999999", among);
    }
    try_counts(1, "1", "1", STRIGOL_LINES_MOST);
    try_counts(8, "99999", "999999", STRIGOL_LINES_MOST);
    if (report_right(LONGEST_REPORT, BEHIND) != 0) fail("a report has more than %d bytes", LONGEST_REPORT);
    if (report_right(LONGEST_REPORT - 1, BEHIND) == 0) fail("the longest report has less than %d bytes", LONGEST_REPORT);
}

/* Lists and damaged registers */

static long longest, kept_damaged, made_again;

/* Opens zeros and offers the lines of a register to them, one by one. The lines of one that isn't opened are put down without the currency that
   opening writes. */
static void check_image(const uint8_t *buffer)
{
    static uint8_t opened[STRIGOL_REGISTER_SIZE], again[STRIGOL_REGISTER_SIZE];
    const uint8_t *currency = buffer[0] == 0 ? house : buffer;
    uint64_t count = oracle_register_lines(buffer);
    memcpy(opened, buffer, sizeof opened);
    memset(again, 0, sizeof again);
    if (strigol_register_open(opened, sizeof opened, currency, STRIGOL_CURRENCY_SIZE) != 0) fail("it isn't opened");
    if (buffer[0] != 0) strigol_register_open(again, sizeof again, currency, STRIGOL_CURRENCY_SIZE);
    for (uint64_t i = 0; i < count; i++) {
        struct line line;
        uint32_t length, number = strigol_register_line(opened, sizeof opened, i, line.bytes, &length);
        if (number != 0 || length < 1 + STRIGOL_CURRENCY_SIZE) fail("line %" PRIu64 " isn't handed out", i);
        line.length = length - 1 - STRIGOL_CURRENCY_SIZE;
        if (buffer[0] == 0) put_line(again, i, &line);
        else if (strigol_register_offer(again, sizeof again, line.bytes, length) != 0) fail("line %" PRIu64 " isn't taken again", i);
    }
    if (memcmp(buffer, again, sizeof again) != 0) fail("another register than its lines make");
    made_again++;
}

/* One size in eight is another than it need be. */
static size_t random_size(struct draws *d)
{
    enum { RIGHT = STRIGOL_REGISTER_SIZE };
    static const size_t sizes[] = {0, 1, RIGHT / 2, RIGHT - 1, RIGHT + 1, RIGHT + PAGE};
    return draw(d, 8) ? RIGHT : sizes[draw(d, SIZE(sizes))];
}

/* Output for the report of this register: just enough, one byte short, none, short or longer. */
static size_t random_output(struct draws *d, const uint8_t *held)
{
    uint32_t length = report_length(held);
    switch (draw(d, 6)) {
    case 0: return length > 0 ? length - 1 : 0;
    case 1: return 0;
    case 2: return draw(d, length + 1);
    case 3: return length + draw(d, OUTPUT_ROOM - length + 1);
    default: return length;
    }
}

/* A random call on the register laid, of which this is held. */
static void try_call(struct draws *d, const uint8_t *held, enum side side)
{
    struct line line;
    switch (draw(d, 10)) {
    case 0: report_right(random_output(d, held), side); break;
    case 1: case 2: hand_out_right(random_place(d, held), side); break;
    case 3: case 4:
        random_house(d, &line);
        lay_house(&lent, side, &line);
        open_right();
        break;
    default:
        random_line(d, held, &line);
        lay_line(&lent, side, &line);
        offer_right();
        break;
    }
}

/* A register opened, offered lines, asked for lines, and reported, one after another. */
static void try_list(uint64_t seed)
{
    static uint8_t bytes[STRIGOL_REGISTER_SIZE];
    const uint8_t *held;
    enum side side = (enum side)(seed % SIDES);
    struct draws d;
    size_t size;
    doing.part = "lists";
    begin_seed(&d, seed);
    random_register(&d, draw(&d, 4) > 0, bytes);
    size = random_size(&d);
    lay_register(&lent, side, bytes, size);
    held = size < sizeof bytes ? bytes : lent.b[REGISTER].at;
    report_right(random_output(&d, held), side);
    for (int i = 0; i < LIST_CALLS; i++) try_call(&d, held, side);
    if ((long)oracle_register_lines(held) > longest) longest = (long)oracle_register_lines(held);
    if (size >= sizeof bytes && seed % 64 == 0) check_image(held);
}

/* Whether the rules let these bytes pass, opened or not. */
static int is_sound(const uint8_t bytes[STRIGOL_REGISTER_SIZE])
{
    static uint8_t opened[STRIGOL_REGISTER_SIZE];
    memcpy(opened, bytes, sizeof opened);
    return oracle_register_open(opened, sizeof opened, house, sizeof house) == 0;
}

/* All calls on one near a sound one; then it is opened, if it can be, and all follow again. */
static void try_damaged(uint64_t seed)
{
    static uint8_t bytes[STRIGOL_REGISTER_SIZE];
    enum side side = (enum side)(seed % SIDES);
    struct draws d;
    struct line line, given;
    doing.part = "damaged";
    begin_seed(&d, seed);
    random_register(&d, draw(&d, 2) > 0, bytes);
    damage_register(&d, bytes);
    if (is_sound(bytes) && ++kept_damaged % 64 == 0) check_image(bytes);
    random_line(&d, bytes, &line);
    random_house(&d, &given);
    lay_register(&lent, side, bytes, random_size(&d));
    lay_line(&lent, side, &line);
    lay_house(&lent, side, &given);
    hand_out_right(random_place(&d, bytes), side);
    report_right(draw(&d, 4) ? OUTPUT_ROOM : draw(&d, 40), side);
    offer_right();
    if (open_right() != 0) return;
    hand_out_right(random_place(&d, bytes), side);
    report_right(OUTPUT_ROOM, side);
    offer_right();
}

int main(int argc, char **argv)
{
    uint64_t only = argc > 1 ? strtoull(argv[1], NULL, 10) : 0;
    begin_test("register test", &lent);
    if (only == 0) {
        try_scripts();
        try_old_registers();
        check_example();
        try_houses();
        try_forms();
        try_reports();
    }
    for (uint64_t seed = only ? only : 1; seed <= (only ? only : LISTS); seed++) try_list(seed);
    for (uint64_t seed = only ? only : 1; seed <= (only ? only : DAMAGED); seed++) try_damaged(seed);
    if (only == 0) {
        doing.part = "lists";
        if (longest < STRIGOL_LINES_MOST) fail("no register of %d lines", STRIGOL_LINES_MOST);
        printf("register test: %d lists of %d calls; %d damaged registers, %ld of them sound; %ld registers made again of their lines; "
               "%ld reports read back\n",
               LISTS, LIST_CALLS, DAMAGED, kept_damaged, made_again, read_back);
    }
    for (enum call call = OPEN; call <= REPORT; call++) show_met(call, only == 0);
    printf("register test: %d failures\n", failures);
    return failures != 0;
}
