/* Tries the window's two calls of the static library against the oracle, numbers, summaries and every byte between the fences:

   scripts    those of tests/vectors/window13, by the oracle alone and by the library, against their answers
   example    the window that docs/WINDOW.md prints, and its summary
   sizes      windows of every size from 0 to 300 bytes, and longer ones, whose further bytes stay
   bytes      each byte of windows of 0 to 32 prices set to many values
   places     each place of windows of 0 to 32 prices set to numbers at the edges of a price's range, zero among them
   exchanges  every two places of windows of 0 to 32 prices exchanged: a window stays sound if both hold a price, or none
   lists      1,000,000 random prices, given to windows that are empty at first, beside all the prices taken (W13.3)
   damaged    windows near sound ones and random ones, of right and wrong size

   A window that the rules let pass is what giving its prices to zeros, one by one, leaves. A first argument is the only seed to try. */
#include "beside.h"

#include <inttypes.h>
#include <stdio.h>
#include <stdlib.h>
#include <string.h>

enum {
    SCRIPTS = 30, COMMANDS = 2149, MOST_SIZE = 300, LISTS = 100, LIST_PRICES = 10000, DAMAGED = 100000, OTHERS = 0x3c,
    TEXT_ROOM = 65536, ANSWER_ROOM = 128
};

static struct lent lent;

/* The price given, and what stands in the window now. */
static void show_call(enum call call)
{
    const struct buffer *b = &lent.b[WINDOW];
    if (call == TAKE) printf("price %" PRIu64 "; ", lent.price);
    printf("a window of %zu bytes:", b->length);
    for (size_t at = 0; at < STRIGOL_WINDOW_SIZE && at + STRIGOL_PRICE_SIZE <= b->length; at += STRIGOL_PRICE_SIZE)
        printf(" %" PRIu64, get_number(b->at + at, STRIGOL_PRICE_SIZE));
    printf("\n");
}

/* Makes the call, with a summary of its own; shows the first that went wrong. */
static uint32_t make_and_show(enum call call, enum side side)
{
    int before = failures;
    uint32_t number;
    lay_summary(&lent, side);
    number = make_right(&lent, call);
    if (before == 0 && failures > 0) show_call(call);
    return number;
}

static uint32_t take_right(uint64_t price, enum side side)
{
    lent.price = price;
    return make_and_show(TAKE, side);
}

/* Nothing may be written to the window, not even what stands there. */
static uint32_t ask_right(enum side side)
{
    uint32_t number;
    lock(&lent.b[WINDOW]);
    number = make_and_show(ASK, side);
    unlock(&lent.b[WINDOW]);
    return number;
}

static int in_range(uint64_t price)
{
    return price >= 1 && price <= STRIGOL_PRICE_LIMIT;
}

/* Scripts */

/* A window's calls: the oracle's, or the library's between fences. */
struct calls_of {
    const char *name;
    uint32_t (*take)(uint8_t *, size_t, uint64_t, uint64_t *);
    uint32_t (*ask)(const uint8_t *, size_t, uint64_t *);
};

static uint32_t fenced_take(uint8_t *window, size_t window_len, uint64_t price, uint64_t *summary)
{
    uint32_t number;
    lay(&lent.b[WINDOW], BEHIND, window, window_len, window_len);
    number = take_right(price, BEHIND);
    memcpy(window, lent.b[WINDOW].at, window_len);
    memcpy(summary, lent.b[SUMMARY].at, lent.b[SUMMARY].length);
    return number;
}

static uint32_t fenced_ask(const uint8_t *window, size_t window_len, uint64_t *summary)
{
    uint32_t number;
    lay(&lent.b[WINDOW], BEHIND, window, window_len, window_len);
    number = ask_right(BEHIND);
    memcpy(summary, lent.b[SUMMARY].at, lent.b[SUMMARY].length);
    return number;
}

static const struct calls_of by_oracle = {"oracle", oracle_window_take, oracle_window_ask};
static const struct calls_of by_library = {"library", fenced_take, fenced_ask};

/* A script's window, of which so many bytes are lent, and others behind its 256. */
static struct { uint8_t window[PAGE]; size_t lent; } script;
static long commands;

static void reset_script(void)
{
    memset(script.window, 0, STRIGOL_WINDOW_SIZE);
    memset(script.window + STRIGOL_WINDOW_SIZE, OTHERS, PAGE - STRIGOL_WINDOW_SIZE);
    script.lent = STRIGOL_WINDOW_SIZE;
}

static void check_others(void)
{
    for (size_t i = STRIGOL_WINDOW_SIZE; i < PAGE; i++)
        if (script.window[i] != OTHERS) fail("byte %zu of the script's window is written", i);
}

/* Carries out a command; puts down its answer as a line of the answers has it. */
static void answer(const struct calls_of *calls, const char *command, char put[ANSWER_ROOM])
{
    uint64_t n = 0, s[STRIGOL_SUMMARY_SIZE];
    uint32_t number = 0;
    char word[8] = "";
    int fields = sscanf(command, "%7s %" SCNu64, word, &n), calling = 1;
    if (fields == 2 && strcmp(word, "price") == 0) number = calls->take(script.window, script.lent, n, s);
    else if (fields == 1 && strcmp(word, "ask") == 0) number = calls->ask(script.window, script.lent, s);
    else calling = 0;
    if (fields == 2 && strcmp(word, "size") == 0 && n <= PAGE) script.lent = n;
    else if (fields == 1 && strcmp(word, "reset") == 0) reset_script();
    else if (!calling) fail("a command that isn't known: %s", command);
    if (calling) snprintf(put, ANSWER_ROOM, "%u %" PRIu64 " %" PRIu64 " %" PRIu64 " %" PRIu64, number, s[0], s[1], s[2], s[3]);
    else strcpy(put, "0");
    check_others();
}

/* Takes the next line from a text; NULL behind the last one. */
static char *next_line(char **text)
{
    char *line = *text;
    if (*line == 0) return NULL;
    *text += strcspn(line, "\n");
    if (**text != 0) *(*text)++ = 0;
    return line;
}

/* A file as a text. */
static char *text_of(const char *stem, const char *ending, char text[TEXT_ROOM])
{
    long length = file_bytes(stem, ending, (uint8_t *)text, TEXT_ROOM - 1);
    if (length <= 0) fail("%s%s isn't there, or too long", stem, ending);
    text[length > 0 ? length : 0] = 0;
    return text;
}

static void check_script(const struct calls_of *calls, const char *stem)
{
    static char text[TEXT_ROOM], answers[TEXT_ROOM];
    char *rest = text_of(stem, ".window", text), *right = text_of(stem, ".answers", answers), *command, *line, put[ANSWER_ROOM];
    doing.part = stem;
    reset_script();
    while ((command = next_line(&rest)) != NULL) {
        if (*command == '#') continue;
        answer(calls, command, put);
        doing.call = calls->name;
        line = next_line(&right);
        if (line == NULL || strcmp(line, put) != 0) fail("'%s' gets '%s', not '%s'", command, put, line != NULL ? line : "");
        commands += calls == &by_library;
    }
    if (next_line(&right) != NULL) fail("the script has more answers than commands");
}

static void try_script(const char *stem)
{
    check_script(&by_oracle, stem);
    check_script(&by_library, stem);
}

static void try_scripts(void)
{
    int scripts;
    doing.part = "scripts";
    scripts = each_stem("tests/vectors/window13/*.window", try_script);
    if (scripts != SCRIPTS || commands != COMMANDS) fail("%d scripts of %ld commands, not %d of %d", scripts, commands, SCRIPTS, COMMANDS);
    printf("window test: %d scripts, of %ld commands, by the oracle and by the library\n", scripts, commands);
}

/* The example of the page */

static void check_example(void)
{
    static const uint64_t prices[] = {19950, 999999, 1};
    static char page[TEXT_ROOM];
    uint8_t right[STRIGOL_WINDOW_SIZE] = {0};
    uint64_t s[STRIGOL_SUMMARY_SIZE];
    char said[ANSWER_ROOM];
    doing.part = "example";
    example_of("docs/WINDOW.md", right, sizeof right);
    reset_script();
    for (size_t i = 0; i < SIZE(prices); i++) fenced_take(script.window, STRIGOL_WINDOW_SIZE, prices[i], s);
    if (memcmp(script.window, right, sizeof right) != 0) fail("not the window of docs/WINDOW.md");
    snprintf(said, sizeof said, "Its summary is %" PRIu64 ", %" PRIu64 ", %" PRIu64 ", %" PRIu64 ".", s[0], s[1], s[2], s[3]);
    if (strstr(text_of("docs/WINDOW", ".md", page), said) == NULL) fail("docs/WINDOW.md doesn't say: %s", said);
    printf("window test: the example of docs/WINDOW.md\n");
}

/* Windows of every kind */

static long judged, sound, made_again;

/* Whether the window is what giving its prices to zeros, one by one, leaves. */
static void check_image(const uint8_t window[STRIGOL_WINDOW_SIZE])
{
    uint8_t again[STRIGOL_WINDOW_SIZE] = {0};
    uint64_t price, summary[STRIGOL_SUMMARY_SIZE];
    for (size_t at = 0; at < sizeof again && (price = get_number(window + at, STRIGOL_PRICE_SIZE)) != 0; at += STRIGOL_PRICE_SIZE)
        if (strigol_window_take(again, sizeof again, price, summary) != 0) fail("price %" PRIu64 " of the window isn't taken again", price);
    if (memcmp(window, again, sizeof again) != 0) fail("another window than its prices make");
    made_again++;
}

/* Lays a window of this size, asks it, gives it a price out of range and one in range. 14 hangs on the window alone, and comes before 25.
   Answers whether the window keeps the rules. */
static int try_window(const uint8_t window[STRIGOL_WINDOW_SIZE], size_t size, enum side side)
{
    static const uint64_t out[] = {0, STRIGOL_PRICE_LIMIT + 1, ((uint64_t)1 << 32) + 1, UINT64_MAX}, in[] = {1, STRIGOL_PRICE_LIMIT, 19950};
    uint32_t asked, declined, taken;
    lay_window(&lent, side, window, size);
    asked = ask_right(side);
    declined = take_right(out[judged % (long)SIZE(out)], side);
    taken = take_right(in[judged % (long)SIZE(in)], side);
    if (asked == 0 && (declined != 25 || taken != 0)) fail("numbers %u and %u, not 25 and 0, where asking gives 0", declined, taken);
    if (asked != 0 && (declined != 14 || taken != 14)) fail("numbers %u and %u, not 14, where asking gives 14", declined, taken);
    judged++;
    sound += asked == 0;
    return asked == 0;
}

/* So many prices, at the edges of their range and between. */
static void make_window(uint32_t count, uint8_t window[STRIGOL_WINDOW_SIZE])
{
    static const uint64_t prices[] = {STRIGOL_PRICE_LIMIT, 1, 19950, 256, 65536, 999998, 255};
    memset(window, 0, STRIGOL_WINDOW_SIZE);
    for (uint32_t i = 0; i < count; i++) put_price(window, i, prices[i % SIZE(prices)]);
}

static void show_judged(const char *what)
{
    printf("window test: %s: %ld windows, %ld of them sound\n", what, judged, sound);
    judged = sound = 0;
}

static void try_sizes(void)
{
    static const size_t longer[] = {511, 512, 513, 1000, PAGE - 1, PAGE};
    static const uint32_t counts[] = {0, 1, STRIGOL_PRICES_MOST - 1, STRIGOL_PRICES_MOST};
    uint8_t window[STRIGOL_WINDOW_SIZE];
    doing.part = "sizes";
    for (size_t i = 0; i <= MOST_SIZE + SIZE(longer); i++) {
        size_t size = i <= MOST_SIZE ? i : longer[i - MOST_SIZE - 1];
        for (size_t k = 0; k < SIZE(counts) * SIDES; k++) {
            make_window(counts[k / SIDES], window);
            if (try_window(window, size, (enum side)(k % SIDES)) != (size >= STRIGOL_WINDOW_SIZE)) fail("%zu bytes are judged otherwise", size);
        }
    }
    show_judged("sizes");
}

static void try_bytes(void)
{
    static const uint8_t values[] = {0, 1, 2, 0x0e, 0x0f, 0x10, 0x3e, 0x3f, 0x40, 0x41, 0x42, 0x43, 0x7f, 0x80, 0xff};
    uint8_t window[STRIGOL_WINDOW_SIZE];
    doing.part = "bytes";
    for (uint32_t count = 0; count <= STRIGOL_PRICES_MOST; count++)
        for (size_t at = 0; at < sizeof window; at++)
            for (size_t i = 0; i < SIZE(values); i++) {
                make_window(count, window);
                window[at] = values[i];
                if (try_window(window, sizeof window, (enum side)(i % SIDES))) check_image(window);
            }
    show_judged("bytes");
}

/* A price of a sound window stands where one stood, or in the first empty place; zero where none stood, or in place of the last one. */
static void try_places(void)
{
    uint8_t window[STRIGOL_WINDOW_SIZE];
    doing.part = "places";
    for (uint32_t count = 0; count <= STRIGOL_PRICES_MOST; count++)
        for (uint32_t at = 0; at < STRIGOL_PRICES_MOST; at++)
            for (uint32_t i = 0; i < EDGE_PRICES; i++) {
                uint64_t price = edge_prices[i];
                int right = price == 0 ? at + 1 >= count : in_range(price) && at <= count;
                make_window(count, window);
                put_price(window, at, price);
                if (try_window(window, sizeof window, (enum side)(i % SIDES)) != right)
                    fail("%" PRIu64 " at place %u of %u prices", price, at, count);
            }
    show_judged("places");
}

/* A price exchanged with a place that has none leaves a zero before a price, the last price and the first empty place too. */
static void try_exchanges(void)
{
    uint8_t window[STRIGOL_WINDOW_SIZE];
    doing.part = "exchanges";
    for (uint32_t count = 0; count <= STRIGOL_PRICES_MOST; count++)
        for (uint32_t from = 0; from < STRIGOL_PRICES_MOST; from++)
            for (uint32_t to = from + 1; to < STRIGOL_PRICES_MOST; to++) {
                uint64_t first, second;
                make_window(count, window);
                first = get_number(window + from * STRIGOL_PRICE_SIZE, STRIGOL_PRICE_SIZE);
                second = get_number(window + to * STRIGOL_PRICE_SIZE, STRIGOL_PRICE_SIZE);
                put_price(window, from, second);
                put_price(window, to, first);
                if (try_window(window, sizeof window, (enum side)(to % SIDES)) != ((from < count) == (to < count)))
                    fail("places %u and %u of %u prices exchanged", from, to, count);
            }
    show_judged("exchanges");
}

/* Lists of prices */

/* All prices taken since the window was empty, in order. The window's bytes have no part in it. */
static struct { size_t count; uint64_t prices[LIST_PRICES]; } plain;
static long taken, asked;

/* W13.3: the four worked out anew from the last 32 of the prices taken, or from all if fewer. */
static void work_out(uint64_t right[STRIGOL_SUMMARY_SIZE])
{
    size_t from = plain.count > STRIGOL_PRICES_MOST ? plain.count - STRIGOL_PRICES_MOST : 0;
    memset(right, 0, STRIGOL_SUMMARY_SIZE * sizeof *right);
    for (size_t i = from; i < plain.count; i++) {
        uint64_t price = plain.prices[i];
        right[STRIGOL_PRICES_HELD]++;
        right[STRIGOL_LOWEST] = i == from || price < right[STRIGOL_LOWEST] ? price : right[STRIGOL_LOWEST];
        right[STRIGOL_HIGHEST] = price > right[STRIGOL_HIGHEST] ? price : right[STRIGOL_HIGHEST];
        right[STRIGOL_SUM] += price;
    }
}

/* Whether the call gave this number, and the summary of the prices taken, or with another number than 0 four zeros. */
static void check_summary(uint32_t number, uint32_t right_number)
{
    const uint64_t *got = NUMBERS_64(&lent, SUMMARY);
    uint64_t right[STRIGOL_SUMMARY_SIZE] = {0};
    if (number != right_number) fail("number %u behind %zu prices taken, not %u", number, plain.count, right_number);
    if (right_number == 0) work_out(right);
    for (int i = 0; i < STRIGOL_SUMMARY_SIZE; i++)
        if (got[i] != right[i]) fail("%" PRIu64 " at %d of the summary, behind %zu prices taken, not %" PRIu64, got[i], i, plain.count, right[i]);
}

static void give(uint64_t price, enum side side)
{
    uint32_t number = take_right(price, side);
    if (in_range(price)) plain.prices[plain.count++] = price;
    check_summary(number, in_range(price) ? 0 : 25);
    taken += in_range(price);
}

/* How a stretch of prices goes on. */
enum kind { ANY, RISING, FALLING, SAME, KINDS };
struct stretch { enum kind kind; uint32_t left; uint64_t last; };

/* The next price of a stretch of up to 80, now and then another one. A stretch may leave the range at either end; below 0 comes 2^64 - 1. */
static uint64_t next_price(struct draws *d, struct stretch *s)
{
    static const uint32_t steps[] = {1, 2, 1000, 40000};
    uint32_t step = 1 + draw(d, steps[s->left % SIZE(steps)]);
    if (s->left == 0) *s = (struct stretch){(enum kind)draw(d, KINDS), 1 + draw(d, 80), random_price(d)};
    s->left--;
    if (s->kind == RISING) s->last += step;
    if (s->kind == FALLING) s->last -= step;
    if (s->kind == ANY || draw(d, 16) == 0) return random_price(d);
    return s->last;
}

/* A window that is empty at first, in every fourth list with bytes behind it, given prices one after another, asked and moved now and then. */
static void try_list(uint64_t seed)
{
    static const uint8_t empty[STRIGOL_WINDOW_SIZE];
    struct draws d;
    struct stretch stretch = {0};
    enum side side = BEHIND;
    doing.part = "lists";
    begin_seed(&d, seed);
    plain.count = 0;
    lay_window(&lent, side, empty, seed % 4 ? STRIGOL_WINDOW_SIZE : STRIGOL_WINDOW_SIZE + 1 + draw(&d, PAGE - STRIGOL_WINDOW_SIZE));
    for (int i = 0; i < LIST_PRICES; i++) {
        if (draw(&d, 64) == 0) {
            side = (enum side)draw(&d, SIDES);
            lay_again(&lent.b[WINDOW], side, lent.b[WINDOW].length);
        }
        if (draw(&d, 8) == 0) {
            check_summary(ask_right(side), 0);
            asked++;
        }
        give(next_price(&d, &stretch), side);
    }
}

/* Damaged windows */

/* One size in eight is another than it need be. */
static size_t random_size(struct draws *d)
{
    enum { RIGHT = STRIGOL_WINDOW_SIZE };
    static const size_t sizes[] = {0, 1, RIGHT / 2, RIGHT - STRIGOL_PRICE_SIZE, RIGHT - 1, RIGHT + 1, 2 * RIGHT, PAGE};
    return draw(d, 8) ? RIGHT : sizes[draw(d, SIZE(sizes))];
}

static void try_damaged(uint64_t seed)
{
    uint8_t window[STRIGOL_WINDOW_SIZE];
    struct draws d;
    doing.part = "damaged";
    begin_seed(&d, seed);
    random_window(&d, window);
    for (uint32_t times = draw(&d, 4); times > 0; times--) damage_window(&d, window);
    if (draw(&d, 16) == 0) garbage(&d, window, sizeof window);
    if (try_window(window, random_size(&d), (enum side)(seed % SIDES))) check_image(window);
    take_right(random_price(&d), (enum side)(seed % SIDES));
}

int main(int argc, char **argv)
{
    uint64_t only = argc > 1 ? strtoull(argv[1], NULL, 10) : 0;
    begin_test("window test", &lent);
    if (only == 0) {
        try_scripts();
        check_example();
        try_sizes();
        try_bytes();
        try_places();
        try_exchanges();
    }
    for (uint64_t seed = only ? only : 1; seed <= (only ? only : LISTS); seed++) try_list(seed);
    printf("window test: lists: %ld prices taken of %d given, and asked %ld times\n", taken, only ? LIST_PRICES : LISTS * LIST_PRICES, asked);
    for (uint64_t seed = only ? only : 1; seed <= (only ? only : DAMAGED); seed++) try_damaged(seed);
    show_judged("damaged");
    printf("window test: %ld sound windows made again of their prices\n", made_again);
    for (enum call call = TAKE; call <= ASK; call++) show_met(call, only == 0);
    printf("window test: %d failures\n", failures);
    return failures != 0;
}
