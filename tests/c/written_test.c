/* Tries which bytes of the store a step writes when it replaces a stretch of a string (document 02, wish 3). Where the string's length stays: the
   new bytes, and neither the length nor any other. Else: the new bytes, those that the bytes behind the stretch move to, the length, and those
   that come free. A scan with a filler may write the cell of the filler's string as well, and no more of the string searched for that.
   It tries all ways of replacing, at the start, in the middle and at the end of a string, in three cells of the store; steps that leave the string;
   and runs of replacements. It looks in two ways, and each time compares the store left with one that is changed plainly.

   watched  all bytes of the store are watched, and those written are compared with those that must be; of a run, with those that its steps must write
   locked   cells with strings of 1,000 bytes are laid across a page's border, and all that is lent may only be read, but for state, answer and the
            pages that the new bytes lie in; where the length changes, the page that has it is watched

   `written_test PART` does one part alone. */
#include "beside.h"
#include "watch.h"

#include <stdio.h>
#include <string.h>

enum { LONG = 1000, MOST_LITERAL = 20, MOST_TEXT = 100, ROW_OF_NAMES = 8, TRIED_STEP = STRIGOL_STRINGS / ROW_OF_NAMES };

/* A way of replacing a stretch: setting a string or scanning it, S or S$n. A scan finds the stretch by a literal, or by one byte and a filler. */
struct way { const char *begins; int scans, backwards, filler; enum bound bound; };
static const struct way ways[] = {
    {"S", 0, 0, 0, WHOLE},          {"S", 0, 0, 0, CONSTANT},          {"S", 0, 0, 0, VARIABLE},
    {"SCAN S", 1, 0, 0, WHOLE},     {"SCAN S", 1, 0, 0, CONSTANT},     {"SCAN S", 1, 0, 0, VARIABLE},
    {"BACKSCAN S", 1, 1, 0, WHOLE}, {"BACKSCAN S", 1, 1, 0, CONSTANT}, {"BACKSCAN S", 1, 1, 0, VARIABLE},
    {"SCAN S", 1, 0, 1, WHOLE},     {"SCAN S", 1, 0, 1, CONSTANT},     {"SCAN S", 1, 0, 1, VARIABLE},
    {"BACKSCAN S", 1, 1, 1, WHOLE}, {"BACKSCAN S", 1, 1, 1, CONSTANT}, {"BACKSCAN S", 1, 1, 1, VARIABLE},
};
enum { WAYS = sizeof ways / sizeof ways[0] };

/* A replacement: S lies in this cell and has `old` bytes, those from..to become `new` ones. If they are alike, the new bytes of a stretch are the old
   ones, and so are those that move. */
struct change { const struct way *way; int cell, alike; size_t old, from, to, new; };

/* The cells that S lies in, one after the other. */
static const int cells[] = {0, STRIGOL_STRINGS / 2, STRIGOL_STRINGS - 1};
enum { CELLS = sizeof cells / sizeof cells[0] };

static struct lent lent;
static long tried;
static uint8_t value[STRIGOL_STRING_MOST];

/* What must come of each byte between the store's fences. */
enum must { STAYS, WRITTEN, EITHER };
static uint8_t musts[STRIGOL_STORE_SIZE + 3 * PAGE];

/* The strings of every deck: S in the cell asked for, T and F in those beside it, and others. */
static const char *name_in(int cell, int cell_of_s)
{
    switch ((cell - cell_of_s + STRIGOL_STRINGS) % STRIGOL_STRINGS) {
    case 0: return "S";
    case 1: return "T";
    case STRIGOL_STRINGS - 1: return "F";
    default: return made_name(cell);
    }
}

static int cell_of_t(int cell_of_s)
{
    return (cell_of_s + 1) % STRIGOL_STRINGS;
}

static int cell_of_f(int cell_of_s)
{
    return (cell_of_s + STRIGOL_STRINGS - 1) % STRIGOL_STRINGS;
}

/* A deck in which all strings have their cells by the statements before the one that is tried. */
static void make_deck(const char *statement, int cell, struct deck *deck)
{
    char lines[1000];
    size_t n = (size_t)snprintf(lines, sizeof lines, "PROGRAM P|NUMBER N");
    for (int i = 0; i < STRIGOL_STRINGS; i++)
        n += (size_t)snprintf(lines + n, sizeof lines - n, "%s%s", i % ROW_OF_NAMES ? "," : "|PRINT ", name_in(i, cell));
    snprintf(lines + n, sizeof lines - n, "|%s|END|", statement);
    short_deck(lines, deck);
}

static uint8_t *cell_at(uint8_t *store, int cell)
{
    return store + cell * STRIGOL_CELL_SIZE;
}

static void put_length(uint8_t *cell, size_t n)
{
    cell[0] = (uint8_t)n;
    cell[1] = (uint8_t)(n >> 8);
}

/* Bytes of so many kinds in turn, from this one on. */
static void put_turns(uint8_t *at, size_t n, int first, size_t kinds)
{
    for (size_t i = 0; i < n; i++) at[i] = (uint8_t)((size_t)first + i % kinds);
}

/* Keeps the store, of which no byte must be written yet. */
static void keep_store(void)
{
    keep(&lent.b[STORE]);
    memset(musts, STAYS, sizeof musts);
}

/* Readies a step by this statement, or several parted by |, and the store with a page's border at this byte of it and strings of many lengths in it,
   S and N as asked for. Of S the bytes from..to are Z, and no others. */
static void prepare(const char *statement, const struct change *c, int64_t n, size_t border)
{
    static struct deck deck;
    make_deck(statement, c->cell, &deck);
    lay_deck(&lent, BEHIND, &deck, STRIGOL_TABLE_SIZE);
    if (make(&lent, READ) != 0) fail("the deck is refused");
    lay_run(&lent, BEFORE, NULL, 0, MOST_OUTPUT, STRIGOL_STORE_SIZE);
    lent.b[STORE].at += (PAGE - border % PAGE) % PAGE;
    make(&lent, START);
    NUMBERS_64(&lent, STATE)[STRIGOL_NEXT] = TRIED_STEP;
    NUMBERS_64(&lent, STATE)[STRIGOL_NUMBERS_AT] = STRIGOL_BIAS + (uint64_t)n;
    for (int i = 0; i < STRIGOL_STRINGS; i++) {
        uint8_t *cell = cell_at(lent.b[STORE].at, i), *string = cell + 2;
        size_t length = i == c->cell ? c->old : i == cell_of_t(c->cell) ? c->new : (size_t)i * 97 % (STRIGOL_STRING_MOST + 1);
        put_length(cell, length);
        put_turns(string, length, i == c->cell ? 'A' : 'a', i == c->cell && c->alike ? 1 : 25);
        if (i == c->cell) memset(string + c->from, 'Z', c->to - c->from);
        if (i == cell_of_t(c->cell)) memcpy(string, value, length);
    }
    keep_store();
}

/* Bytes of the kept store. */
static void must(const uint8_t *at, size_t n, enum must what)
{
    memset(musts + (at - lent.b[STORE].copy), what, n);
}

/* The filler's piece is the stretch but for the byte Z that was searched: its last bytes, or the first ones. */
static size_t filler_length(const struct change *c)
{
    return c->to - c->from - 1;
}

/* The filler's cell, all of which may be written. */
static uint8_t *cell_of_filler(const struct change *c)
{
    uint8_t *cell = cell_at(kept(&lent.b[STORE]), cell_of_f(c->cell));
    must(cell, STRIGOL_CELL_SIZE, EITHER);
    return cell;
}

static void change_filler(const struct change *c)
{
    uint8_t *cell = cell_of_filler(c);
    memset(cell, 0, STRIGOL_CELL_SIZE);
    put_length(cell, filler_length(c));
    memset(cell + 2, 'Z', filler_length(c));
}

/* Makes the change on the kept store, and says which bytes must be written. */
static void change_kept(const struct change *c)
{
    uint8_t *cell = cell_at(kept(&lent.b[STORE]), c->cell), *string = cell + 2;
    size_t behind = c->old - c->to, to = c->from + c->new, length = to + behind;
    if (c->way->filler) change_filler(c);
    memmove(string + to, string + c->to, behind);
    for (size_t i = 0; i < c->new; i++) string[c->from + i] = value[c->way->backwards ? c->new - 1 - i : i];
    must(string + c->from, c->new, WRITTEN);
    if (length == c->old) return;
    must(string + to, behind, WRITTEN);
    put_length(cell, length);
    must(cell, 2, WRITTEN);
    if (length > c->old) return;
    memset(string + length, 0, c->old - length);
    must(string + length, c->old - length, WRITTEN);
}

/* The n of S$n. What is set, or scanned by SCAN, is the first n bytes, and ends where the stretch ends; of a string set whole, n passes the end. What
   is scanned by BACKSCAN is the last n bytes, and begins where the stretch begins. */
static size_t bound_of(const struct change *c)
{
    if (c->way->scans) return c->way->backwards ? c->old - c->from : c->to;
    return c->to + (c->to == c->old);
}

/* The pattern that finds the stretch. The filler is a free one where it takes all the rest, as it does where n ends what is scanned. */
static void spell_pattern(const struct change *c, char text[MOST_TEXT])
{
    static const char stretch[] = "ZZZZZZZZZZZZZZZZZZZZ";
    int rest = c->way->bound != WHOLE || (c->way->backwards ? c->from == 0 : c->to == c->old);
    if (c->way->filler && rest) snprintf(text, MOST_TEXT, "[\"Z\",(F)]");
    else if (c->way->filler) snprintf(text, MOST_TEXT, "[\"Z\",(F$%zu)]", filler_length(c));
    else if (c->from == c->to) snprintf(text, MOST_TEXT, "[]");
    else snprintf(text, MOST_TEXT, "[\"%.*s\"]", (int)(c->to - c->from), stretch);
}

/* The statement of a change. Its new bytes are a literal if they are few, and else in T. */
static void spell(const struct change *c, char text[MOST_TEXT])
{
    char bound[MOST_TEXT] = "", pattern[MOST_TEXT] = "", bytes[MOST_TEXT] = "T";
    if (c->way->bound == VARIABLE) snprintf(bound, sizeof bound, "$N");
    if (c->way->bound == CONSTANT) snprintf(bound, sizeof bound, "$%zu", bound_of(c));
    if (c->way->scans) spell_pattern(c, pattern);
    if (c->new == 0) bytes[0] = 0;
    else if (c->new <= MOST_LITERAL) snprintf(bytes, sizeof bytes, "\"%.*s\"", (int)c->new, (const char *)value);
    snprintf(text, MOST_TEXT, "%s%.20s%.40s=%.30s", c->way->begins, bound, pattern, bytes);
}

/* Whether a change can be had by its way: what is set begins a string, a null pattern lies where the scan begins, a literal is short. */
static int has_way(const struct change *c)
{
    size_t n = c->to - c->from;
    if (c->old - n + c->new > STRIGOL_STRING_MOST) return 0;
    if (!c->way->scans) return c->from == 0 && (c->way->bound != WHOLE || c->to == c->old);
    if (c->way->filler) return n > 0;
    return n > 0 ? n <= MOST_LITERAL : c->from == (c->way->backwards ? c->old : 0);
}

/* Readies a change, with what must come of it. */
static void prepare_change(const struct change *c, size_t border)
{
    static char statement[MOST_TEXT], part[2 * MOST_TEXT];
    put_turns(value, sizeof value, c->alike ? 'Z' : '0', c->alike ? 1 : 10);
    spell(c, statement);
    snprintf(part, sizeof part, "%s, bytes %zu to %zu of %zu by %zu, in cell %d", statement, c->from, c->to, c->old, c->new, c->cell);
    doing.part = part;
    doing.seed = (uint64_t)tried++;
    prepare(statement, c, (int64_t)bound_of(c), border);
    doing.deck = NULL;
    change_kept(c);
}

static void make_call(enum call call, uint32_t right)
{
    uint32_t number = make(&lent, call);
    if (number != right) fail("number %u, not %u", number, right);
}

/* All but state and answer may only be read, or be written again. */
static const enum which read_only[] = {TABLE, STORE, INPUT, OUTPUT};

static void lock_all(void)
{
    for (size_t i = 0; i < sizeof read_only / sizeof read_only[0]; i++) lock(&lent.b[read_only[i]]);
}

static void unlock_all(void)
{
    for (size_t i = 0; i < sizeof read_only / sizeof read_only[0]; i++) unlock(&lent.b[read_only[i]]);
}

/* Compares which of these bytes of the store were written with which had to be. Says how many are wrong, and the first and last of them. */
static void compare_written(const uint8_t *from, const uint8_t *to, int cell)
{
    const struct buffer *store = &lent.b[STORE];
    const uint8_t *first = NULL, *last = NULL;
    int more = 0, fewer = 0;
    for (const uint8_t *at = from; at < to; at++) {
        enum must what = (enum must)musts[at - store->from];
        if (what == EITHER || wrote(at) == (what == WRITTEN)) continue;
        if (first == NULL) first = at;
        last = at;
        more += wrote(at);
        fewer += !wrote(at);
    }
    if (first != NULL)
        fail("%d bytes too many are written and %d too few, from byte %td of the cell to byte %td", more, fewer, first - cell_at(store->at, cell),
             last - cell_at(store->at, cell));
}

/* Makes the step, or the run, with all bytes of the store watched. */
static void call_watched(enum call call, int cell, uint32_t right)
{
    const struct buffer *store = &lent.b[STORE];
    lock_all();
    watch(store->from, store->to);
    make_call(call, right);
    end_watch();
    unlock_all();
    compare_written(store->from, store->to, cell);
    same(&lent, STORE);
}

/* Where a page's border lies, from the store's start on: behind the length, before the stretch, behind it, in the middle of the string; and between
   the two bytes of the length, and behind the new bytes. */
enum { BORDERS = 6, BORDERS_LOCKED = 4 };
static size_t border_of(const struct change *c, int which)
{
    const size_t borders[BORDERS] = {2, c->from + 2, c->to + 2, c->old / 2 + 2, 1, c->from + c->new + 7};
    return (size_t)c->cell * STRIGOL_CELL_SIZE + borders[which];
}

static void try_watched(struct change *c)
{
    c->cell = cells[tried % CELLS];
    c->alike = tried / CELLS % 2;
    prepare_change(c, border_of(c, (int)(tried / (2 * CELLS) % BORDERS)));
    call_watched(STEP, c->cell, 0);
}

/* Makes the step of a change while only pages with new bytes may be written; where the length changes, the page that has it is watched. */
static void step_locked(const struct change *c)
{
    uint8_t *cell = cell_at(lent.b[STORE].at, c->cell), *page = page_of(cell);
    int moves = c->to - c->from != c->new;
    lock_all();
    open_pages(cell + 2 + c->from, c->new);
    if (moves) watch(page, page + PAGE);
    make_call(STEP, 0);
    if (moves) end_watch();
    unlock_all();
    if (moves) compare_written(page, page + PAGE, c->cell);
    same(&lent, STORE);
}

/* Long strings, of which a stretch is replaced by one as long, or the last byte by two, in all cells, at the borders that leave the length on one
   page. No filler, since its cell would be written too. */
static void try_locked(struct change *c)
{
    int same_length = c->to - c->from == c->new, last_by_two = c->from == LONG - 1 && c->to == LONG && c->new == 2;
    if (c->old != LONG || c->way->filler || (!same_length && !last_by_two)) return;
    for (int i = 0; i < CELLS; i++)
        for (int border = 0; border < BORDERS_LOCKED; border++) {
            c->cell = cells[i];
            c->alike = 0;
            prepare_change(c, border_of(c, border));
            step_locked(c);
        }
}

/* A stretch of a string by every way, becoming none, few, as many, one more or less, and as many bytes as there is room for. */
static void try_stretch(size_t old, size_t from, size_t to, void (*try)(struct change *))
{
    const size_t n = to - from, news[] = {0, 1, 2, n - 1, n, n + 1, STRIGOL_STRING_MOST - (old - n)};
    for (size_t i = 0; i < sizeof news / sizeof news[0]; i++)
        for (int way = 0; way < WAYS; way++) {
            struct change c = {&ways[way], 0, 0, old, from, to, news[i]};
            int again = 0;
            for (size_t k = 0; k < i; k++) again |= news[k] == news[i];
            if (!again && news[i] <= STRIGOL_STRING_MOST && has_way(&c)) try(&c);
        }
}

/* Strings of some lengths, and of each the stretches of none, one, two and all of its bytes at the start, in the middle and at the end. */
static void try_all(void (*try)(struct change *))
{
    static const size_t olds[] = {0, 1, 2, 3, 60, LONG, STRIGOL_STRING_MOST};
    for (size_t i = 0; i < sizeof olds / sizeof olds[0]; i++) {
        size_t old = olds[i];
        for (size_t n = 0; n <= 2 && n < old; n++) {
            size_t middle = (old - n) / 2;
            try_stretch(old, 0, n, try);
            if (middle > 0) try_stretch(old, middle, middle + n, try);
            if (old - n > middle) try_stretch(old, old - n, old, try);
        }
        try_stretch(old, 0, old, try);
    }
}

/* What comes of F in a step that leaves S: it is no filler; or one that becomes null, or Z; or one that is named, and put back by the stop. */
enum filler { NO_FILLER, NULLED, NAMED, PUT_BACK };

/* Steps that write no byte of S, which has two Z in its middle, nor of another string but F: N, the length of S, the number that they get. */
static const struct still { const char *statement; int n; size_t old; uint32_t number; enum filler filler; } still[] = {
    {"SCAN S[\"ZZZ\"]=\"X\"", 0, LONG, 0, NO_FILLER},       {"BACKSCAN S[\"ZZZ\"]=", 0, LONG, 0, NO_FILLER},
    {"SCAN S$N[\"Z\"]=\"X\"", 9, LONG, 0, NO_FILLER},       {"BACKSCAN S$N[\"Z\"]=\"X\"", 9, LONG, 0, NO_FILLER},
    {"SCAN S[\"Z\"]", 0, LONG, 0, NO_FILLER},               {"BACKSCAN S[\"Z\"]", 0, LONG, 0, NO_FILLER},
    {"SCAN S[\"Z\"]=\"XY\"", 0, 1024, 20, NO_FILLER},       {"BACKSCAN S[\"Z\"]=\"XY\"", 0, 1024, 20, NO_FILLER},
    {"SCAN S$N[]=\"X\"", 9, 1024, 20, NO_FILLER},           {"S=S,\"X\"", 0, 1024, 20, NO_FILLER},
    {"S$1=\"XY\"", 0, 1024, 20, NO_FILLER},                 {"S$N=\"XYZ\"", 2, 1024, 20, NO_FILLER},
    {"S$N=\"A\"", -1, LONG, 0, NO_FILLER},                  {"S$N=S", -1, LONG, 0, NO_FILLER},
    {"SCAN S$N[\"Z\"]=\"X\"", -1, LONG, 17, NO_FILLER},     {"S$N=", 0, LONG, 0, NO_FILLER},
    {"N=LENGTH(S)", 0, LONG, 0, NO_FILLER},                 {"S=S,STRING(N)", 5, 1024, 20, NO_FILLER},
    {"SCAN S[\"Z\",(F$1)]=\"XYZ\"", 0, 1024, 20, PUT_BACK}, {"BACKSCAN S[\"Z\",(F$1)]=\"XYZ\"", 0, 1024, 20, PUT_BACK},
    {"SCAN S$N[\"Z\",(F)]=F,F,F", 514, 1024, 20, PUT_BACK}, {"BACKSCAN S$N[\"Z\",(F)]=F,F,F", 512, 1024, 20, PUT_BACK},
    {"SCAN S[\"Z\",(F$1)]", 0, LONG, 0, NAMED},             {"BACKSCAN S[\"Z\",(F$1)]", 0, LONG, 0, NAMED},
    {"SCAN S$502[\"Z\",(F)]", 0, LONG, 0, NAMED},           {"BACKSCAN S$N[\"Z\",(F)]", 500, LONG, 0, NAMED},
    {"SCAN S[\"ZZZ\",(F)]=\"X\"", 0, LONG, 0, NULLED},      {"BACKSCAN S$N[\"Z\",(F)]", 9, LONG, 0, NULLED},
};

static void try_still(const struct still *s, int which)
{
    const size_t middle = s->old / 2;
    const struct change two = {&ways[0], cells[which], 0, s->old, middle, middle + 2, 0},
                        one = {&ways[0], cells[which], 0, s->old, middle, middle + 1, 0};
    doing.part = s->statement;
    doing.seed = (uint64_t)tried++;
    prepare(s->statement, &two, s->n, border_of(&two, which));
    if (s->filler == NULLED) change_filler(&one);
    if (s->filler == NAMED) change_filler(&two);
    if (s->filler == PUT_BACK) cell_of_filler(&two);
    call_watched(STEP, two.cell, s->number);
}

/* What is replaced in the steps of a run, one after the other: S has LONG bytes at first, one Z in its middle, and N is 2. Each makes the bytes
   from..to the new ones, turned round by BACKSCAN. */
static const struct part_of_run { const char *statement; int backwards; size_t from, to; const char *new; } run[] = {
    {"SCAN S[\"Z\"]=\"0\"", 0, LONG / 2, LONG / 2 + 1, "0"}, {"BACKSCAN S[\"0\"]=\"12\"", 1, LONG / 2, LONG / 2 + 1, "12"},
    {"BACKSCAN S[]=\"34\"", 1, LONG + 1, LONG + 1, "34"},    {"S$1=\"5\"", 0, 0, 1, "5"},
    {"S$N=\"678\"", 0, 0, 2, "678"},                         {"SCAN S$N[\"7\"]=\"9\"", 0, 1, 2, "9"},
    {"BACKSCAN S[\"9\"]=", 1, 1, 2, ""},                     {"BACKSCAN S[\"12\"]=\"34\"", 1, LONG / 2, LONG / 2 + 2, "34"},
    {"S=\"ABCD\"", 0, 0, LONG + 3, "ABCD"},                  {"S=\"EFGH\"", 0, 0, 4, "EFGH"},
    {"SCAN S[\"G\"]=\"IJK\"", 0, 2, 3, "IJK"},               {"S$3=", 0, 0, 3, ""},
};
enum { RUN_STEPS = sizeof run / sizeof run[0], RUN_N = 2 };

/* Makes the change of a step of the run on the kept store. */
static void change_by(const struct part_of_run *part, int cell)
{
    const struct way way = {NULL, 0, part->backwards, 0, WHOLE};
    const uint8_t *s = cell_at(kept(&lent.b[STORE]), cell);
    const struct change c = {&way, cell, 0, (size_t)s[0] + 256 * (size_t)s[1], part->from, part->to, strlen(part->new)};
    memcpy(value, part->new, c.new);
    change_kept(&c);
}

/* The run in calls of so many steps each. What a call must write is all that its steps must. */
static void try_run(int cell, int count, int border)
{
    const struct change first = {&ways[0], cell, 0, LONG, run[0].from, run[0].to, 0};
    char statements[5 * MOST_TEXT];
    size_t n = 0;
    for (int i = 0; i < RUN_STEPS; i++) n += (size_t)snprintf(statements + n, sizeof statements - n, "%s%s", i ? "|" : "", run[i].statement);
    prepare(statements, &first, RUN_N, border_of(&first, border));
    doing.part = "run";
    for (int done = 0; done < RUN_STEPS; done += count) {
        doing.seed = (uint64_t)tried;
        keep_store();
        lent.count = (uint32_t)(RUN_STEPS - done < count ? RUN_STEPS - done : count);
        for (uint32_t i = 0; i < lent.count; i++) change_by(&run[done + (int)i], cell);
        call_watched(RUN, cell, 0);
        if (NUMBERS_64(&lent, RESULT)[STRIGOL_DONE] != lent.count) fail("not all %u steps are done", lent.count);
        tried += lent.count;
    }
}

static void watched(void)
{
    static const int counts[] = {1, 2, 5, RUN_STEPS};
    try_all(try_watched);
    for (size_t i = 0; i < sizeof still / sizeof still[0]; i++)
        for (int k = 0; k < CELLS; k++) try_still(&still[i], k);
    for (size_t i = 0; i < sizeof counts / sizeof counts[0]; i++)
        for (int k = 0; k < CELLS; k++) try_run(cells[k], counts[i], (counts[i] + k) % BORDERS);
}

static void locked(void)
{
    try_all(try_locked);
}

int main(int argc, char **argv)
{
    static const struct { const char *name; void (*part)(void); } parts[] = {{"watched", watched}, {"locked", locked}};
    setvbuf(stdout, NULL, _IOLBF, 0);
    begin_test("written test", &lent);
    for (size_t i = 0; i < sizeof parts / sizeof parts[0]; i++)
        if (argc < 2 || strcmp(argv[1], parts[i].name) == 0) parts[i].part();
    printf("written test: %ld steps, %d failures\n", tried, failures);
    return failures != 0;
}
