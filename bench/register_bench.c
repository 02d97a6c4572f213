/* The register's calls, each with its check of all rules: a line of four fields offered to 255 others, and one handed out of 256, beside one pass
   over the 8,192 bytes; the report of 256 lines, in one currency and in several, beside one pass over the report, and beside the same report from
   SQLite. Each figure is the best of several rounds in one run. Then, for the record, a line offered and one handed out beside SQLite, and two more
   ways to the report. SQLite has tables in memory and prepared statements, with the contract as primary key and an index on the place; for the report
   the place is the primary key, and an index has what the totals need. Both must give the same bytes. Printed are tables in Markdown. */
#include "figures.h"
#include "strigol.h"

#include <sqlite3.h>
#include <stdio.h>
#include <string.h>

enum {
    ROUNDS = 200, CALLS = 100, TABLES = 100, SELECTS = 20, OFFER_PASSES = 12, LINE_PASSES = 10, REPORT_RATIO = 10,
    LINES = STRIGOL_LINES_MOST, LAST = LINES - 1, SLOT = 28, LAST_AT = STRIGOL_REGISTER_SIZE - SLOT, MOST_CONTRACT = 8, MARKS = 4093
};

/* The lines of a register and their fields; the grain is always the same. Of the `length` bytes that a line is held with, `offered` are offered. */
#define GRAIN "WH"
#define HOUSE "EUR"
static struct {
    char contract[MOST_CONTRACT + 1], currency[STRIGOL_CURRENCY_SIZE + 1], line[STRIGOL_LINE_SIZE];
    unsigned tonnes, price;
    int offered, length;
} held[LINES];
static uint8_t buffer[STRIGOL_REGISTER_SIZE], output[STRIGOL_REPORT_MOST];
static uint32_t output_len;
static volatile uint32_t sink;

/* A row of random numbers, the same in every run. */
static uint32_t draw(uint32_t below)
{
    static uint64_t state = 1;
    state = state * 6364136223846793005u + 1442695040888963407u;
    return (uint32_t)(state >> 33) % below;
}

/* A contract of so many random letters and digits. */
static void draw_contract(char *to, uint32_t n)
{
    memset(to, 0, MOST_CONTRACT + 1);
    for (uint32_t i = 0; i < n; i++) to[i] = "ABCDEFGHIJKLMNOPQRSTUVWXYZ0123456789"[draw(36)];
}

static int is_held(int count, const char *contract)
{
    for (int i = 0; i < count; i++)
        if (strcmp(held[i].contract, contract) == 0) return 1;
    return 0;
}

/* The registers: which contract the line of a place has, and the other fields. */

static void sequence(int place)
{
    snprintf(held[place].contract, sizeof held[place].contract, "C%07u", (unsigned)place % LINES);
}

static void any(int place)
{
    do draw_contract(held[place].contract, 1 + draw(MOST_CONTRACT));
    while (is_held(place, held[place].contract));
}

static void two_signs(int place)
{
    do draw_contract(held[place].contract, 2);
    while (is_held(place, held[place].contract));
}

/* Contracts made against the code. It takes a contract as a number, the first byte lowest, and compares it with those before it only where one of
   them left the same rest when divided by 4,093. All of these do. */
static void together(int place)
{
    uint64_t key;
    do {
        draw_contract(held[place].contract, MOST_CONTRACT);
        key = 0;
        for (int i = MOST_CONTRACT - 1; i >= 0; i--) key = key << 8 | (uint8_t)held[place].contract[i];
    } while (key % MARKS != 0 || is_held(place, held[place].contract));
}

/* A register in one currency, the house currency, is offered lines of four fields. */
static const struct { const char *name; void (*contract)(int place); unsigned tonnes, price, currencies; } registers[] = {
    {"C0000000, C0000001, ..; lines of 28 bytes", sequence, 99999, 999999, 1},
    {"random contracts, tonnes and prices", any, 0, 0, 1},
    {"contracts of two signs; lines of 13 bytes", two_signs, 1, 1, 1},
    {"contracts that fall together; lines of 28 bytes", together, 99999, 999999, 1},
    {"the first of these in 3 currencies", sequence, 99999, 999999, 3},
    {"the first of these in 256 currencies", sequence, 99999, 999999, 256},
};
enum { REGISTERS = sizeof registers / sizeof registers[0], IN_ONE_CURRENCY = 4 };

/* One of so many currencies; neighbours differ. */
static void choose_currency(int place, unsigned currencies)
{
    unsigned which = (unsigned)place * 37 % currencies;
    strcpy(held[place].currency, HOUSE);
    if (currencies == 1) return;
    held[place].currency[1] = (char)('Z' - which % 26);
    held[place].currency[2] = (char)('A' + which / 26);
}

static void make_lines(size_t which)
{
    for (int i = 0; i < LINES; i++) {
        held[i].tonnes = registers[which].tonnes ? registers[which].tonnes : 1 + draw(99999);
        held[i].price = registers[which].price ? registers[which].price : 1 + draw(999999);
        registers[which].contract(i);
        choose_currency(i, registers[which].currencies);
        held[i].length = snprintf(held[i].line, sizeof held[i].line, "%s," GRAIN ",%u,%u,%s", held[i].contract, held[i].tonnes, held[i].price,
                                  held[i].currency);
        held[i].offered = held[i].length - (registers[which].currencies == 1 ? 1 + STRIGOL_CURRENCY_SIZE : 0);
    }
}

static uint32_t offer(int i)
{
    return strigol_register_offer(buffer, sizeof buffer, (const uint8_t *)held[i].line, (size_t)held[i].offered);
}

/* Opens a buffer of zeros and offers it so many of the lines. */
static void fill(int count)
{
    memset(buffer, 0, sizeof buffer);
    if (strigol_register_open(buffer, sizeof buffer, (const uint8_t *)HOUSE, STRIGOL_CURRENCY_SIZE) != 0) give_up("the register isn't opened");
    for (int i = 0; i < count; i++)
        if (offer(i) != 0) give_up("a line is declined");
}

/* Offers the 256th line, and takes it out again. */
static void offer_last(void)
{
    if (offer(LAST) != 0) give_up("the last line is declined");
    memset(buffer + LAST_AT, 0, SLOT);
}

/* The next place, round and round. */
static int next_place(void)
{
    static int place;
    return place = (place + 1) % LINES;
}

static void hand_out(void)
{
    uint8_t line[STRIGOL_LINE_SIZE];
    uint32_t length;
    int place = next_place();
    if (strigol_register_line(buffer, sizeof buffer, (uint64_t)place, line, &length) != 0 || length != (uint32_t)held[place].length ||
        memcmp(line, held[place].line, length) != 0)
        give_up("another line is handed out");
    sink = line[0];
}

static void pass(void)
{
    sink = pass_over(buffer, sizeof buffer);
}

static void vector_pass(void)
{
    sink = vector_pass_over(buffer, sizeof buffer);
}

static void report(void)
{
    if (strigol_register_report(buffer, sizeof buffer, output, sizeof output, &output_len) != 0) give_up("there is no report");
    sink = output[0];
}

static void report_pass(void)
{
    sink = pass_over(output, output_len);
}

static void report_vector_pass(void)
{
    sink = vector_pass_over(output, output_len);
}

/* Microseconds for one. */
static double time_one(void (*one)(void))
{
    double best;
    BEST_NS(best, ROUNDS, CALLS, one());
    return best / 1e3;
}

/* A call on each of the registers in one currency, of so many lines. */
static void beside_passes(const char *what, void (*one)(void), int count, int most)
{
    show_passes_head(what, "us", sizeof buffer, most);
    for (size_t i = 0; i < IN_ONE_CURRENCY; i++) {
        make_lines(i);
        fill(count);
        double ours = time_one(one), plain = time_one(pass), vectors = time_one(vector_pass);
        show_passes(registers[i].name, ours, plain, vectors, most);
    }
}

static void report_beside_passes(void)
{
    printf("| the report of 256 lines | bytes | us | one pass over them, us | in passes | a pass in vectors, us | in passes |\n");
    printf("|---|---|---|---|---|---|---|\n");
    for (size_t i = 0; i < REGISTERS; i++) {
        make_lines(i);
        fill(LINES);
        double ours = time_one(report), plain = time_one(report_pass), vectors = time_one(report_vector_pass);
        printf("| %s | %s | %s | %s | %.2f | %s | %.2f |\n", registers[i].name, whole(output_len), figure(ours), figure(plain), ours / plain,
               figure(vectors), ours / vectors);
    }
}

/* SQLite */

static sqlite3 *database;
static sqlite3_stmt *inserts[TABLES], *deletes[TABLES], *get_line;

static void open_database(void)
{
    if (sqlite3_open(":memory:", &database) != SQLITE_OK) give_up("SQLite doesn't open");
}

static sqlite3_stmt *prepare(const char *form, int table)
{
    char text[256];
    sqlite3_stmt *statement;
    snprintf(text, sizeof text, form, table);
    if (sqlite3_prepare_v2(database, text, -1, &statement, NULL) != SQLITE_OK) give_up(sqlite3_errmsg(database));
    return statement;
}

static void step(sqlite3_stmt *statement)
{
    if (sqlite3_step(statement) != SQLITE_DONE) give_up(sqlite3_errmsg(database));
    sqlite3_reset(statement);
}

static void do_once(const char *form, int table)
{
    sqlite3_stmt *statement = prepare(form, table);
    step(statement);
    sqlite3_finalize(statement);
}

static void insert(int table, int i)
{
    sqlite3_bind_int(inserts[table], 1, i);
    sqlite3_bind_text(inserts[table], 2, held[i].contract, -1, SQLITE_STATIC);
    sqlite3_bind_text(inserts[table], 3, held[i].line, held[i].length, SQLITE_STATIC);
    step(inserts[table]);
}

static void delete_last(int table)
{
    sqlite3_bind_int(deletes[table], 1, LAST);
    step(deletes[table]);
}

static void open_tables(void)
{
    for (int table = 0; table < TABLES; table++)
        do_once("CREATE TABLE register%d (place INTEGER UNIQUE, contract TEXT PRIMARY KEY, line TEXT NOT NULL)", table);
    for (int table = 0; table < TABLES; table++) {
        inserts[table] = prepare("INSERT INTO register%d VALUES (?, ?, ?)", table);
        deletes[table] = prepare("DELETE FROM register%d WHERE place = ?", table);
        for (int i = 0; i < LAST; i++) insert(table, i);
    }
    get_line = prepare("SELECT line FROM register%d WHERE place = ?", 0);
}

/* Inserts the 256th line into each table. They are deleted again while nothing is timed. */
static double time_inserts(void)
{
    double best = 1e18, time;
    for (int round = 0; round < ROUNDS; round++) {
        int table = 0;
        BEST_NS(time, 1, TABLES, insert(table++, LAST));
        if (time < best) best = time;
        while (table > 0) delete_last(--table);
    }
    return best / 1e3;
}

static void select_one(void)
{
    char line[STRIGOL_LINE_SIZE] = {0};
    int place = next_place();
    sqlite3_bind_int(get_line, 1, place);
    if (sqlite3_step(get_line) != SQLITE_ROW) give_up("SQLite has no such line");
    memcpy(line, sqlite3_column_text(get_line, 0), (size_t)sqlite3_column_bytes(get_line, 0));
    if (memcmp(line, held[place].line, (size_t)held[place].length) != 0) give_up("SQLite has another line");
    sqlite3_reset(get_line);
    sink = (uint8_t)line[0];
}

static void show_beside(const char *what, double ours, double theirs)
{
    printf("| %s | %s | %s | %.2f |\n", what, figure(ours), figure(theirs), theirs / ours);
}

/* Three ways to the report, each with a table of its own: SQLite puts a line together of its fields, it hands the fields over, or it has the line
   whole beside its numbers and its currency. The table's text is the grain, or the line. */
enum { JOINED, FIELDS, WHOLE, WAYS };
static const char *const ways[WAYS] = {
    "SELECT contract || ',' || text || ',' || tonnes || ',' || price || ',' || currency FROM report%d ORDER BY place",
    "SELECT contract, text, tonnes, price, currency FROM report%d ORDER BY place",
    "SELECT text FROM report%d ORDER BY place",
};
static sqlite3_stmt *adds[WAYS], *lines[WAYS], *totals[WAYS];

static void open_reports(void)
{
    for (int way = 0; way < WAYS; way++) {
        do_once("CREATE TABLE report%d (place INTEGER PRIMARY KEY, contract TEXT UNIQUE, text TEXT NOT NULL, tonnes INTEGER NOT NULL, "
                "price INTEGER NOT NULL, currency TEXT NOT NULL)", way);
        do_once("CREATE INDEX totals%1$d ON report%1$d (currency, tonnes, price)", way);
        adds[way] = prepare("INSERT INTO report%d VALUES (?, ?, ?, ?, ?, ?)", way);
        lines[way] = prepare(ways[way], way);
        totals[way] = prepare("SELECT 'TOTAL', currency, count(*), sum(tonnes), sum(tonnes * price) FROM report%d GROUP BY currency "
                              "ORDER BY currency", way);
    }
}

/* Puts all lines into the way's table, in place of those it has. */
static void fill_table(int way)
{
    do_once("DELETE FROM report%d", way);
    for (int i = 0; i < LINES; i++) {
        sqlite3_bind_int(adds[way], 1, i);
        sqlite3_bind_text(adds[way], 2, held[i].contract, -1, SQLITE_STATIC);
        sqlite3_bind_text(adds[way], 3, way == WHOLE ? held[i].line : GRAIN, -1, SQLITE_STATIC);
        sqlite3_bind_int(adds[way], 4, (int)held[i].tonnes);
        sqlite3_bind_int(adds[way], 5, (int)held[i].price);
        sqlite3_bind_text(adds[way], 6, held[i].currency, -1, SQLITE_STATIC);
        step(adds[way]);
    }
}

static uint8_t selected[STRIGOL_REPORT_MOST];
static size_t selected_len;

/* Copies the rows: their columns with commas between, and byte 10. */
static void select_rows(sqlite3_stmt *statement)
{
    int columns = sqlite3_column_count(statement);
    while (sqlite3_step(statement) == SQLITE_ROW)
        for (int i = 0; i < columns; i++) {
            const void *text = sqlite3_column_text(statement, i);
            size_t n = (size_t)sqlite3_column_bytes(statement, i);
            if (n >= sizeof selected - selected_len) give_up("SQLite's report is too long");
            memcpy(selected + selected_len, text, n);
            selected[selected_len + n] = i + 1 < columns ? ',' : '\n';
            selected_len += n + 1;
        }
    sqlite3_reset(statement);
}

static void select_report(int way)
{
    selected_len = 0;
    select_rows(lines[way]);
    select_rows(totals[way]);
    sink = selected[0];
}

/* Microseconds for one report of SQLite's, which must have the bytes of ours. */
static double time_selects(int way)
{
    double best;
    fill_table(way);
    BEST_NS(best, ROUNDS, SELECTS, select_report(way));
    if (selected_len != output_len || memcmp(selected, output, output_len) != 0) give_up("SQLite has another report");
    return best / 1e3;
}

static void report_beside_sqlite(void)
{
    open_reports();
    printf("| the report of 256 lines | call, us | SQLite, us | ratio; demanded: at least %d | |\n|---|---|---|---|---|\n", REPORT_RATIO);
    for (size_t i = 0; i < REGISTERS; i++) {
        make_lines(i);
        fill(LINES);
        double ours = time_one(report), theirs = time_selects(JOINED);
        printf("| %s | %s | %s | %.2f | %s |\n", registers[i].name, figure(ours), figure(theirs), theirs / ours, met(theirs >= REPORT_RATIO * ours));
    }
}

static void beside_sqlite(void)
{
    double ours;
    make_lines(0);
    open_tables();
    printf("| for the record | call, us | SQLite, us | ratio |\n|---|---|---|---|\n");
    fill(LAST);
    ours = time_one(offer_last);
    show_beside("the 256th line is taken", ours, time_inserts());
    fill(LINES);
    insert(0, LAST);
    ours = time_one(hand_out);
    show_beside("a line of 256 is handed out by its place", ours, time_one(select_one));
    ours = time_one(report);
    show_beside("the report, where the caller puts SQLite's fields together", ours, time_selects(FIELDS));
    show_beside("the report, where SQLite has the lines whole, beside their numbers", ours, time_selects(WHOLE));
}

int main(void)
{
    beside_passes("offering a line to 255 others", offer_last, LAST, OFFER_PASSES);
    printf("\n");
    beside_passes("handing out a line of 256", hand_out, LINES, LINE_PASSES);
    printf("\n");
    report_beside_passes();
    printf("\n");
    open_database();
    report_beside_sqlite();
    printf("\n");
    beside_sqlite();
    return 0;
}
