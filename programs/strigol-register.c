/* strigol-register: a register of contract lines in a file, and a window of its prices, over the library's calls for both. What staff see of it is
   said in man/strigol-register.1.

       strigol-register FILE open CURRENCY
       strigol-register FILE add [--run] <LINES
       strigol-register FILE line PLACE
       strigol-register FILE list
       strigol-register FILE report
       strigol-register FILE prices GRAIN CURRENCY

   FILE is the register's buffer just as the library leaves it; of what stands in it this program knows the size alone. FILE is never written
   into: a new one is written beside it and renamed over it. So whoever opens FILE finds a whole register, and a kill leaves the old or the new. */
#define _DEFAULT_SOURCE
#include "strigol.h"

#include <errno.h>
#include <fcntl.h>
#include <libgen.h>
#include <signal.h>
#include <stdarg.h>
#include <stdio.h>
#include <stdlib.h>
#include <string.h>
#include <sys/file.h>
#include <sys/stat.h>
#include <unistd.h>

/* Exit statuses. */
enum { DONE = 0, DECLINED = 1, FAILED = 2 };

/* Bytes of input taken, bytes of a line shown, seconds to wait for another run of this program. The input is four times the records that a run can
   print, and eight times what a register can hold; more would only be declined, and keep others waiting. */
enum { MOST_INPUT = 1 << 16, MOST_SHOWN = 80, MOST_WAIT = 30 };

/* Letters of a grain. */
enum { GRAIN_SIZE = 2 };

static const char usage[] = "usage: strigol-register FILE open CURRENCY\n"
                            "       strigol-register FILE add [--run] <LINES\n"
                            "       strigol-register FILE line PLACE\n"
                            "       strigol-register FILE list\n"
                            "       strigol-register FILE report\n"
                            "       strigol-register FILE prices GRAIN CURRENCY\n"
                            "       strigol-register --help | --version\n";

struct line { const uint8_t *at; size_t length; };

static uint8_t input[MOST_INPUT + 1];
static size_t input_length;
static uint8_t numbers[MOST_INPUT]; /* what each line of the input got: 0, or the number that declined it */
STRIGOL_CHECK(STRIGOL_LAST_NUMBER <= UINT8_MAX, "a number fits into a byte");

static const char *spared = "nothing is added"; /* what a command that gives up says of the file */

/* Says what went wrong, and ends. */
static _Noreturn void give_up(const char *form, ...)
{
    va_list words;
    va_start(words, form);
    fputs("strigol-register: ", stderr);
    vfprintf(stderr, form, words);
    fputc('\n', stderr);
    va_end(words);
    exit(FAILED);
}

/* Shows a line. Bytes that don't print, and the backslash, are shown as \xNN; of a long line the first bytes, and how many it has. */
static void show(struct line line)
{
    size_t i;
    for (i = 0; i < line.length && i < MOST_SHOWN; i++)
        fprintf(stderr, line.at[i] >= 32 && line.at[i] < 127 && line.at[i] != '\\' ? "%c" : "\\x%02x", line.at[i]);
    if (line.length > MOST_SHOWN) fprintf(stderr, ".. (%zu bytes)", line.length);
    if (line.length == 0) fputs("(empty)", stderr);
    fputc('\n', stderr);
}

/* Up to `room` bytes of a file: how many there were, or -1. */
static ssize_t read_all(int file, uint8_t *at, size_t room)
{
    size_t length = 0;
    ssize_t n = 1;
    while (length < room && n != 0) {
        n = read(file, at + length, room - length);
        if (n < 0 && errno != EINTR) return -1;
        if (n > 0) length += (size_t)n;
    }
    return (ssize_t)length;
}

/* Writes all bytes: 0, or -1. */
static int write_all(int file, const uint8_t *at, size_t length)
{
    while (length > 0) {
        ssize_t n = write(file, at, length);
        if (n < 0 && errno == EINTR) continue;
        if (n <= 0) return -1;
        at += n;
        length -= (size_t)n;
    }
    return 0;
}

static void print(const uint8_t *at, size_t length)
{
    if (write_all(STDOUT_FILENO, at, length) != 0 || close(STDOUT_FILENO) != 0) give_up("standard output: %s", strerror(errno));
}

/* The file. */

/* The file's own name, where FILE is a link: the link stays, and what it points at is replaced. A file that isn't there yet has the name given. */
static char *real_name(const char *file)
{
    struct stat link;
    char *path = realpath(file, NULL);
    if (path == NULL && errno == ENOENT) {
        if (lstat(file, &link) == 0) give_up("%s: a link to a file that isn't there: %s", file, spared);
        path = strdup(file);
    }
    if (path == NULL) give_up("%s: %s: %s", file, strerror(errno), spared);
    return path;
}

/* The name of a file beside this one. */
static char *beside(const char *path, const char *end)
{
    char *name = malloc(strlen(path) + strlen(end) + 1);
    if (name == NULL) give_up("%s: %s", path, strerror(errno));
    return strcat(strcpy(name, path), end);
}

static _Noreturn void refuse(const char *file, const char *why)
{
    give_up("%s: %s: refused by %d: %s", file, why, STRIGOL_BAD_REGISTER, strigol_words(STRIGOL_BAD_REGISTER));
}

static void require_size(const char *file, off_t size)
{
    char why[64];
    if (size == STRIGOL_REGISTER_SIZE) return;
    snprintf(why, sizeof why, "it has %jd bytes, not %d", (intmax_t)size, STRIGOL_REGISTER_SIZE);
    refuse(file, why);
}

/* Whether the buffer is a register that is opened. */
static int is_open(const uint8_t buffer[STRIGOL_REGISTER_SIZE])
{
    uint8_t line[STRIGOL_LINE_SIZE];
    uint32_t length;
    return strigol_register_line(buffer, STRIGOL_REGISTER_SIZE, 0, line, &length) == STRIGOL_OK;
}

/* Whether the buffer is a register, opened or not: whether a copy of it can be opened. */
static int is_register(const uint8_t buffer[STRIGOL_REGISTER_SIZE])
{
    uint8_t copy[STRIGOL_REGISTER_SIZE];
    memcpy(copy, buffer, sizeof copy);
    return strigol_register_open(copy, sizeof copy, (const uint8_t *)"EUR", STRIGOL_CURRENCY_SIZE) == STRIGOL_OK;
}

static _Noreturn void demand_opening(const char *file, const char *why)
{
    give_up("%s: %s; open it first: strigol-register FILE open CURRENCY", file, why);
}

/* Reads the register of a file, and how the file stands there: 1. What is no register is refused, and so is one that isn't opened, unless it is
   about to be; a file that isn't there then gives 0 and the register without a line. */
static int load(const char *file, int opening, uint8_t buffer[STRIGOL_REGISTER_SIZE], struct stat *as)
{
    int from = open(file, O_RDONLY | O_NONBLOCK | O_NOCTTY | O_CLOEXEC); /* a pipe isn't waited for */
    if (from < 0 && errno == ENOENT) {
        if (!opening) demand_opening(file, strerror(ENOENT));
        memset(buffer, 0, STRIGOL_REGISTER_SIZE);
        return 0;
    }
    if (from < 0 || fstat(from, as) != 0) give_up("%s: %s", file, strerror(errno));
    if (!S_ISREG(as->st_mode)) refuse(file, "it is no regular file");
    require_size(file, as->st_size);
    if (read_all(from, buffer, STRIGOL_REGISTER_SIZE) != STRIGOL_REGISTER_SIZE) give_up("%s: it can't be read whole", file);
    if (!is_register(buffer)) refuse(file, "its bytes are no register");
    if (!opening && !is_open(buffer)) demand_opening(file, "it isn't opened: refused by 14");
    close(from);
    return 1;
}

static void on_alarm(int number) { (void)number; }

/* Waits until no other run of this program is at work on the file. The lock is on a file of its own, which stays: a lock on FILE would be one on
   the file that a rename is about to replace, and whoever waited for it would go on from the old register. */
static int take_turn(const char *path)
{
    struct sigaction action = {.sa_handler = on_alarm}; /* without SA_RESTART, so that the alarm ends the wait */
    char *name = beside(path, ".lock");
    int lock = open(name, O_RDWR | O_CREAT | O_NOCTTY | O_CLOEXEC, 0666);
    if (lock < 0 && errno == EACCES && (lock = open(name, O_RDONLY | O_CLOEXEC)) < 0) errno = EACCES; /* someone else's can be locked too */
    if (lock < 0) give_up("%s: %s: %s", name, strerror(errno), spared);
    sigaction(SIGALRM, &action, NULL);
    alarm(MOST_WAIT);
    if (flock(lock, LOCK_EX) != 0) {
        if (errno == EINTR) give_up("%s: locked by another program for %d seconds: %s", name, MOST_WAIT, spared);
        give_up("%s: %s: %s", name, strerror(errno), spared);
    }
    alarm(0);
    free(name);
    return lock;
}

/* Gives the new file owner and mode of the old one. Only root may give a file away; anyone else's new file is their own. */
static int stand_as(int file, const struct stat *as)
{
    if (fchown(file, as->st_uid, as->st_gid) != 0 && fchown(file, (uid_t)-1, as->st_gid) != 0 && errno != EPERM && errno != EINVAL) return -1;
    return fchmod(file, as->st_mode & 07777);
}

/* Writes the register to a new file, all the way to the disk: 0, or -1. */
static int write_new(const char *name, const uint8_t buffer[STRIGOL_REGISTER_SIZE], const struct stat *as)
{
    int file = open(name, O_WRONLY | O_CREAT | O_EXCL | O_CLOEXEC, as == NULL ? 0666 : 0600);
    if (file < 0) return -1;
    if ((as == NULL || stand_as(file, as) == 0) && write_all(file, buffer, STRIGOL_REGISTER_SIZE) == 0 && fsync(file) == 0) return close(file);
    close(file);
    return -1;
}

/* Puts the register in the place of the file. `as` is how the old one stood there, NULL if there was none. Gives 0, or why it can't be known that the
   new one is on the disk too. */
static int replace(const char *path, const uint8_t buffer[STRIGOL_REGISTER_SIZE], const struct stat *as)
{
    char *name = beside(path, ".strigol-new"), *copy = beside(path, "");
    int folder = open(dirname(copy), O_RDONLY | O_DIRECTORY | O_CLOEXEC), why;
    if (folder < 0) give_up("%s: its folder: %s: %s", path, strerror(errno), spared);
    unlink(name); /* what a killed run has left */
    if (write_new(name, buffer, as) != 0 || rename(name, path) != 0) {
        why = errno;
        unlink(name);
        give_up("%s: %s: %s", name, strerror(why), spared);
    }
    why = fsync(folder) != 0 && errno != EINVAL ? errno : 0; /* EINVAL: there is nothing to bring to a disk */
    close(folder);
    free(name);
    free(copy);
    return why;
}

/* A change of the file: its own name, whether it is there and how it stands, the turn that is taken. */
struct change { char *path; struct stat as; int there, lock; };

/* Takes the turn, and reads the register that is to be changed. */
static struct change begin(const char *file, int opening, uint8_t buffer[STRIGOL_REGISTER_SIZE])
{
    struct change change = {.path = real_name(file)};
    load(file, opening, buffer, &change.as); /* so that no lock file is made beside a file that is refused */
    change.lock = take_turn(change.path);
    change.there = load(file, opening, buffer, &change.as);
    if (change.there && access(change.path, W_OK) != 0) give_up("%s: %s: %s", file, strerror(errno), spared); /* a rename would not ask */
    return change;
}

/* Puts the register in the place of the file, if it has changed, and gives the turn up. Gives what `replace` does. */
static int end(struct change change, const uint8_t buffer[STRIGOL_REGISTER_SIZE], int changed)
{
    int why = 0;
    if (changed || !change.there) why = replace(change.path, buffer, change.there ? &change.as : NULL);
    close(change.lock);
    free(change.path);
    return why;
}

/* The lines of the input. */

static void take_input(void)
{
    ssize_t length = read_all(STDIN_FILENO, input, sizeof input);
    if (length < 0) give_up("standard input: %s: nothing is added", strerror(errno));
    if (length > MOST_INPUT) give_up("standard input: over %d bytes: nothing is added", MOST_INPUT);
    input_length = (size_t)length;
}

/* The line of the input at `*from`, which is moved behind its byte 10: 1; or 0 at the end. */
static int next_line(size_t *from, struct line *line)
{
    const uint8_t *end;
    if (*from == input_length) return 0;
    line->at = input + *from;
    end = memchr(line->at, '\n', input_length - *from);
    line->length = end == NULL ? input_length - *from : (size_t)(end - line->at);
    *from += line->length + (end != NULL);
    return 1;
}

/* How many bytes a comma and the digits behind it have; 0 if they aren't there. */
static size_t number_field(const uint8_t *at, size_t length)
{
    size_t n = 1;
    if (length == 0 || at[0] != ',') return 0;
    while (n < length && at[n] >= '0' && at[n] <= '9') n++;
    return n > 1 ? n : 0;
}

/* The outcome that the closing line of a run tells, such as FINISHED,0,14,0; -1 for any other line. No contract line is one: its second field is two
   letters, here it is digits. */
static int outcome_of(struct line line)
{
    static const char *const words[] = {"FINISHED", "STOPPED", "SPENT", "REFUSED"}; /* in the order of strigol_outcome */
    int outcome, field;
    for (outcome = STRIGOL_FINISHED; outcome <= STRIGOL_REFUSED; outcome++) {
        size_t at = strlen(words[outcome]), n = 1;
        if (line.length < at || memcmp(line.at, words[outcome], at) != 0) continue;
        for (field = 0; field < 3 && n > 0; field++) at += n = number_field(line.at + at, line.length - at);
        return n > 0 && at == line.length ? outcome : -1;
    }
    return -1;
}

/* Refuses a run by its closing line, with the words of the number in it, if it has one. */
static _Noreturn void refuse_run(size_t at, struct line closing)
{
    unsigned long number = strtoul((const char *)memchr(closing.at, ',', closing.length) + 1, NULL, 10);
    const char *words = number <= STRIGOL_LAST_NUMBER ? strigol_words((uint32_t)number) : "";
    fprintf(stderr, "strigol-register: line %zu: a run that didn't finish", at);
    if (words[0] != 0) fprintf(stderr, " (%s)", words);
    fputs(", nothing is added: ", stderr);
    show(closing);
    exit(FAILED);
}

/* Ends the program if a closing line tells another outcome than FINISHED; with `whole`, also if the input doesn't end with a closing line. */
static void require_finished(int whole)
{
    struct line line;
    size_t from = 0, at;
    int outcome = -1;
    for (at = 1; next_line(&from, &line); at++) {
        outcome = outcome_of(line);
        if (outcome > STRIGOL_FINISHED) refuse_run(at, line);
    }
    if (whole && outcome != STRIGOL_FINISHED)
        give_up("standard input may be cut off, it doesn't end with a run's closing line: nothing is added");
}

/* Offers all lines but the closing lines of runs: how many were taken. */
static size_t offer_all(uint8_t buffer[STRIGOL_REGISTER_SIZE])
{
    struct line line;
    size_t from = 0, at, taken = 0;
    for (at = 0; next_line(&from, &line); at++) {
        if (outcome_of(line) == STRIGOL_FINISHED) continue;
        numbers[at] = (uint8_t)strigol_register_offer(buffer, STRIGOL_REGISTER_SIZE, line.at, line.length);
        if (numbers[at] == 0) taken++;
    }
    return taken;
}

/* Tells which lines were declined: the exit status. What the words of 25 say behind a semicolon isn't about lines. */
static int tell(size_t taken)
{
    const char *words;
    struct line line;
    size_t from = 0, at, declined = 0;
    for (at = 0; next_line(&from, &line); at++) {
        if (numbers[at] == 0) continue;
        declined++;
        words = strigol_words(numbers[at]);
        fprintf(stderr, "strigol-register: line %zu: declined by %d: %.*s: ", at + 1, numbers[at], (int)strcspn(words, ";"), words);
        show(line);
    }
    if (declined == 0) return DONE;
    fprintf(stderr, "strigol-register: %zu added, %zu declined\n", taken, declined);
    return DECLINED;
}

/* The commands. */

/* The currency is judged before all else, on a register of its own. */
static int open_register(const char *file, struct line currency)
{
    uint8_t buffer[STRIGOL_REGISTER_SIZE] = {0}, before[STRIGOL_REGISTER_SIZE];
    struct change change;
    uint32_t number = strigol_register_open(buffer, sizeof buffer, currency.at, currency.length);
    int why;
    spared = "nothing is changed";
    if (number != STRIGOL_OK) {
        fprintf(stderr, "strigol-register: %s: refused by %d: %s: ", file, (int)number, strigol_words(number));
        show(currency);
        return FAILED;
    }
    change = begin(file, 1, buffer);
    memcpy(before, buffer, sizeof before);
    strigol_register_open(buffer, sizeof buffer, currency.at, currency.length); /* 0: both are known to be good */
    why = end(change, buffer, memcmp(buffer, before, sizeof buffer) != 0);
    if (why != 0) give_up("%s: it is opened, but that might not outlast a power cut: %s", file, strerror(why));
    return DONE;
}

/* The turn is taken only when all input is there, and over before a line is told: neither a slow run nor a stopped terminal keeps others waiting. */
static int add_lines(const char *file, int whole)
{
    uint8_t buffer[STRIGOL_REGISTER_SIZE];
    struct change change;
    size_t taken;
    int status, why;
    take_input();
    require_finished(whole);
    change = begin(file, 0, buffer);
    taken = offer_all(buffer);
    why = end(change, buffer, taken > 0);
    status = tell(taken);
    if (why != 0) give_up("%s: the lines are added, but might not outlast a power cut: %s", file, strerror(why));
    return status;
}

/* The register is known to be opened, no report is longer than its text, and a line's price is in range, so no number but 0 is met; another would be
   told. */
static void require_done(const char *file, uint32_t number)
{
    if (number != STRIGOL_OK) give_up("%s: %s", file, strigol_words(number));
}

/* The line of a place goes to `line`: its length; 0 where no line stands. */
static uint32_t hand_out(const char *file, const uint8_t buffer[STRIGOL_REGISTER_SIZE], uint64_t place, uint8_t line[STRIGOL_LINE_SIZE])
{
    uint32_t length;
    require_done(file, strigol_register_line(buffer, STRIGOL_REGISTER_SIZE, place, line, &length));
    return length;
}

/* The line of a place goes to `text`, with byte 10: its length; 0 where no line stands. */
static size_t put_line(const char *file, const uint8_t buffer[STRIGOL_REGISTER_SIZE], uint64_t place, uint8_t text[STRIGOL_LINE_SIZE + 1])
{
    uint32_t length = hand_out(file, buffer, place, text);
    if (length == 0) return 0;
    text[length] = '\n';
    return (size_t)length + 1;
}

/* The number in an argument, which is digits alone. One beyond 64 bits is as good as the last of them: no line stands there either. */
static uint64_t place_in(const char *argument)
{
    uint64_t place = 0;
    const char *at = argument;
    for (; *at >= '0' && *at <= '9'; at++)
        place = place > (UINT64_MAX - 9) / 10 ? UINT64_MAX : 10 * place + (uint64_t)(*at - '0');
    if (*at != 0 || at == argument) give_up("%s: no place; a place is a number from 0, in digits", argument);
    return place;
}

static int print_line(const char *file, const char *argument)
{
    uint8_t buffer[STRIGOL_REGISTER_SIZE], text[STRIGOL_LINE_SIZE + 1];
    uint64_t place = place_in(argument);
    struct stat as;
    size_t length;
    load(file, 0, buffer, &as);
    length = put_line(file, buffer, place, text);
    print(text, length);
    if (length > 0) return DONE;
    fprintf(stderr, "strigol-register: %s: no line stands at place %s\n", file, argument);
    return DECLINED;
}

static int print_list(const char *file)
{
    static uint8_t text[STRIGOL_LINES_MOST * (STRIGOL_LINE_SIZE + 1)];
    uint8_t buffer[STRIGOL_REGISTER_SIZE];
    uint64_t place;
    struct stat as;
    size_t length = 0, n = 1;
    load(file, 0, buffer, &as);
    for (place = 0; place < STRIGOL_LINES_MOST && n > 0; place++) length += n = put_line(file, buffer, place, text + length);
    print(text, length);
    return DONE;
}

static int print_report(const char *file)
{
    uint8_t buffer[STRIGOL_REGISTER_SIZE], text[STRIGOL_REPORT_MOST];
    uint32_t length;
    struct stat as;
    load(file, 0, buffer, &as);
    require_done(file, strigol_register_report(buffer, sizeof buffer, text, sizeof text, &length));
    print(text, length);
    return DONE;
}

/* Whether an argument is so many letters A-Z. */
static int is_letters(const char *argument, size_t count)
{
    size_t n = 0;
    while (argument[n] >= 'A' && argument[n] <= 'Z') n++;
    return n == count && argument[n] == 0;
}

static const char *behind_comma(const char *at) { return strchr(at, ',') + 1; }

/* The price of a line that is handed out, if it is of this grain and currency; else 0, which is no price. Such a line is contract, grain, tonnes,
   price and currency, parted by commas, and zeros behind them. */
static uint64_t price_in(const char *line, const char *grain, const char *currency)
{
    const char *its_grain = behind_comma(line), *its_price = behind_comma(behind_comma(its_grain)), *its_currency = behind_comma(its_price);
    if (strncmp(its_grain, grain, GRAIN_SIZE) != 0 || strcmp(its_currency, currency) != 0) return 0;
    return strtoull(its_price, NULL, 10);
}

/* Gives the prices of all lines of a grain and currency, in order of arrival, to a window that is empty at first, and asks for its summary. */
static void watch_prices(const char *file, const uint8_t buffer[STRIGOL_REGISTER_SIZE], const char *grain, const char *currency,
                         uint64_t summary[STRIGOL_SUMMARY_SIZE])
{
    uint8_t line[STRIGOL_LINE_SIZE], window[STRIGOL_WINDOW_SIZE] = {0};
    uint64_t place, price;
    for (place = 0; place < STRIGOL_LINES_MOST && hand_out(file, buffer, place, line) > 0; place++) {
        price = price_in((const char *)line, grain, currency);
        if (price != 0) require_done(file, strigol_window_take(window, sizeof window, price, summary));
    }
    require_done(file, strigol_window_ask(window, sizeof window, summary));
}

/* Grain and currency are judged before the file is looked at. */
static int print_prices(const char *file, const char *grain, const char *currency)
{
    uint8_t buffer[STRIGOL_REGISTER_SIZE];
    uint64_t summary[STRIGOL_SUMMARY_SIZE];
    char text[128]; /* more than four numbers of 64 bits need */
    struct stat as;
    int length;
    if (!is_letters(grain, GRAIN_SIZE)) give_up("%s: no grain; a grain is two letters A-Z", grain);
    if (!is_letters(currency, STRIGOL_CURRENCY_SIZE)) give_up("%s: no currency; a currency is three letters A-Z", currency);
    load(file, 0, buffer, &as);
    watch_prices(file, buffer, grain, currency, summary);
    length = snprintf(text, sizeof text, "PRICES,%s,%s,%ju,%ju,%ju,%ju\n", grain, currency, (uintmax_t)summary[STRIGOL_PRICES_HELD],
                      (uintmax_t)summary[STRIGOL_LOWEST], (uintmax_t)summary[STRIGOL_HIGHEST], (uintmax_t)summary[STRIGOL_SUM]);
    print((const uint8_t *)text, (size_t)length);
    return DONE;
}

/* Where standard input, output or error is closed, opens it on nothing, in the direction in which it can't be used: else the register's file might
   be opened under that number, and be printed into. */
static void keep_closed(void)
{
    int file;
    for (file = 0; file <= STDERR_FILENO; file++)
        if (fcntl(file, F_GETFD) < 0 && open("/dev/null", file == STDIN_FILENO ? O_WRONLY : O_RDONLY) != file) exit(FAILED);
}

static int is(const char *argument, const char *word) { return strcmp(argument, word) == 0; }

static int asked_for(const char *words)
{
    print((const uint8_t *)words, strlen(words));
    return DONE;
}

int main(int argc, char **argv)
{
    keep_closed();
    setvbuf(stderr, NULL, _IOLBF, BUFSIZ); /* whole lines, also where several programs write to one place */
    signal(SIGPIPE, SIG_IGN);              /* what can't be written is told, not died of */
    signal(SIGXFSZ, SIG_IGN);
    if (argc == 2 && is(argv[1], "--help")) return asked_for(usage);
    if (argc == 2 && is(argv[1], "--version")) return asked_for("strigol-register " VERSION "\n");
    if (argc > 2 && argv[1][0] != 0) {
        if (argc == 4 && is(argv[2], "open")) return open_register(argv[1], (struct line){(const uint8_t *)argv[3], strlen(argv[3])});
        if (argc == 3 && is(argv[2], "add")) return add_lines(argv[1], 0);
        if (argc == 4 && is(argv[2], "add") && is(argv[3], "--run")) return add_lines(argv[1], 1);
        if (argc == 4 && is(argv[2], "line")) return print_line(argv[1], argv[3]);
        if (argc == 3 && is(argv[2], "list")) return print_list(argv[1]);
        if (argc == 3 && is(argv[2], "report")) return print_report(argv[1]);
        if (argc == 5 && is(argv[2], "prices")) return print_prices(argv[1], argv[3], argv[4]);
    }
    fputs(usage, stderr);
    return FAILED;
}
