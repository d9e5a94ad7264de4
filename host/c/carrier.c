/*
 * A carrier's host in small: `carrier JOURNAL`. The journal has the accepted calls, one a line. It must exist; an empty
 * one is that of a fresh register of 2000. At start its calls are made again. Then calls come on standard input, and
 * each is answered by a line with number and amount (2 and 0 for what is no call):
 *
 *     open POINT KIND TOTAL RATE            guarantee USER AMOUNT
 *     annual USER POINT ARRIVAL AMOUNT      month USER POINT MONTH ARRIVAL AMOUNT
 *     day USER POINT DAY ARRIVAL AMOUNT     cession GIVER RECEIVER POINT ARRIVAL AMOUNT
 *     turn YEAR                             report POINT DAY
 */
#define _DEFAULT_SOURCE
#include <ctype.h>
#include <err.h>
#include <errno.h>
#include <inttypes.h>
#include <stdio.h>
#include <stdlib.h>
#include <string.h>
#include <sys/file.h>
#include <unistd.h>
#include "ylgrandi.h"

static uint32_t free_amounts[YLGRANDI_TABLE], ledger[YLGRANDI_LEDGER];
#define LISTS free_amounts, YLGRANDI_TABLE, ledger, YLGRANDI_LEDGER

enum word { OPEN, GUARANTEE, ANNUAL, MONTH, DAY, CESSION, TURN, REPORT, NO_CALL };
struct call { enum word word; uint64_t field[5]; };

/* How each call begins, and what follows: so many fields, and the most that each can hold. */
static const struct { const char *text; int fields; uint64_t most[5]; } calls[NO_CALL] = {
    {"open ", 4, {UINT8_MAX, UINT8_MAX, UINT64_MAX, UINT32_MAX}},
    {"guarantee ", 2, {UINT8_MAX, UINT64_MAX}},
    {"annual ", 4, {UINT8_MAX, UINT8_MAX, UINT16_MAX, UINT64_MAX}},
    {"month ", 5, {UINT8_MAX, UINT8_MAX, UINT8_MAX, UINT16_MAX, UINT64_MAX}},
    {"day ", 5, {UINT8_MAX, UINT8_MAX, UINT16_MAX, UINT16_MAX, UINT64_MAX}},
    {"cession ", 5, {UINT8_MAX, UINT8_MAX, UINT8_MAX, UINT16_MAX, UINT64_MAX}},
    {"turn ", 1, {UINT16_MAX}},
    {"report ", 2, {UINT8_MAX, UINT16_MAX}},
};

/* Reads a whole line. A number that its field cannot hold makes it no call: cut, it would be another number. */
static struct call read_call(const char *line)
{
    struct call none = {.word = NO_CALL}, call = {.word = OPEN};
    while (strncmp(line, calls[call.word].text, strlen(calls[call.word].text)) != 0)
        if (++call.word == NO_CALL) return none;
    line += strlen(calls[call.word].text);
    for (int i = 0, n = calls[call.word].fields; i < n; i++) {
        char *end;
        errno = 0;
        if (!isdigit((unsigned char)*line)) return none;
        call.field[i] = strtoull(line, &end, 10);
        if (errno != 0 || call.field[i] > calls[call.word].most[i]) return none;
        if (*end != (i + 1 < n ? ' ' : '\n')) return none;
        line = end + 1;
    }
    return call;
}

/* Makes a call, whose numbers fit their fields. The answer has the register as it then is, also after a report. */
static struct ylgrandi_answer make_call(struct ylgrandi_register r, struct call call)
{
    const uint64_t *f = call.field;
    struct ylgrandi_report report = {YLGRANDI_OUT_OF_LIMITS, 0};
    switch (call.word) {
    case OPEN: return ylgrandi_open_point(r, LISTS, f[0], f[1], f[2], f[3]);
    case GUARANTEE: return ylgrandi_place_guarantee(r, LISTS, f[0], f[1]);
    case ANNUAL: return ylgrandi_request(r, LISTS, f[0], f[1], YLGRANDI_ANNUAL, 0, 0, f[2], f[3]);
    case MONTH: return ylgrandi_request(r, LISTS, f[0], f[1], YLGRANDI_MONTH, f[2], 0, f[3], f[4]);
    case DAY: return ylgrandi_request(r, LISTS, f[0], f[1], YLGRANDI_DAY, 0, f[2], f[3], f[4]);
    case CESSION: return ylgrandi_cession(r, LISTS, f[0], f[1], f[2], f[3], f[4]);
    case TURN: return ylgrandi_turn_year(r, LISTS, f[0]);
    case REPORT: report = ylgrandi_report(r, LISTS, f[0], f[1]); break;
    case NO_CALL: break;
    }
    return (struct ylgrandi_answer){r, report.number, report.amount};
}

/* Makes the journal's calls again. A last line without its end was never answered and is cut off. */
static struct ylgrandi_register replay(struct ylgrandi_register r, FILE *journal)
{
    char *line = NULL;
    size_t room = 0;
    off_t whole = 0;
    for (ssize_t n; (n = getline(&line, &room, journal)) > 0 && line[n - 1] == '\n'; whole += n) {
        struct ylgrandi_answer answer = make_call(r, read_call(line));
        if (answer.number != YLGRANDI_ACCEPTED) errx(1, "journal: no accepted call after byte %jd", (intmax_t)whole);
        r = answer.reg;
    }
    if (!feof(journal)) err(1, "journal: cannot be read");
    if (ftruncate(fileno(journal), whole) != 0 || fseeko(journal, whole, SEEK_SET) != 0) err(1, "journal");
    free(line);
    return r;
}

int main(int argc, char **argv)
{
    if (argc != 2) errx(1, "one argument is needed, the journal");
    FILE *journal = fopen(argv[1], "r+");
    if (journal == NULL) err(1, "%s", argv[1]);
    if (flock(fileno(journal), LOCK_EX | LOCK_NB) != 0) err(1, "journal: another process has it");
    struct ylgrandi_register r = replay(ylgrandi_fresh(2000, LISTS).reg, journal);
    char *line = NULL;
    for (size_t room = 0; getline(&line, &room, stdin) > 0;) {
        struct call call = read_call(line);
        struct ylgrandi_answer answer = make_call(r, call);
        r = answer.reg;
        if (call.word == NO_CALL) warnx("no call: %.*s", (int)strcspn(line, "\n"), line);
        /* On disk before it is answered. What is refused, and a report, alters nothing: no replay misses it. */
        bool altered = answer.number == YLGRANDI_ACCEPTED && call.word != REPORT;
        if (altered && (fputs(line, journal) == EOF || fflush(journal) != 0 || fsync(fileno(journal)) != 0))
            err(1, "journal: cannot be written");
        if (printf("%d %" PRIu32 "\n", answer.number, answer.amount) < 0 || fflush(stdout) != 0)
            err(1, "standard output");
    }
    if (!feof(stdin)) err(1, "standard input");
    free(line);
    return 0;
}
