/*
 * The proved capacity register, for C and C++. Link with libhost.a.
 *
 * The rules are those of document 01, "The capacity register of one thermal
 * year". Amounts are whole Sm3 a day, money is whole millionths of a euro, and
 * gas-days are numbered from 0, 1 January 2000, to 36,524, 31 December 2099.
 * Thermal year Y runs from 1 October Y to 30 September Y+1; its month 1 is
 * October.
 *
 * What holds for every function:
 *
 * - The caller owns all memory. Nothing is allocated, nothing is kept after the
 *   call, and there is no state beside what is passed: a program may have any
 *   number of registers.
 * - The register goes in by value and comes back in the answer. The two lists
 *   that belong to it are lent beside it: the free amounts, YLGRANDI_TABLE
 *   numbers, and the ledger, YLGRANDI_LEDGER numbers. A call takes the register
 *   of the last answer and the lists as the last call left them.
 * - A list is a pointer and then the count of its elements. A pointer is never
 *   NULL, not even with the count 0. It is aligned as its type is and has that
 *   many elements behind it. What a call writes overlaps nothing else that is
 *   passed to it, and no other thread reads it meanwhile or writes what is read.
 * - Nothing else is asked of a caller. Every field may hold every value of its
 *   type and every list may have any count: the call ends, stays inside its lists
 *   and answers.
 * - The number of an answer is YLGRANDI_ACCEPTED or that of the first question of
 *   document 01 that was answered no. A refused call alters nothing: the lists
 *   are as before, the register comes back as it went in, and the amount is 0.
 *   Only a refused ylgrandi_fresh has no register to give back.
 * - The padding of a struct is not read and may come back with anything in it:
 *   compare fields, not bytes.
 */
#ifndef YLGRANDI_H
#define YLGRANDI_H

#include <stddef.h>
#include <stdint.h>
#ifdef __cplusplus
#define YLGRANDI_ASSERT static_assert
#else
#include <stdbool.h>
#define YLGRANDI_ASSERT _Static_assert
#endif

/* Points and users of a register, and the lines that its ledger has room for. */
#define YLGRANDI_POINTS 32
#define YLGRANDI_USERS 64
#define YLGRANDI_LINES 2048

/* Free amounts of a point, one for each gas-day of the longest year, and of all. */
#define YLGRANDI_ROW 366
#define YLGRANDI_TABLE 11712

/* Numbers of a ledger line, and of the ledger. */
#define YLGRANDI_LINE 5
#define YLGRANDI_LEDGER 10240

/* The most lines of a batch. */
#define YLGRANDI_BATCH_LINES 64

/* What ylgrandi_first_short_day answers where no day is short. */
#define YLGRANDI_NO_DAY 65536

/* The numbers of answers: 0, and the questions of document 01. */
enum ylgrandi_number {
    YLGRANDI_ACCEPTED = 0,
    YLGRANDI_NOT_IN_ORDER = 1,
    YLGRANDI_OUT_OF_LIMITS = 2,
    YLGRANDI_POINT_CLOSED = 3,
    YLGRANDI_POINT_OPEN = 4,
    YLGRANDI_NOT_ON_FILE = 5,
    YLGRANDI_BELOW_COMMITMENT = 6,
    YLGRANDI_NOT_OFFERED = 7,
    YLGRANDI_OUTSIDE_YEAR = 8,
    YLGRANDI_LATE = 9,
    YLGRANDI_NOT_HELD = 10,
    YLGRANDI_NOT_COVERED = 11,
    YLGRANDI_NOTHING_FREE = 12,
    YLGRANDI_LEDGER_FULL = 13,
    YLGRANDI_USER_REPEATED = 14,
    YLGRANDI_YEAR_NOT_LATER = 15
};

/* Kinds of a point. */
enum ylgrandi_point_kind {
    YLGRANDI_CLOSED = 0,
    YLGRANDI_DIRECT = 1,
    YLGRANDI_THERMOELECTRIC = 2
};

/*
 * Kinds of a request and of a ledger line. An annual line ends with the year, a
 * month line with its month, a day line on its first day.
 */
enum ylgrandi_kind {
    YLGRANDI_ANNUAL = 1,
    YLGRANDI_MONTH = 2,
    YLGRANDI_DAY = 3
};

/* A delivery point. A closed one is 0 throughout. */
struct ylgrandi_point {
    uint8_t kind;   /* enum ylgrandi_point_kind */
    uint32_t total; /* 1 to 9,999,999 */
    uint32_t rate;  /* 0 to 999,999 for each Sm3/day and gas-day */
};

/* The account of a user. Of one who is not on file it is 0 throughout. */
struct ylgrandi_account {
    uint8_t on_file;     /* 0 or 1 */
    uint64_t guarantee;  /* 0 to 10^15 */
    uint64_t commitment; /* at most the guarantee */
};

/* The register, without the two lists that are lent beside it. */
struct ylgrandi_register {
    uint16_t year; /* 2000 to 2098 */
    struct ylgrandi_point points[YLGRANDI_POINTS];
    struct ylgrandi_account accounts[YLGRANDI_USERS];
    uint16_t lines; /* how many lines of the ledger are used */
};

/* What a changing call gives back. */
struct ylgrandi_answer {
    struct ylgrandi_register reg; /* the register as it then is */
    uint8_t number;               /* enum ylgrandi_number */
    uint32_t amount;              /* granted or ceded, else 0 */
};

/* What a report gives. */
struct ylgrandi_report {
    uint8_t number;  /* enum ylgrandi_number */
    uint32_t amount; /* the free amount, else 0 */
};

/* An amount that a user is to hold at a point, on each day from first to last. */
struct ylgrandi_holding {
    uint8_t user;
    uint8_t point;
    uint16_t first;
    uint16_t last;
    uint32_t amount;
};

/* A date. It need not exist. */
struct ylgrandi_date {
    uint16_t year;
    uint8_t month; /* of the calendar: 1 is January */
    uint8_t day;
};

/*
 * A ledger line, as its five numbers lie one after another: line i is at
 * (const struct ylgrandi_line *)ledger + i. What a user has ceded is below 0.
 */
struct ylgrandi_line {
    uint32_t user;
    uint32_t point;
    uint32_t kind;  /* enum ylgrandi_kind */
    uint32_t first; /* its first gas-day */
    int32_t amount; /* other than 0, within 9,999,999 either way */
};

YLGRANDI_ASSERT(YLGRANDI_TABLE == YLGRANDI_POINTS * YLGRANDI_ROW, "table");
YLGRANDI_ASSERT(YLGRANDI_LEDGER == YLGRANDI_LINES * YLGRANDI_LINE, "ledger");
YLGRANDI_ASSERT(sizeof(struct ylgrandi_point) == 12, "point");
YLGRANDI_ASSERT(offsetof(struct ylgrandi_point, total) == 4, "point");
YLGRANDI_ASSERT(offsetof(struct ylgrandi_point, rate) == 8, "point");
YLGRANDI_ASSERT(sizeof(struct ylgrandi_account) == 24, "account");
YLGRANDI_ASSERT(offsetof(struct ylgrandi_account, guarantee) == 8, "account");
YLGRANDI_ASSERT(offsetof(struct ylgrandi_account, commitment) == 16, "account");
YLGRANDI_ASSERT(sizeof(struct ylgrandi_register) == 1936, "register");
YLGRANDI_ASSERT(offsetof(struct ylgrandi_register, points) == 4, "register");
YLGRANDI_ASSERT(offsetof(struct ylgrandi_register, accounts) == 392, "register");
YLGRANDI_ASSERT(offsetof(struct ylgrandi_register, lines) == 1928, "register");
YLGRANDI_ASSERT(sizeof(struct ylgrandi_answer) == 1944, "answer");
YLGRANDI_ASSERT(offsetof(struct ylgrandi_answer, number) == 1936, "answer");
YLGRANDI_ASSERT(offsetof(struct ylgrandi_answer, amount) == 1940, "answer");
YLGRANDI_ASSERT(sizeof(struct ylgrandi_report) == 8, "report");
YLGRANDI_ASSERT(offsetof(struct ylgrandi_report, amount) == 4, "report");
YLGRANDI_ASSERT(sizeof(struct ylgrandi_holding) == 12, "holding");
YLGRANDI_ASSERT(offsetof(struct ylgrandi_holding, point) == 1, "holding");
YLGRANDI_ASSERT(offsetof(struct ylgrandi_holding, first) == 2, "holding");
YLGRANDI_ASSERT(offsetof(struct ylgrandi_holding, last) == 4, "holding");
YLGRANDI_ASSERT(offsetof(struct ylgrandi_holding, amount) == 8, "holding");
YLGRANDI_ASSERT(sizeof(struct ylgrandi_date) == 4, "date");
YLGRANDI_ASSERT(offsetof(struct ylgrandi_date, month) == 2, "date");
YLGRANDI_ASSERT(offsetof(struct ylgrandi_date, day) == 3, "date");
YLGRANDI_ASSERT(sizeof(struct ylgrandi_line) == YLGRANDI_LINE * sizeof(uint32_t), "line");
YLGRANDI_ASSERT(offsetof(struct ylgrandi_line, amount) == 16, "line");
#undef YLGRANDI_ASSERT

#ifdef __cplusplus
extern "C" {
#endif

/*
 * The fresh register of a year: no point open, no user on file, an empty ledger
 * and a zeroed table. What the two lists held before does not matter.
 *
 * year: 2000 to 2098.
 *
 * Numbers:
 *   0  accepted: the register is in the answer, both lists are zeroed
 *   2  the year is out of limits, or a list has another count than
 *      YLGRANDI_TABLE and YLGRANDI_LEDGER
 *
 * Refused, it leaves both lists and answers a register of year 0, which every
 * call answers with 1.
 */
struct ylgrandi_answer ylgrandi_fresh(
    uint16_t year,
    uint32_t *free_amounts, size_t free_count,
    uint32_t *ledger, size_t ledger_count);

/*
 * Open point: every gas-day of the year is free to the total.
 *
 * point: 0 to 31.
 * kind: 1 direct, 2 thermoelectric.
 * total: 1 to 9,999,999.
 * rate: 0 to 999,999 for each Sm3/day and gas-day.
 *
 * Numbers:
 *   0  accepted: the register is in the answer, the point's free amounts are
 *      written; the ledger is only read
 *   1  the register is not in order
 *   2  a field is out of limits
 *   4  the point is open already
 *
 * Refused, it leaves the free amounts, and the register comes back as it went in.
 */
struct ylgrandi_answer ylgrandi_open_point(
    struct ylgrandi_register r,
    uint32_t *free_amounts, size_t free_count,
    const uint32_t *ledger, size_t ledger_count,
    uint8_t point, uint8_t kind, uint64_t total, uint32_t rate);

/*
 * Place guarantee: puts the user on file or replaces the amount. Both lists are
 * only read.
 *
 * user: 0 to 63.
 * guarantee: 0 to 10^15.
 *
 * Numbers:
 *   0  accepted: the register is in the answer
 *   1  the register is not in order
 *   2  a field is out of limits
 *   6  the new guarantee is below the user's commitment
 *
 * Refused, the register comes back as it went in.
 */
struct ylgrandi_answer ylgrandi_place_guarantee(
    struct ylgrandi_register r,
    const uint32_t *free_amounts, size_t free_count,
    const uint32_t *ledger, size_t ledger_count,
    uint8_t user, uint64_t guarantee);

/*
 * Request: annual, or for a numbered month, or for a numbered gas-day. An annual
 * one spans the first of the month after arrival to the year's end. Granted is
 * the asked amount, or the smallest free amount of the span if that is less. The
 * grant is taken from each of those days, its charge (amount x days of the span
 * x rate) joins the commitment, one line is written.
 *
 * user: 0 to 63.
 * point: 0 to 31.
 * kind: 1 annual, 2 month, 3 day.
 * month: 1 (October) to 12 (September); read with kind 2 only.
 * day: a gas-day of the year; read with kind 3 only.
 * arrival: the gas-day on which the request came in, from 1 September Y to
 *   30 September Y+1.
 * amount: 1 to 9,999,999.
 *
 * Numbers:
 *   0   accepted: the register is in the answer, with the amount granted; the
 *       free amounts of the span and one line of the ledger are written
 *   1   the register is not in order
 *   2   point, user, amount, kind or (with kind 2) month is out of limits
 *   3   the point is not open
 *   5   the user is not on file
 *   7   the kind is not offered: direct points take annual requests only
 *   8   the arrival lies before 1 September Y or after 30 September Y+1; or the
 *       gas-day (kind 3) lies outside the year; or an annual request arrives in
 *       September Y+1, which leaves no day of the year
 *   9   not in time. Annual: by the 11th working day of the arrival month.
 *       Monthly: by the 11th working day of the preceding month. Daily: before
 *       the gas-day
 *   11  the guarantee does not cover commitment plus charge of the asked amount
 *   12  nothing is free on some day of the span
 *   13  no ledger line is left
 *
 * Refused, it leaves both lists, and the register comes back as it went in.
 */
struct ylgrandi_answer ylgrandi_request(
    struct ylgrandi_register r,
    uint32_t *free_amounts, size_t free_count,
    uint32_t *ledger, size_t ledger_count,
    uint8_t user, uint8_t point, uint8_t kind, uint8_t month, uint16_t day,
    uint16_t arrival, uint64_t amount);

/*
 * Batch: capacity of one point for the whole year, pro quota. F is the smallest
 * free amount of the year, S the sum of the asked amounts of the lines that pass
 * 2, 14, 5 and 11. If S is at most F each gets what it asked, else asked x F / S
 * rounded down; the rest stays free. Each share above 0 is booked, in the order
 * of the lines, as an annual grant from 1 October.
 *
 * point: 0 to 31.
 * users, asked: line i is of user users[i], 0 to 63, and asks for asked[i], 1 to
 *   9,999,999. They are only read.
 * shares, numbers: where line i's share and number go. What they held before
 *   does not matter.
 * The four counts are equal, 1 to 64.
 *
 * Numbers of the batch as a whole:
 *   0   accepted: the register is in the answer, with the amount 0; shares and
 *       numbers are written, and so are the free amounts and the ledger where a
 *       share is above 0. Every line may still have been refused
 *   1   the register is not in order
 *   2   the point or the counts are out of limits
 *   3   the point is not open
 *   13  fewer ledger lines are left than the batch has lines
 *
 * Numbers of a line of an accepted batch; a refused line has the share 0:
 *   0   it has its share, which is booked
 *   2   user or asked amount is out of limits
 *   5   the user is not on file
 *   11  the guarantee does not cover commitment plus charge of the asked amount
 *   12  its share is 0
 *   14  an earlier line names the user
 *
 * Refused as a whole, it leaves all lists, shares and numbers included, and the
 * register comes back as it went in.
 */
struct ylgrandi_answer ylgrandi_batch(
    struct ylgrandi_register r,
    uint32_t *free_amounts, size_t free_count,
    uint32_t *ledger, size_t ledger_count,
    uint8_t point,
    const uint8_t *users, size_t users_count,
    const uint64_t *asked, size_t asked_count,
    uint32_t *shares, size_t shares_count,
    uint8_t *numbers, size_t numbers_count);

/*
 * Cession: giver to receiver, from the first of the month after arrival to the
 * year's end. The charge moves between the commitments; two annual lines are
 * written, minus then plus. Free amounts do not move.
 *
 * giver, receiver: 0 to 63, not the same.
 * point: 0 to 31.
 * arrival: the gas-day on which the cession came in, from 1 September Y to
 *   31 August Y+1: one that arrives later leaves no day.
 * amount: 1 to 9,999,999.
 *
 * Numbers:
 *   0   accepted: the register is in the answer, with the amount ceded, which is
 *       all of it; two lines of the ledger are written
 *   1   the register is not in order; also given after 10, if the giver's
 *       commitment is below the charge. In a register that only calls have made
 *       neither happens
 *   2   a field is out of limits
 *   3   the point is not open
 *   5   giver or receiver is not on file
 *   8   the arrival lies outside its limits, or no day of the year is left
 *   9   not in time: by the 16th working day of the arrival month
 *   10  the giver does not hold the amount on every day of the span
 *   11  the receiver's guarantee does not cover his commitment plus the charge
 *   13  fewer than two ledger lines are left
 *
 * Refused, it leaves both lists, and the register comes back as it went in.
 */
struct ylgrandi_answer ylgrandi_cession(
    struct ylgrandi_register r,
    uint32_t *free_amounts, size_t free_count,
    uint32_t *ledger, size_t ledger_count,
    uint8_t giver, uint8_t receiver, uint8_t point, uint16_t arrival,
    uint64_t amount);

/*
 * Turn the year to a later one: totals free again, ledger empty, commitments 0;
 * points, rates and guarantees remain.
 *
 * year: 2000 to 2098, later than the register's.
 *
 * Numbers:
 *   0   accepted: the register is in the answer, both lists are written
 *   1   the register is not in order
 *   2   the year is out of limits
 *   15  the year is not later
 *
 * Refused, it leaves both lists, and the register comes back as it went in.
 */
struct ylgrandi_answer ylgrandi_turn_year(
    struct ylgrandi_register r,
    uint32_t *free_amounts, size_t free_count,
    uint32_t *ledger, size_t ledger_count,
    uint16_t year);

/*
 * Report: the free amount of a point and gas-day. It alters nothing: both lists
 * are only read, and the register that went in is still the register.
 *
 * point: 0 to 31.
 * day: a gas-day of the year.
 *
 * Numbers:
 *   0  the free amount is in the report
 *   1  the register is not in order
 *   2  the point is out of limits
 *   3  the point is not open
 *   8  the day lies outside the year
 */
struct ylgrandi_report ylgrandi_report(
    struct ylgrandi_register r,
    const uint32_t *free_amounts, size_t free_count,
    const uint32_t *ledger, size_t ledger_count,
    uint8_t point, uint16_t day);

/*
 * Moves a date on by one gas-day, in the caller's own record.
 *
 * date: any date; it is read and written.
 *
 * Numbers:
 *   0  *date is the next day
 *   2  *date is left: it is 31 December 2099, lies outside the calendar (2000 to
 *      2099) or does not exist
 */
uint8_t ylgrandi_next_day(struct ylgrandi_date *date);

/*
 * Question 1: is the register in order, with these lists? That is: free_count is
 * YLGRANDI_TABLE and ledger_count is YLGRANDI_LEDGER, whatever the number of lines
 * used; Y, the number of lines, totals, rates and guarantees within their limits,
 * each free amount at most its total, zeros where document 01 names them, each
 * commitment at most its guarantee, users not on file at 0, each line with a user
 * on file, an open point, a kind, a first day in the year (a month's first for a
 * month line) and an amount other than 0 within 9,999,999 either way. Numbers of
 * the ledger behind the lines used may be anything.
 *
 * Answers true or false. It alters nothing: both lists are only read. Every call
 * asks this by itself, so nobody needs to ask it beforehand.
 */
bool ylgrandi_in_order(
    struct ylgrandi_register r,
    const uint32_t *free_amounts, size_t free_count,
    const uint32_t *ledger, size_t ledger_count);

/*
 * Question 10: the first gas-day from h.first to h.last on which the user holds
 * less than the amount. Held is the sum of his ledger lines at the point there.
 *
 * year, lines: those of the register.
 * ledger: it is only read. It is not asked whether the register is in order. Where
 *   it is not, a line counts only where it begins in the year, so none in a year
 *   out of limits, and no line counts after the 2,048th. A line of an unknown kind
 *   counts as a day line, on its first day. With a smaller ledger_count than lines
 *   needs, the lines that are not there whole count nothing; with a greater one
 *   nothing behind the lines is read.
 * h.user, h.point: any. In a register in order nothing is held by a user, or at a
 *   point, that there is not.
 * h.first, h.last: any days; if the first is after the last there is nothing to
 *   hold.
 * h.amount: any.
 *
 * Answers a number from h.first to h.last, or YLGRANDI_NO_DAY if the amount is
 * held on every day. It alters nothing.
 */
uint32_t ylgrandi_first_short_day(
    uint16_t year, uint16_t lines,
    const uint32_t *ledger, size_t ledger_count,
    struct ylgrandi_holding h);

#ifdef __cplusplus
}
#endif

#endif
