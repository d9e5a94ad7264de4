/*
 * Makes every call of ylgrandi.h, each with answers of several numbers, and
 * prints what they answer: all sixteen numbers come up. The lines that it must
 * print are worked out from document 01 in host/rust/tests/c_programs.rs.
 */
#include <inttypes.h>
#include <stdio.h>

#include "ylgrandi.h"

static uint32_t free_amounts[YLGRANDI_TABLE];
static uint32_t ledger[YLGRANDI_LEDGER];
static struct ylgrandi_register current;

/* The two lists, as calls take them. */
#define LISTS free_amounts, YLGRANDI_TABLE, ledger, YLGRANDI_LEDGER

/* Keeps the register of an answer and prints number and amount. */
static void keep(const char *call, struct ylgrandi_answer answer)
{
    current = answer.reg;
    printf("%s: %d %" PRIu32 "\n", call, answer.number, answer.amount);
}

static void report(uint8_t point, uint16_t day)
{
    struct ylgrandi_report answer = ylgrandi_report(current, LISTS, point, day);

    printf("report %d %d: %d %" PRIu32 "\n", point, day, answer.number, answer.amount);
}

static void start(void)
{
    keep("fresh 1999", ylgrandi_fresh(1999, LISTS));
    keep("open in year 0", ylgrandi_open_point(current, LISTS, 0, YLGRANDI_DIRECT, 1, 0));
    keep("fresh, a short table", ylgrandi_fresh(2023, free_amounts, YLGRANDI_TABLE - 1, ledger, YLGRANDI_LEDGER));
    keep("fresh 2023", ylgrandi_fresh(2023, LISTS));
    printf("in order: %d\n", ylgrandi_in_order(current, LISTS));
}

static void file(void)
{
    keep("open 0", ylgrandi_open_point(current, LISTS, 0, YLGRANDI_THERMOELECTRIC, 1000, 100));
    keep("open 0 again", ylgrandi_open_point(current, LISTS, 0, YLGRANDI_THERMOELECTRIC, 1000, 100));
    keep("open 1", ylgrandi_open_point(current, LISTS, 1, YLGRANDI_DIRECT, 1000, 1));
    keep("open 2 of kind 3", ylgrandi_open_point(current, LISTS, 2, 3, 1000, 1));
    keep("guarantee 5", ylgrandi_place_guarantee(current, LISTS, 5, 1000000000));
    keep("guarantee 6", ylgrandi_place_guarantee(current, LISTS, 6, 1000000000));
    keep("guarantee 7", ylgrandi_place_guarantee(current, LISTS, 7, 1000000000));
    keep("guarantee 64", ylgrandi_place_guarantee(current, LISTS, 64, 1));
}

/* A request of user 5. */
static void ask(const char *call, uint8_t point, uint8_t kind, uint8_t month, uint16_t day, uint16_t arrival, uint64_t amount)
{
    keep(call, ylgrandi_request(current, LISTS, 5, point, kind, month, day, arrival, amount));
}

static void request(void)
{
    ask("day", 0, YLGRANDI_DAY, 0, 8700, 8699, 600);
    ask("day, cut", 0, YLGRANDI_DAY, 0, 8700, 8699, 600);
    ask("day, nothing free", 0, YLGRANDI_DAY, 0, 8700, 8699, 600);
    ask("day, late", 0, YLGRANDI_DAY, 0, 8701, 8701, 1);
    ask("day at a direct point", 1, YLGRANDI_DAY, 0, 8700, 8699, 1);
    ask("day at a closed point", 2, YLGRANDI_DAY, 0, 8700, 8699, 1);
    ask("kind 4", 0, 4, 1, 8700, 8699, 1);
    ask("annual", 0, YLGRANDI_ANNUAL, 0, 0, 8689, 300);
    ask("annual, late", 0, YLGRANDI_ANNUAL, 0, 0, 8690, 300);
    ask("annual, early", 0, YLGRANDI_ANNUAL, 0, 0, 8643, 300);
    ask("month, cut", 0, YLGRANDI_MONTH, 2, 0, 8689, 1000);
    ask("month 13", 0, YLGRANDI_MONTH, 13, 0, 8689, 1);
    keep("user 8", ylgrandi_request(current, LISTS, 8, 0, YLGRANDI_ANNUAL, 0, 0, 8689, 1));
    report(0, 8700);
    report(0, 8701);
    report(0, 8705);
    report(0, 8735);
    report(0, 9040);
    report(2, 8700);
}

static void hold(uint32_t amount)
{
    struct ylgrandi_holding h = {5, 0, 8705, 9039, amount};

    printf("short of %" PRIu32 ": %" PRIu32 "\n", amount,
           ylgrandi_first_short_day(current.year, current.lines, ledger, YLGRANDI_LEDGER, h));
}

static void cede(void)
{
    keep("cession", ylgrandi_cession(current, LISTS, 5, 6, 0, 8696, 200));
    keep("cession, late", ylgrandi_cession(current, LISTS, 5, 6, 0, 8697, 1));
    keep("cession to himself", ylgrandi_cession(current, LISTS, 5, 5, 0, 8696, 1));
    hold(100);
    hold(101);
    keep("cession of too much", ylgrandi_cession(current, LISTS, 5, 6, 0, 8696, 101));
    report(0, 8735);
}

static void confer(void)
{
    static const uint8_t users[] = {5, 6, 7, 5, 8};
    static const uint64_t asked[] = {700, 500, 300, 1, 10};
    uint32_t shares[5];
    uint8_t numbers[5];

    keep("batch of none", ylgrandi_batch(current, LISTS, 1, users, 0, asked, 0, shares, 0, numbers, 0));
    keep("batch", ylgrandi_batch(current, LISTS, 1, users, 5, asked, 5, shares, 5, numbers, 5));
    for (size_t i = 0; i < 5; i++) {
        printf("line of %d: %d %" PRIu32 "\n", users[i], numbers[i], shares[i]);
    }
    report(1, 8674);
}

static void show_accounts_and_ledger(void)
{
    const struct ylgrandi_line *lines = (const struct ylgrandi_line *)ledger;

    for (int user = 5; user <= 7; user++) {
        printf("commitment of %d: %" PRIu64 "\n", user, current.accounts[user].commitment);
    }
    for (uint16_t i = 0; i < current.lines; i++) {
        printf("%" PRIu32 " %" PRIu32 " %" PRIu32 " %" PRIu32 " %" PRId32 "\n",
               lines[i].user, lines[i].point, lines[i].kind, lines[i].first, lines[i].amount);
    }
}

static void lower_guarantee(void)
{
    keep("guarantee too low", ylgrandi_place_guarantee(current, LISTS, 5, 5720555));
    keep("guarantee as low as can be", ylgrandi_place_guarantee(current, LISTS, 5, 5720556));
    ask("day, not covered", 0, YLGRANDI_DAY, 0, 8800, 8799, 1);
}

static void turn(void)
{
    keep("turn to 2023", ylgrandi_turn_year(current, LISTS, 2023));
    keep("turn to 2099", ylgrandi_turn_year(current, LISTS, 2099));
    keep("turn to 2024", ylgrandi_turn_year(current, LISTS, 2024));
    printf("%d, %d lines, commitment %" PRIu64 ", guarantee %" PRIu64 "\n", current.year, current.lines,
           current.accounts[5].commitment, current.accounts[5].guarantee);
    report(0, 9040);
}

/* Fills the ledger with requests for one gas-day, 28 February 2025. */
static void fill(void)
{
    int granted = 0;

    keep("open 31", ylgrandi_open_point(current, LISTS, 31, YLGRANDI_THERMOELECTRIC, 9999999, 0));
    while (granted < YLGRANDI_LINES) {
        struct ylgrandi_answer answer =
            ylgrandi_request(current, LISTS, 6, 31, YLGRANDI_DAY, 0, 9190, 9189, 2);
        current = answer.reg;
        if (answer.number != YLGRANDI_ACCEPTED || answer.amount != 2) {
            break;
        }
        granted++;
    }
    printf("requests of 2 granted: %d\n", granted);
    keep("one more", ylgrandi_request(current, LISTS, 6, 31, YLGRANDI_DAY, 0, 9190, 9189, 2));
    report(31, 9190);
}

static void move_on(uint16_t year, uint8_t month, uint8_t day)
{
    struct ylgrandi_date date = {year, month, day};
    uint8_t number = ylgrandi_next_day(&date);

    printf("after %d-%d-%d: %d %d-%d-%d\n", year, month, day, number, date.year, date.month, date.day);
}

static void move_dates(void)
{
    move_on(2023, 2, 28);
    move_on(2024, 2, 28);
    move_on(2023, 12, 31);
    move_on(2099, 12, 31);
    move_on(2023, 2, 29);
}

/* What a faulty host does: a commitment above the guarantee. */
static void disorder(void)
{
    current.accounts[7].commitment = current.accounts[7].guarantee + 1;
    printf("in order: %d\n", ylgrandi_in_order(current, LISTS));
    report(0, 9040);
}

int main(void)
{
    start();
    file();
    request();
    cede();
    confer();
    show_accounts_and_ledger();
    lower_guarantee();
    turn();
    fill();
    move_dates();
    disorder();
    return fflush(stdout) == 0 ? 0 : 1;
}
