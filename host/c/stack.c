/*
 * How much stack each call of ylgrandi.h takes. A call is made on a stack of its
 * own, which is painted first. Counted are the bytes from the lowest that lost its
 * paint up to the place at which the caller stood. A line for each call: its
 * number, and the bytes. host/rust/tests/c_programs.rs holds them to what
 * README.md says.
 */
#define _XOPEN_SOURCE 700
#include <stdio.h>
#include <string.h>
#include <ucontext.h>

#include "ylgrandi.h"

#define STACK (1 << 20)
#define PAINT 0xA5

static uint32_t free_amounts[YLGRANDI_TABLE];
static uint32_t ledger[YLGRANDI_LEDGER];
static struct ylgrandi_register current;
static unsigned number;

static unsigned char stack[STACK];
static unsigned char *caller;
static ucontext_t here, there;

/* The two lists, as calls take them. */
#define LISTS free_amounts, YLGRANDI_TABLE, ledger, YLGRANDI_LEDGER

/* Notes where the stack of the function that is about to call stands. */
#define STAND() __asm__ volatile("mov %%rsp, %0" : "=r"(caller))

/* Makes a call, and keeps its register and its number. */
#define KEEP(call)                                                                                                     \
    do {                                                                                                               \
        struct ylgrandi_answer answer;                                                                                 \
                                                                                                                       \
        STAND();                                                                                                       \
        answer = call;                                                                                                 \
        current = answer.reg;                                                                                          \
        number = answer.number;                                                                                        \
    } while (0)

static void fresh(void) { KEEP(ylgrandi_fresh(2023, LISTS)); }

static void open_point(void) { KEEP(ylgrandi_open_point(current, LISTS, 0, YLGRANDI_THERMOELECTRIC, 1000, 1)); }

static void place_guarantee(void) { KEEP(ylgrandi_place_guarantee(current, LISTS, 5, 1000000000)); }

static void place_another(void) { KEEP(ylgrandi_place_guarantee(current, LISTS, 6, 1000000000)); }

static void batch(void)
{
    static const uint8_t users[] = {5, 6};
    static const uint64_t asked[] = {400, 300};
    static uint32_t shares[2];
    static uint8_t numbers[2];

    KEEP(ylgrandi_batch(current, LISTS, 0, users, 2, asked, 2, shares, 2, numbers, 2));
}

/* User 5 asks for 300 to the year's end, and cedes 200 of what he holds. The arrivals are in October 2023. */
static void request(void) { KEEP(ylgrandi_request(current, LISTS, 5, 0, YLGRANDI_ANNUAL, 0, 0, 8689, 300)); }

static void cession(void) { KEEP(ylgrandi_cession(current, LISTS, 5, 6, 0, 8696, 200)); }

static void first_short_day(void)
{
    const struct ylgrandi_holding h = {6, 0, 8705, 9039, 500};

    STAND();
    number = ylgrandi_first_short_day(current.year, current.lines, ledger, YLGRANDI_LEDGER, h) != YLGRANDI_NO_DAY;
}

static void report(void)
{
    STAND();
    number = ylgrandi_report(current, LISTS, 0, 8700).number;
}

static void in_order(void)
{
    STAND();
    number = !ylgrandi_in_order(current, LISTS);
}

static void next_day(void)
{
    struct ylgrandi_date date = {2023, 12, 31};

    STAND();
    number = ylgrandi_next_day(&date);
}

static void turn_year(void) { KEEP(ylgrandi_turn_year(current, LISTS, 2024)); }

/* The lowest byte of the stack that has lost its paint. */
static unsigned char *lowest(void)
{
    unsigned char *at = stack;

    while (*at == PAINT)
        at++;
    return at;
}

static void measure(const char *name, void (*call)(void))
{
    memset(stack, PAINT, STACK);
    getcontext(&there);
    there.uc_stack.ss_sp = stack;
    there.uc_stack.ss_size = STACK;
    there.uc_link = &here;
    makecontext(&there, call, 0);
    swapcontext(&here, &there);
    printf("%s: %u %td\n", name, number, caller - lowest());
}

int main(void)
{
    measure("fresh", fresh);
    measure("open point", open_point);
    measure("place guarantee", place_guarantee);
    place_another();
    measure("batch", batch);
    measure("request", request);
    measure("cession", cession);
    measure("first short day", first_short_day);
    measure("report", report);
    measure("in order", in_order);
    measure("next day", next_day);
    measure("turn year", turn_year);
    return 0;
}
