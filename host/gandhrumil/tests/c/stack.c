/* "A call uses less than GANDHRUMIL_STACK bytes of stack" (include/gandhrumil.h): each call on the largest floors, on a stack that
 * was painted first, where the paint that is left shows how deep it went. Prints the bytes used by each. */
#define _XOPEN_SOURCE 700
#include "gandhrumil.h"

#include "floor.h"
#include <stdio.h>
#include <string.h>
#include <ucontext.h>

/* 16 * (13 * 12 + 13 * 12) numbers, and 5 * (13 * 13 + 13 * 13). */
enum { BAYS = 12, TABLE_NUMBERS = 4992, GOVERNING_NUMBERS = 1690 };

static floor_file floor_lent;
static uint32_t table[TABLE_NUMBERS], governing[GOVERNING_NUMBERS];
static uint32_t places[GANDHRUMIL_PLACES_LEN];
static uint8_t change[RECORD_BYTES];
static uint8_t schedule[GANDHRUMIL_SCHEDULE_LEN];
static gandhrumil_answer answer;
static int wrong;

static void call_open(void)
{
    answer = gandhrumil_open(floor_lent.bytes, floor_lent.len, table, TABLE_NUMBERS, governing, GOVERNING_NUMBERS);
}

static void call_change(void)
{
    answer = gandhrumil_change(floor_lent.bytes, floor_lent.len, table, TABLE_NUMBERS, governing, GOVERNING_NUMBERS, change,
                               RECORD_BYTES);
}

static void call_panel(void)
{
    answer = gandhrumil_panel(floor_lent.bytes, floor_lent.len, BAYS - 1, BAYS - 1);
}

static void call_clear(void)
{
    answer = gandhrumil_clear(floor_lent.bytes, floor_lent.len);
}

static void call_places(void)
{
    answer = gandhrumil_places(floor_lent.bytes, floor_lent.len, places, GANDHRUMIL_PLACES_LEN);
}

static void call_places_short(void)
{
    answer = gandhrumil_places(floor_lent.bytes, floor_lent.len, places, GANDHRUMIL_PLACES_LEN - 1);
}

static void call_schedule(void)
{
    answer = gandhrumil_schedule(floor_lent.bytes, floor_lent.len, schedule, GANDHRUMIL_SCHEDULE_LEN);
}

static void call_schedule_short(void)
{
    answer = gandhrumil_schedule(floor_lent.bytes, floor_lent.len, schedule, GANDHRUMIL_SCHEDULE_LEN - 1);
}

static void call_steel(void)
{
    answer = gandhrumil_steel(2195000, 1000, 150, 124, 30, 420);
}

/* How much of a painted stack the call uses. The little that this program itself puts there is counted too. */
static size_t depth(void (*call)(void))
{
    static uint8_t stack[4 * GANDHRUMIL_STACK];
    static ucontext_t here, there;
    const uint8_t paint = 0xa5;
    size_t left = 0;
    memset(stack, paint, sizeof stack);
    getcontext(&there);
    there.uc_stack.ss_sp = stack;
    there.uc_stack.ss_size = sizeof stack;
    there.uc_link = &here;
    makecontext(&there, call, 0);
    swapcontext(&here, &there);
    while (left < sizeof stack && stack[left] == paint)
        left++;
    return sizeof stack - left;
}

/* The answer shows that the call went where it was meant to go. A change holds a copy of the floor (01), so one that seems to use
 * less was not measured. */
static void measure(const char *name, void (*call)(void), floor_file floor, uint32_t refusal, uint32_t value)
{
    size_t used, least = call == call_change ? MOST_FLOOR_BYTES : 1;
    /* Once on the stack at hand, so that the loader has found memcpy and memset. */
    floor_lent = floor;
    call();
    floor_lent = floor;
    used = depth(call);
    printf("%6u  %s\n", (unsigned)used, name);
    if (answer.refusal == refusal && answer.value == value && least <= used && used < GANDHRUMIL_STACK)
        return;
    wrong++;
    printf("wrong: answers %u %u, right is %u %u; %u bytes, %u to %u are right\n", (unsigned)answer.refusal,
           (unsigned)answer.value, (unsigned)refusal, (unsigned)value, (unsigned)used, (unsigned)least, GANDHRUMIL_STACK - 1);
}

/* `thickness` is what the corner panel asks for. Every panel asks for more than 120. The last record is the last column's. */
static void measure_layout(layout beams, uint32_t thickness)
{
    floor_file clear = square(BAYS, beams), thin = clear, loaded = clear, off = clear, late = clear;
    const size_t last_record = clear.len / RECORD_BYTES - 1;
    set(&thin, 0, BAYS, BAYS, 120);
    set(&loaded, 2, 5000, 10001, 0);
    set(&off, last_record, 0, 601, 0);
    set(&late, last_record, 0, 12001, 0);
    measure("open, clear", call_open, clear, 0, 0);
    measure("open, too thin", call_open, thin, 0, 64);
    measure("panel", call_panel, clear, 0, thickness);
    measure("clear, yes", call_clear, clear, 0, 1);
    measure("clear, no, too thin", call_clear, thin, 0, 0);
    measure("clear, no, too much live load", call_clear, loaded, 0, 0);
    measure("clear, no, last column off", call_clear, off, 0, 0);
    measure("clear, refused 5", call_clear, late, 5, 0);
    measure("places, none", call_places, clear, 0, 0);
    measure("places, every panel too thin", call_places, thin, 0, BAYS * BAYS);
    measure("places, last column off", call_places, off, 0, 1);
    measure("places, refused 5", call_places, late, 5, 0);
    measure("schedule", call_schedule, clear, 0, GANDHRUMIL_SCHEDULE_LEN / 32);
    measure("schedule, refused 15", call_schedule_short, clear, 15, 0);
    measure("schedule, refused 16", call_schedule, thin, 16, 0);
    measure("schedule, refused 5", call_schedule, late, 5, 0);
    write_record(change, 3, 0, 6000, 3000, 0);
    measure("change, clear to clear", call_change, clear, 0, 0);
    measure("change, too thin before and after", call_change, thin, 0, 64);
    measure("change, too much live load to clear", call_change, loaded, 0, 0);
    write_record(change, 3, 0, 5000, 10001, 0);
    measure("change, clear to too much live load", call_change, clear, 0, 16);
    write_record(change, 5, 0, 5800, 0, 0);
    measure("change of a span", call_change, clear, 0, 0);
    write_record(change, 9, 168, 12001, 0, 0);
    measure("change refused 5", call_change, clear, 5, 255);
}

int main(void)
{
    puts("no beams");
    measure_layout(NO_BEAMS, 187);
    puts("beams on the four outer lines");
    measure_layout(EDGE_BEAMS, 170);
    puts("beams everywhere");
    measure_layout(BEAMS_EVERYWHERE, 137);
    puts("every limit broken in every place");
    measure("places", call_places, broken(BAYS), 0, GANDHRUMIL_PLACES_LEN / 4);
    measure("places, refused 25", call_places_short, broken(BAYS), 25, 0);
    puts("beams as wide as their column strips");
    measure("schedule, refused 17", call_schedule, wide_beams(BAYS, 1000), 17, 0);
    puts("no floor");
    measure("steel", call_steel, floor_lent, 0, 484);
    return wrong != 0;
}
