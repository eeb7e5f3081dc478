/* "A pointer may be anything, NULL too, where its length is 0" (include/gandhrumil.h): every pointer of every call, alone and with
 * the others, on an accepted floor and on floors refused 1 to 7. What is to be answered is 01's "Refusal numbers, in the order
 * tried". */
#include "gandhrumil.h"

#include "floor.h"
#include <stdio.h>
#include <string.h>

/* Nothing can be read or written there. For uint32_t they are aligned, and misaligned in each of the three ways. */
static const uintptr_t nowhere[] = { 0, 1, 2, 3, 64, UINTPTR_MAX - 3, UINTPTR_MAX };
enum { POINTERS = sizeof nowhere / sizeof *nowhere };

/* 16 * (4 * 3 + 4 * 3) and 5 * (4 * 4 + 4 * 4), for 3 by 3 bays; one place; 32 * 6 * (4 * 3 + 4 * 3). */
enum { TABLE_NUMBERS = 384, GOVERNING_NUMBERS = 160, PLACES_NUMBERS = 4, SCHEDULE_BYTES = 4608 };

typedef struct {
    floor_file floor;
    uint32_t table[TABLE_NUMBERS];
    uint32_t governing[GOVERNING_NUMBERS];
    uint32_t places[PLACES_NUMBERS];
    uint8_t change[RECORD_BYTES];
    uint8_t schedule[SCHEDULE_BYTES];
} buffers;

static buffers lent, before;
static int compared, wrong;

/* A set of pointers. */
enum { FLOOR = 1, TABLE = 2, GOVERNING = 4, CHANGE = 8, ALL = 15, PLACES = 16, SCHEDULE = 32 };

typedef struct {
    uint32_t held;     /* the number that the floor gets by itself; 25 or 16 of a floor with a place */
    int empty;         /* the pointers with length 0 */
    uintptr_t pointer; /* what they are */
} attempt;

/* The lent buffers: the floor, a table, governing moments, places and a schedule of any numbers, and a change that is taken where
 * nothing else is amiss. */
static void fill(floor_file floor)
{
    lent.floor = floor;
    memset(lent.table, 0x5a, sizeof lent.table);
    memset(lent.governing, 0x5a, sizeof lent.governing);
    memset(lent.places, 0x5a, sizeof lent.places);
    memset(lent.schedule, 0x5a, sizeof lent.schedule);
    write_record(lent.change, 3, 0, 6000, 3000, 0);
    memcpy(&before, &lent, sizeof lent);
}

/* The first that applies, in the order tried by opening and by a change: 1 to 7 on the held floor, 9, 8, 13; by a schedule 15 after
 * what the floor gets by itself.
 * With no room for places a clear floor, which has none, is not refused. */
static uint32_t first_refusal(attempt a)
{
    if (a.empty & FLOOR)
        return 1;
    if (a.held != 0)
        return a.held;
    if (a.empty & CHANGE)
        return 9;
    if (a.empty & TABLE)
        return 8;
    if (a.empty & SCHEDULE)
        return 15;
    return a.empty & GOVERNING ? 13 : 0;
}

/* The call has to give the first refusal, this value beside it, and write nothing. */
static void expect(const char *call, attempt a, gandhrumil_answer answer, uint32_t value)
{
    uint32_t refusal = first_refusal(a);
    int written = memcmp(&before, &lent, sizeof lent) != 0;
    compared++;
    if (answer.refusal == refusal && answer.value == value && !written)
        return;
    wrong++;
    printf("%s, floor of refusal %u, length 0 of%s%s%s%s%s%s at %#lx: %u %u%s, right is %u %u\n", call, (unsigned)a.held,
           a.empty & FLOOR ? " floor" : "", a.empty & TABLE ? " table" : "", a.empty & GOVERNING ? " governing" : "",
           a.empty & CHANGE ? " change" : "", a.empty & PLACES ? " places" : "", a.empty & SCHEDULE ? " schedule" : "",
           (unsigned long)a.pointer, (unsigned)answer.refusal, (unsigned)answer.value, written ? " and something written" : "",
           (unsigned)refusal, (unsigned)value);
}

static void try_pointers(attempt a)
{
    uint8_t *floor = a.empty & FLOOR ? (uint8_t *)a.pointer : lent.floor.bytes;
    uint32_t *table = a.empty & TABLE ? (uint32_t *)a.pointer : lent.table;
    uint32_t *governing = a.empty & GOVERNING ? (uint32_t *)a.pointer : lent.governing;
    uint8_t *change = a.empty & CHANGE ? (uint8_t *)a.pointer : lent.change;
    size_t floor_len = a.empty & FLOOR ? 0 : lent.floor.len;
    size_t table_len = a.empty & TABLE ? 0 : TABLE_NUMBERS;
    size_t governing_len = a.empty & GOVERNING ? 0 : GOVERNING_NUMBERS;
    size_t change_len = a.empty & CHANGE ? 0 : RECORD_BYTES;
    gandhrumil_answer changed =
        gandhrumil_change(floor, floor_len, table, table_len, governing, governing_len, change, change_len);
    expect("change", a, changed, 255);
    if (!(a.empty & CHANGE))
        expect("open", a, gandhrumil_open(floor, floor_len, table, table_len, governing, governing_len), 255);
    if (a.empty == FLOOR) {
        expect("panel", a, gandhrumil_panel(floor, floor_len, 0, 0), 0);
        expect("clear", a, gandhrumil_clear(floor, floor_len), 0);
    }
}

static void try_places(attempt a)
{
    uint8_t *floor = a.empty & FLOOR ? (uint8_t *)a.pointer : lent.floor.bytes;
    uint32_t *places = a.empty & PLACES ? (uint32_t *)a.pointer : lent.places;
    size_t floor_len = a.empty & FLOOR ? 0 : lent.floor.len;
    size_t places_len = a.empty & PLACES ? 0 : PLACES_NUMBERS;
    expect("places", a, gandhrumil_places(floor, floor_len, places, places_len), 0);
}

static void try_schedule(attempt a)
{
    uint8_t *floor = a.empty & FLOOR ? (uint8_t *)a.pointer : lent.floor.bytes;
    uint8_t *schedule = a.empty & SCHEDULE ? (uint8_t *)a.pointer : lent.schedule;
    size_t floor_len = a.empty & FLOOR ? 0 : lent.floor.len;
    size_t schedule_len = a.empty & SCHEDULE ? 0 : SCHEDULE_BYTES;
    expect("schedule", a, gandhrumil_schedule(floor, floor_len, schedule, schedule_len), 0);
}

static void try_everywhere(void (*attempted)(attempt), uint32_t held, int empty)
{
    for (int i = 0; i < POINTERS; i++) {
        attempt a = { held, empty, nowhere[i] };
        attempted(a);
    }
}

static void try_sets(uint32_t held)
{
    fill(refused(held));
    for (int empty = 1; empty <= ALL; empty++)
        try_everywhere(try_pointers, held, empty);
    try_everywhere(try_places, held, FLOOR);
    try_everywhere(try_places, held, PLACES);
    try_everywhere(try_places, held, FLOOR | PLACES);
    try_everywhere(try_schedule, held, FLOOR);
    try_everywhere(try_schedule, held, SCHEDULE);
    try_everywhere(try_schedule, held, FLOOR | SCHEDULE);
}

/* Too much live load is one place, and 16 comes before 15. */
static void try_not_clear(void)
{
    floor_file loaded = refused(0);
    set(&loaded, 2, 5000, 10001, 0);
    fill(loaded);
    try_everywhere(try_places, 25, PLACES);
    try_everywhere(try_places, 25, FLOOR | PLACES);
    try_everywhere(try_schedule, 16, SCHEDULE);
    try_everywhere(try_schedule, 16, FLOOR | SCHEDULE);
}

int main(void)
{
    for (uint32_t held = 0; held <= 7; held++)
        try_sets(held);
    try_not_clear();
    printf("%d answers compared, %d wrong\n", compared, wrong);
    return wrong != 0;
}
