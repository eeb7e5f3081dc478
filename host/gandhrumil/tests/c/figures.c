/* The seven calls on what 01 gives an answer for, and governing moments and bars worked out by hand. C99 that is C++ too. */
#include "gandhrumil.h"

#include "floor.h"
#include <stdio.h>
#include <string.h>

/* One bay each way: 16 * (2 * 1 + 2 * 1) numbers, and 5 * (2 * 2 + 2 * 2). */
enum { TABLE_NUMBERS = 64, GOVERNING_NUMBERS = 40 };

static int wrong;

static void expect(const char *what, gandhrumil_answer answer, uint32_t refusal, uint32_t value)
{
    if (answer.refusal == refusal && answer.value == value)
        return;
    wrong++;
    printf("%s: %u %u, right is %u %u\n", what, (unsigned)answer.refusal, (unsigned)answer.value, (unsigned)refusal,
           (unsigned)value);
}

/* "Verdict not 0: all of them are 0. Numbers past the table stay", and the governing moments alike. */
static void expect_zeros(const char *what, const uint32_t *numbers, int count)
{
    int zeros = 0;
    for (int i = 0; i < count; i++)
        zeros += numbers[i] == 0;
    if (zeros == count && numbers[count] == 7)
        return;
    wrong++;
    printf("%s: %d numbers of %d are 0, and the one past them is %u\n", what, zeros, count, (unsigned)numbers[count]);
}

static void expect_five(const char *what, const uint32_t *found, const uint32_t *right)
{
    if (memcmp(found, right, 5 * sizeof *found) == 0)
        return;
    wrong++;
    printf("%s: %u %u %u %u %u, right is %u %u %u %u %u\n", what, (unsigned)found[0], (unsigned)found[1], (unsigned)found[2],
           (unsigned)found[3], (unsigned)found[4], (unsigned)right[0], (unsigned)right[1], (unsigned)right[2],
           (unsigned)right[3], (unsigned)right[4]);
}

static void expect_four(const char *what, const uint32_t *found, const uint32_t *right)
{
    if (memcmp(found, right, 4 * sizeof *found) == 0)
        return;
    wrong++;
    printf("%s: %u %u %u %u, right is %u %u %u %u\n", what, (unsigned)found[0], (unsigned)found[1], (unsigned)found[2],
           (unsigned)found[3], (unsigned)right[0], (unsigned)right[1], (unsigned)right[2], (unsigned)right[3]);
}

/* Nothing is written there. */
static void expect_left(const char *what, const uint32_t *numbers, int count, uint32_t before)
{
    int left = 0;
    for (int i = 0; i < count; i++)
        left += numbers[i] == before;
    if (left == count)
        return;
    wrong++;
    printf("%s: %d numbers of %d are left alone\n", what, left, count);
}

/* 01's example of the printing program, which prints `0 1`. */
static floor_file one_bay(void)
{
    floor_file floor = square(1, NO_BEAMS);
    set(&floor, 4, 4000, 0, 0);
    set(&floor, 5, 4000, 0, 0);
    return floor;
}

/* Wrong numbers, and a 7 past them. */
static void spoil(uint32_t *numbers, int count)
{
    memset(numbers, 0xff, (size_t)count * sizeof *numbers);
    numbers[count] = 7;
}

static void floors(void)
{
    floor_file floor = one_bay();
    uint32_t table[TABLE_NUMBERS + 1], governing[GOVERNING_NUMBERS + 1];
    const size_t table_len = TABLE_NUMBERS + 1, governing_len = GOVERNING_NUMBERS + 1;
    uint8_t change[RECORD_BYTES];
    spoil(table, TABLE_NUMBERS);
    spoil(governing, GOVERNING_NUMBERS);
    expect("open", gandhrumil_open(floor.bytes, floor.len, table, table_len, governing, governing_len), 0, 1);
    expect_zeros("open, table", table, TABLE_NUMBERS);
    expect_zeros("open, governing", governing, GOVERNING_NUMBERS);
    /* A clear span of 3,600: 3600/30 is 120, and no slab is below 125. */
    expect("panel", gandhrumil_panel(floor.bytes, floor.len, 0, 0), 0, 125);
    expect("no panel", gandhrumil_panel(floor.bytes, floor.len, 0, 1), 10, 0);
    /* Of 5,600 along y: 186.7. */
    write_record(change, 6, 0, 6000, 0, 0);
    spoil(table, TABLE_NUMBERS);
    spoil(governing, GOVERNING_NUMBERS);
    expect("change",
           gandhrumil_change(floor.bytes, floor.len, table, table_len, governing, governing_len, change, sizeof change), 0, 1);
    expect_zeros("change, table", table, TABLE_NUMBERS);
    expect_zeros("change, governing", governing, GOVERNING_NUMBERS);
    expect("panel of the changed floor", gandhrumil_panel(floor.bytes, floor.len, 0, 0), 0, 187);
}

/* 3 by 3 bays of 6,000 without beams. Of x line 1, W 6,000 and ln 5,600: Mo is 92000 * 6000 * 5600 * 5600 / 80000000000 = 216,384.
 * Its outer ends have 26 percent, all in the column strip; its inner supports 70 of the end span's, against 65 of the inner one's,
 * and three quarters of that in the column strip. Its supports are 4 to 7. */
static void governing_moments(void)
{
    static const uint32_t outer[5] = { 5625984, 5625984, 0, 0, 5625984 };
    static const uint32_t inner[5] = { 15146880, 11360160, 3786720, 0, 11360160 };
    floor_file floor = square(3, NO_BEAMS);
    uint32_t table[384], governing[160];
    expect("open, one number short", gandhrumil_open(floor.bytes, floor.len, table, 384, governing, 159), 13, 255);
    expect("open, both short", gandhrumil_open(floor.bytes, floor.len, table, 383, governing, 159), 8, 255);
    expect("open, clear", gandhrumil_open(floor.bytes, floor.len, table, 384, governing, 160), 0, 0);
    expect_five("x line 1, support 0", governing + 5 * 4, outer);
    expect_five("x line 1, support 1", governing + 5 * 5, inner);
    expect_five("x line 1, support 2", governing + 5 * 6, inner);
    expect_five("x line 1, support 3", governing + 5 * 7, outer);
}

/* A beam of 967 by 273 on x line 0, W 3,200, has alpha 8,000 and one of 901 by 279 has 7,999. In 3 by 3 bays of 6,000 it lies along the corner
 * panel: with beams everywhere 5600 * 1.1 / 45 = 136.9, and ten percent more than 137 is 150.7; between edge beams only 5600/33 and 5600/30. */
static void weak_edges(void)
{
    floor_file everywhere = square(3, BEAMS_EVERYWHERE), edges = square(3, EDGE_BEAMS);
    /* After sizes, materials, loads, columns and six spans. */
    const size_t x_line_0 = 10;
    set(&everywhere, x_line_0, 967, 273, 0);
    set(&edges, x_line_0, 967, 273, 0);
    expect("corner, edge 8,000", gandhrumil_panel(everywhere.bytes, everywhere.len, 0, 0), 0, 137);
    expect("corner, edge 8,000, edge beams", gandhrumil_panel(edges.bytes, edges.len, 0, 0), 0, 170);
    set(&everywhere, x_line_0, 901, 279, 0);
    set(&edges, x_line_0, 901, 279, 0);
    expect("corner, edge 7,999", gandhrumil_panel(everywhere.bytes, everywhere.len, 0, 0), 0, 151);
    expect("corner, edge 7,999, edge beams", gandhrumil_panel(edges.bytes, edges.len, 0, 0), 0, 187);
    expect("inner", gandhrumil_panel(everywhere.bytes, everywhere.len, 1, 1), 0, 137);
}

/* One record of 3 by 3 bays of 6,000 without beams, at a limit and past it. */
static void expect_limit(const char *what, size_t record, const uint32_t *at, const uint32_t *past)
{
    floor_file floor = square(3, NO_BEAMS);
    set(&floor, record, at[0], at[1], at[2]);
    expect(what, gandhrumil_clear(floor.bytes, floor.len), 0, 1);
    set(&floor, record, past[0], past[1], past[2]);
    expect(what, gandhrumil_clear(floor.bytes, floor.len), 0, 0);
}

/* "Yes exactly when the full verdict is 0; a refused floor answers no with its number" (02, Four): 01's figures at the limits, the
 * thickness that an outer panel asks for, 5600/30 = 186.7, and 01's one bay, whose verdict is 1. */
static void clear_or_not(void)
{
    static const uint32_t x_span[2][3] = { { 4000, 0, 0 }, { 3980, 0, 0 } };
    static const uint32_t offset[2][3] = { { 0, 600, 0 }, { 0, 601, 0 } };
    static const uint32_t loads[2][3] = { { 5000, 10000, 0 }, { 5000, 10001, 0 } };
    static const uint32_t sizes[2][3] = { { 3, 3, 187 }, { 3, 3, 186 } };
    floor_file floor = one_bay();
    expect("clear, one bay", gandhrumil_clear(floor.bytes, floor.len), 0, 0);
    expect_limit("clear, neighbours", 5, x_span[0], x_span[1]);
    expect_limit("clear, last column", 33, offset[0], offset[1]);
    expect_limit("clear, loads", 2, loads[0], loads[1]);
    expect_limit("clear, thickness", 0, sizes[0], sizes[1]);
    for (uint32_t number = 0; number <= 7; number++) {
        floor = refused(number);
        expect("clear, refused", gandhrumil_clear(floor.bytes, floor.len), number, number == 0);
    }
}

/* The floor's places are these, each limit, direction, i, j. A slice with just room for them is written and not the number past it; one that is
 * a number shorter is refused and left alone. */
static void expect_places(const char *what, floor_file floor, const uint32_t (*right)[4], uint32_t count)
{
    static uint32_t found[GANDHRUMIL_PLACES_LEN + 1];
    const int numbers = 4 * (int)count;
    spoil(found, numbers);
    expect(what, gandhrumil_places(floor.bytes, floor.len, found, 4 * count - 1), 25, 0);
    expect_left(what, found, numbers, UINT32_MAX);
    expect(what, gandhrumil_places(floor.bytes, floor.len, found, 4 * count), 0, count);
    for (uint32_t i = 0; i < count; i++)
        expect_four(what, found + 4 * i, right[i]);
    expect_left(what, found + numbers, 1, 7);
}

/* One record of 3 by 3 bays of 6,000 without beams, past a limit. */
static floor_file past(size_t record, uint32_t a, uint32_t b, uint32_t c)
{
    floor_file floor = square(3, NO_BEAMS);
    set(&floor, record, a, b, c);
    return floor;
}

/* At 01's figures: one bay each way; a span of 2,980 in panels of 6,000, which differs from both its neighbours too; one of 3,980, which
 * only does that; the last column off along y; the live load; and a slab of 186, of which the eight outer panels ask for 187, the inner
 * one for 5600/33 = 169.7. */
static void places_by_limit(void)
{
    static const uint32_t few[2][4] = { { 1, 0, 0, 0 }, { 1, 1, 0, 0 } };
    static const uint32_t slender[5][4] = { { 2, 0, 1, 0 }, { 2, 0, 1, 1 }, { 2, 0, 1, 2 }, { 4, 0, 0, 0 }, { 4, 0, 1, 0 } };
    static const uint32_t uneven[2][4] = { { 4, 1, 0, 0 }, { 4, 1, 0, 1 } };
    static const uint32_t astray[1][4] = { { 8, 1, 3, 3 } };
    static const uint32_t heavy[1][4] = { { 16, 0, 0, 0 } };
    static const uint32_t thin[8][4] = { { 64, 0, 0, 0 }, { 64, 0, 1, 0 }, { 64, 0, 2, 0 }, { 64, 0, 0, 1 },
                                         { 64, 0, 2, 1 }, { 64, 0, 0, 2 }, { 64, 0, 1, 2 }, { 64, 0, 2, 2 } };
    expect_places("places, one bay", one_bay(), few, 2);
    expect_places("places, x span 1 of 2,980", past(5, 2980, 0, 0), slender, 5);
    expect_places("places, y span 1 of 3,980", past(8, 3980, 0, 0), uneven, 2);
    expect_places("places, last column", past(33, 0, 601, 0), astray, 1);
    expect_places("places, loads", past(2, 5000, 10001, 0), heavy, 1);
    expect_places("places, thickness", past(0, 3, 3, 186), thin, 8);
}

/* Two bays each way with every limit broken in every place. */
static void places_of_all_limits(void)
{
    static const uint32_t all[35][4] = {
        { 1, 0, 0, 0 },  { 1, 1, 0, 0 },                                     /* directions */
        { 2, 0, 0, 0 },  { 2, 0, 1, 0 },  { 2, 0, 0, 1 },  { 2, 0, 1, 1 },   /* panels */
        { 4, 0, 0, 0 },  { 4, 1, 0, 0 },                                     /* neighbours */
        { 8, 0, 0, 0 },  { 8, 0, 1, 0 },  { 8, 0, 2, 0 },                    /* columns off along x */
        { 8, 0, 0, 1 },  { 8, 0, 1, 1 },  { 8, 0, 2, 1 },
        { 8, 0, 0, 2 },  { 8, 0, 1, 2 },  { 8, 0, 2, 2 },
        { 8, 1, 0, 0 },  { 8, 1, 1, 0 },  { 8, 1, 2, 0 },                    /* and along y */
        { 8, 1, 0, 1 },  { 8, 1, 1, 1 },  { 8, 1, 2, 1 },
        { 8, 1, 0, 2 },  { 8, 1, 1, 2 },  { 8, 1, 2, 2 },
        { 16, 0, 0, 0 },                                                     /* the floor */
        { 32, 0, 0, 0 }, { 32, 0, 1, 0 }, { 32, 0, 0, 1 }, { 32, 0, 1, 1 },  /* panels */
        { 64, 0, 0, 0 }, { 64, 0, 1, 0 }, { 64, 0, 0, 1 }, { 64, 0, 1, 1 },
    };
    expect_places("places, all", broken(2), all, 35);
}

/* Twelve bays each way have the most: 144 panels for each of three limits, 11 neighbours and 169 columns for each direction, the loads. */
static void most_places(void)
{
    static uint32_t places[GANDHRUMIL_PLACES_LEN];
    floor_file floor = broken(12);
    expect("places, most", gandhrumil_places(floor.bytes, floor.len, places, GANDHRUMIL_PLACES_LEN), 0, 793);
    expect("places, no room", gandhrumil_places(floor.bytes, floor.len, places, GANDHRUMIL_PLACES_LEN - 1), 25, 0);
}

/* A clear floor has none, and a refused one its number. */
static void no_places(void)
{
    uint32_t places[4] = { 7, 7, 7, 7 };
    for (uint32_t number = 0; number <= 7; number++) {
        floor_file floor = refused(number);
        expect("places, none", gandhrumil_places(floor.bytes, floor.len, places, 4), number, 0);
        expect("places, none and no room", gandhrumil_places(floor.bytes, floor.len, places, 0), number, 0);
    }
    expect_left("places, none", places, 4, 7);
}

static uint32_t little_endian_at(const uint8_t *at)
{
    return at[0] | (uint32_t)at[1] << 8 | (uint32_t)at[2] << 16 | (uint32_t)at[3] << 24;
}

static void expect_entry(const uint8_t *found, const uint32_t *right)
{
    int same = 0;
    for (int i = 0; i < 8; i++)
        same += little_endian_at(found + 4 * i) == right[i];
    if (same == 8)
        return;
    wrong++;
    printf("schedule, record %u, section %u, strip %u: only %d of eight numbers are right\n", (unsigned)right[0], (unsigned)right[1],
           (unsigned)right[2], same);
}

/* Nothing is written there. */
static void expect_bytes_left(const char *what, const uint8_t *bytes, int count, uint8_t before)
{
    int left = 0;
    for (int i = 0; i < count; i++)
        left += bytes[i] == before;
    if (left == count)
        return;
    wrong++;
    printf("%s: %d bytes of %d are left alone\n", what, left, count);
}

/* 3 by 3 bays of 6,000 without beams, as for the governing moments: record 3 is the first span of x line 1, both of whose strips are 3,000 wide.
 * Mo 216,384 has the shares 26, 52 and 70; between, 60 percent of its 11,251,968 are in the column strip. The least area, 756 * 3000 * 200 / 420000
 * = 1,080, carries all but the largest: As * (4437000 - 70 * As) must reach 7,663,600,000 for 11,360,160, and 1,777 gives 7,663,507,970. Bars of 10:
 * 79 * 3000 / 1080 = 219, and by 1778 133.
 * Record 15 is the first span of y line 1, the same but that its bars lie inside those along x, at 162 and not at 174. As * (4131000 - 70 * As) must
 * reach the same 7,663,600,000, and 1,917 gives 7,661,884,770; between, it must reach 4,554,367,461 for 6,751,180, and 1,080 gives 4,379,832,000,
 * 1,123 4,550,833,970. 79 * 3000 / 1124 = 210, and by 1918 123. */
static void schedule_of_a_span(void)
{
    static const uint32_t along_x[6][8] = {
        { 3, 0, 0, 3000, 5625984, 1080, 10, 210 },  { 3, 0, 1, 3000, 0, 1080, 10, 210 },
        { 3, 1, 0, 3000, 6751180, 1080, 10, 210 },  { 3, 1, 1, 3000, 4500788, 1080, 10, 210 },
        { 3, 2, 0, 3000, 11360160, 1778, 10, 130 }, { 3, 2, 1, 3000, 3786720, 1080, 10, 210 },
    };
    static const uint32_t along_y[6][8] = {
        { 15, 0, 0, 3000, 5625984, 1080, 10, 210 },  { 15, 0, 1, 3000, 0, 1080, 10, 210 },
        { 15, 1, 0, 3000, 6751180, 1124, 10, 210 },  { 15, 1, 1, 3000, 4500788, 1080, 10, 210 },
        { 15, 2, 0, 3000, 11360160, 1918, 10, 120 }, { 15, 2, 1, 3000, 3786720, 1080, 10, 210 },
    };
    /* 24 records of the table; lent from an odd address on. */
    enum { BYTES = 32 * 6 * 24 };
    uint8_t memory[BYTES + 2], *schedule = memory + 1;
    floor_file floor = square(3, NO_BEAMS), thin = past(0, 3, 3, 186);
    memset(memory, 7, sizeof memory);
    expect("schedule, a byte short", gandhrumil_schedule(floor.bytes, floor.len, schedule, BYTES - 1), 15, 0);
    expect("schedule, not clear", gandhrumil_schedule(thin.bytes, thin.len, schedule, BYTES), 16, 0);
    expect("schedule, not clear, a byte short", gandhrumil_schedule(thin.bytes, thin.len, schedule, BYTES - 1), 16, 0);
    expect_bytes_left("schedule, refused", memory, BYTES + 2, 7);
    expect("schedule", gandhrumil_schedule(floor.bytes, floor.len, schedule, BYTES + 1), 0, 144);
    for (int i = 0; i < 6; i++) {
        expect_entry(schedule + 32 * (6 * 3 + i), along_x[i]);
        expect_entry(schedule + 32 * (6 * 15 + i), along_y[i]);
    }
    expect_bytes_left("schedule, before it", memory, 1, 7);
    expect_bytes_left("schedule, past it", memory + 1 + BYTES, 1, 7);
}

/* Beams of 1,000 leave nothing of the column strip inside, beams of 900 leave 100 mm; 1 to 7 come before all else, 15 before 17. */
static void schedule_or_not(void)
{
    enum { BYTES = 32 * 6 * 24 };
    uint8_t schedule[BYTES];
    floor_file wide = wide_beams(3, 1000), narrow = wide_beams(3, 900);
    memset(schedule, 7, sizeof schedule);
    expect("schedule, no width", gandhrumil_schedule(wide.bytes, wide.len, schedule, BYTES), 17, 0);
    expect("schedule, no width, a byte short", gandhrumil_schedule(wide.bytes, wide.len, schedule, BYTES - 1), 15, 0);
    for (uint32_t number = 1; number <= 7; number++) {
        floor_file floor = refused(number);
        expect("schedule, refused floor", gandhrumil_schedule(floor.bytes, floor.len, schedule, 0), number, 0);
    }
    expect_bytes_left("schedule, refused", schedule, BYTES, 7);
    expect("schedule, 100 mm", gandhrumil_schedule(narrow.bytes, narrow.len, schedule, BYTES), 0, 144);
}

/* Twelve bays each way have the most records: 6 * (13 * 12 + 13 * 12). */
static void longest_schedule(void)
{
    static uint8_t schedule[GANDHRUMIL_SCHEDULE_LEN];
    floor_file floor = square(12, NO_BEAMS);
    expect("schedule, longest", gandhrumil_schedule(floor.bytes, floor.len, schedule, GANDHRUMIL_SCHEDULE_LEN), 0, 1872);
    expect("schedule, no room", gandhrumil_schedule(floor.bytes, floor.len, schedule, GANDHRUMIL_SCHEDULE_LEN - 1), 15, 0);
}

/* "M 2,195,000, b 1,000, t 150, d 124, fc 30, fy 420: 484; M 0: 270; M 20,000,000: refusal 12" (01). With d = 0 the depth is 112, not 124 (02, Six):
 * As * (952000 - 70 * As) must reach 493,584,657, and 539 gives 492,791,530, 540 493,668,000. "At t = 90 the default is 52": for 500,000
 * As * (442000 - 70 * As) must reach 112,433,863, and 265 gives 112,214,250, 266 112,619,080. */
static void steel_queries(void)
{
    expect("steel", gandhrumil_steel(2195000, 1000, 150, 124, 30, 420), 0, 484);
    expect("steel for no moment", gandhrumil_steel(0, 1000, 150, 124, 30, 420), 0, 270);
    expect("too much moment", gandhrumil_steel(20000000, 1000, 150, 124, 30, 420), 12, 0);
    expect("no width", gandhrumil_steel(0, 0, 150, 124, 30, 420), 11, 0);
    expect("steel in the second layer", gandhrumil_steel(2195000, 1000, 150, 0, 30, 420), 0, 540);
    expect("the same by its depth", gandhrumil_steel(2195000, 1000, 150, 112, 30, 420), 0, 540);
    expect("steel in the thinnest slab", gandhrumil_steel(500000, 1000, 90, 0, 30, 420), 0, 266);
    expect("the same by its depth", gandhrumil_steel(500000, 1000, 90, 52, 30, 420), 0, 266);
}

int main(void)
{
    floors();
    weak_edges();
    clear_or_not();
    places_by_limit();
    places_of_all_limits();
    most_places();
    no_places();
    governing_moments();
    schedule_of_a_span();
    schedule_or_not();
    longest_schedule();
    steel_queries();
    return wrong != 0;
}
