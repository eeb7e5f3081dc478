/* Gandhrumil: suspended concrete floors by the Direct Design Method of ACI 318-14.
 *
 * Link with libgandhrumil.a, which `./library` proves and writes to target/library (x86-64). Of the C library it needs memcpy and
 * memset, and nothing else.
 *
 * Every call takes any bytes, any lengths and any numbers, and always returns: nothing has to be looked at first. A length counts
 * what its pointer points to: bytes of a floor, a change or a schedule, numbers of a table, of governing moments or of places. A
 * pointer may be anything, NULL too, where its length is 0. A table, governing moments and places whose length is not 0 must be
 * aligned for uint32_t; a floor, a change and a schedule may start at any address. The buffers of one call must not overlap, and
 * nobody else may write to them during it.
 * Nothing is kept between calls, nothing is allocated, and a call touches no memory but its stack and the buffers lent to it.
 */
#ifndef GANDHRUMIL_H
#define GANDHRUMIL_H

#include <stddef.h>
#include <stdint.h>

/* Rises by 1 with each change of what is declared here and each change of an answer. docs/CHANGES.md says what a caller must do. */
#define GANDHRUMIL_VERSION 8

/* A call uses less than GANDHRUMIL_STACK bytes of stack. Measured on floors of 12 by 12 bays, clear and not, on x86-64,
 * gandhrumil_schedule, which holds a table of its own, uses less than 22 KiB, and every other call less than 7 KiB; the rest is
 * margin. */
#define GANDHRUMIL_STACK 32768

/* So many numbers have room for the places of any floor: there are no more than 793, of four numbers each. With them 25 is never given. */
#define GANDHRUMIL_PLACES_LEN 3172

/* So many bytes have room for the schedule of any floor: there are no more than 1,872 records, of 32 bytes each. With them 15 is never given. */
#define GANDHRUMIL_SCHEDULE_LEN 59904

#ifdef __cplusplus
extern "C" {
#endif

/* refusal 0: the call succeeded, and value is what was asked. Otherwise refusal is the number of the first reason that applies:
 *    1  the floor's length is no multiple of 16, or below 14 records
 *    2  record 0 is not kind 1 index 0, or nx, ny or t is out of range
 *    3  the record count is not what nx and ny ask
 *    4  some kind, index or zero field is not as listed
 *    5  some value is out of range, or one beam size alone is 0
 *    6  twice a column exceeds a span in its direction
 *    7  the layout is not allowed, or a beam's depth is not above t
 *    8  the table is shorter than 16 * ((ny + 1) * nx + (nx + 1) * ny) numbers
 *    9  a change is not 16 bytes, not of kind 3 or 5 to 9, has an index the floor lacks, or an unlisted field not zero
 *   10  there is no such panel
 *   11  a value of a steel query is out of range
 *   12  no steel area fits
 *   13  governing_len is below 5 * ((ny + 1) * (nx + 1) + (nx + 1) * (ny + 1)); tried right after 8
 *   15  schedule_len is below 32 * 6 * ((ny + 1) * nx + (nx + 1) * ny)
 *   16  the verdict is not 0
 *   17  a strip of the schedule has a width of 0 or less, no steel area that fits, or no bar that allows a spacing
 *   25  places_len is below 4 times the number of the floor's places
 */
typedef struct {
    uint32_t refusal;
    uint32_t value;
} gandhrumil_answer;

/* Opens a floor. Tries 1 to 8, then 13. value is the verdict, 255 where refused: the sum of 1 (fewer than three bays one way), 2 (a panel longer
 * than twice its width), 4 (neighbouring spans differ by more than a third), 8 (a column off its line by more than a tenth of a span),
 * 16 (live load above twice dead load), 32 (stiffness of the two directions apart by more than five times), 64 (slab too thin).
 * Where it is not refused the table's numbers are written, sixteen for each span: Mo in N.m, then low end, between, high end in N.cm, each
 * as total, column strip, middle strip, beam, slab; x frames first (line j, span i is record j * nx + i), then y frames (record
 * (ny + 1) * nx + i * ny + j).
 * With them go the governing moments, five numbers for each support of each frame: total, column strip, middle strip, beam, slab, all from
 * the face with the larger total. The faces of support s are the high end of span s - 1 and the low end of span s; on a tie the first of
 * them counts, and the first and the last support have one face. x frames come first (line j, support s is entry j * (nx + 1) + s), then y
 * frames (line i, support s is entry (ny + 1) * (nx + 1) + i * (ny + 1) + s).
 * All of these numbers are 0 unless the verdict is 0. Numbers past them are left alone; a refusal writes nothing. */
gandhrumil_answer gandhrumil_open(const uint8_t *floor, size_t floor_len, uint32_t *table, size_t table_len,
                                  uint32_t *governing, size_t governing_len);

/* Changes one record of a floor. Tries 1 to 7 on the floor, 9, 5 to 7 on the changed floor, 8, then 13. value is the verdict of the floor that
 * the change makes, 255 where refused. Where it is taken the 16 bytes are stored in their place and the moments are kept: where the verdict is
 * 0 before and after, just the records of the table that the change bears on are written, and then the supports at their ends, from the table
 * as it then stands; otherwise the whole table and every support. A refusal writes nothing.
 * A table and governing moments that gandhrumil_open filled stay, after any number of changes, what gandhrumil_open would make of the floor as
 * it then is. */
gandhrumil_answer gandhrumil_change(uint8_t *floor, size_t floor_len, uint32_t *table, size_t table_len,
                                    uint32_t *governing, size_t governing_len, const uint8_t *change, size_t change_len);

/* The least thickness in mm of the panel of x bay x and y bay y, each counted from 0; no more than 423. A beam on an outer line that is less than
 * 0.80 times as stiff as its slab makes the panels along that line ask for more. Tries 1 to 7, then 10; 0 where refused. */
gandhrumil_answer gandhrumil_panel(const uint8_t *floor, size_t floor_len, uint64_t x, uint64_t y);

/* Whether the floor is clear: value 1 is yes, 0 is no. Yes exactly where gandhrumil_open, with room for what it writes, gives verdict 0. This
 * call stops at the first broken limit, and does not say which it is. Tries 1 to 7; a refused floor answers no, with its number. No table is
 * lent, and nothing is written. */
gandhrumil_answer gandhrumil_clear(const uint8_t *floor, size_t floor_len);

/* Where the floor breaks its limits. With refusal 0, value is the number of places, and 0 exactly on a clear floor; a refused call has value 0
 * too, so look at refusal first. Each place is written as four numbers: limit, direction, i, j. The direction is 0 for x, 1 for y, and 0
 * where the limit has none. What a place is depends on the limit, numbered as for gandhrumil_open:
 *           1  a direction with fewer than three bays; i and j are 0
 *   2, 32, 64  the panel of x bay i and y bay j
 *           4  two neighbouring spans: along x those of x bays i and i + 1, j is 0; along y those of y bays j and j + 1, i is 0
 *           8  the column on y line i and x line j, once for each direction along which it is off by too much
 *          16  the floor; i and j are 0
 * A place is listed exactly where its limit is broken there, and once. The order is limit, then direction, then j, then i, each rising. The
 * limits that are listed, each counted once, add up to the verdict. Tries 1 to 7, then 25. Numbers past the places are left alone; a refusal
 * writes nothing. */
gandhrumil_answer gandhrumil_places(const uint8_t *floor, size_t floor_len, uint32_t *places, size_t places_len);

/* The least whole area of steel in mm2 for the moment m, 0 to 2,000,000,000 N.cm, on a width b, 1 to 12,000 mm, of a slab of thickness t, 90 to
 * 500 mm, at the effective depth d, 50 to t - 25 mm, or 0 for t - 38; concrete fc, 20 to 60 MPa, steel fy, 280, 420 or 520 MPa. t - 38 is the depth
 * of the second of two layers of bars; for the first layer, next to the face of the slab, pass t - 26.
 * 11 where a value is out of range, then 12 where no area carries the moment within the steel limits; 0 mm2 where refused. */
gandhrumil_answer gandhrumil_steel(uint64_t m, uint64_t b, uint64_t t, uint64_t d, uint64_t fc, uint64_t fy);

/* The bar schedule of a clear floor. value is the number of its records, 6 for each record of the table; 0 where refused. A record is 32 bytes, eight
 * numbers of 32 bits, little-endian:
 *   the record's number in the table; section, 0 low end, 1 between, 2 high end; strip, 0 column strip, 1 middle strip
 *   the strip's width in mm: of the column strip without the beam, on an outer line without half of it, rounded up
 *   the moment in N.cm that gandhrumil_open has there: the slab part of the column strip, the middle part of the middle strip
 *   the area of steel in mm2 that gandhrumil_steel answers for that moment and width, with the floor's t, fc and fy, and with d = t - 26 in
 *     records of x frames, d = 0 in those of y frames: bars along x lie next to the face, at top and bottom, bars along y inside them
 *   the diameter of the bars in mm, 10, 12 or 16, of 79, 113 and 201 mm2, and their spacing in mm: the largest multiple of 10, from 80 to 2 * t, for
 *     which bar area * width is at least area * spacing; the smallest bar that allows one is taken
 * The order is the table's record, then section, then strip. Tries 1 to 7, 16, 15, then 17. Bytes past the schedule are left alone; a refusal writes
 * nothing. */
gandhrumil_answer gandhrumil_schedule(const uint8_t *floor, size_t floor_len, uint8_t *schedule, size_t schedule_len);

#ifdef __cplusplus
}
#endif

#endif
