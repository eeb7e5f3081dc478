#include "floor.h"

#include <string.h>

static void little_endian(uint8_t *at, int bytes, uint32_t value)
{
    for (int i = 0; i < bytes; i++)
        at[i] = (uint8_t)(value >> (8 * i));
}

void write_record(uint8_t *record, uint32_t kind, uint32_t index, uint32_t a, uint32_t b, uint32_t c)
{
    little_endian(record, 2, kind);
    little_endian(record + 2, 2, index);
    little_endian(record + 4, 4, a);
    little_endian(record + 8, 4, b);
    little_endian(record + 12, 4, c);
}

void set(floor_file *floor, size_t record, uint32_t a, uint32_t b, uint32_t c)
{
    uint8_t *at = floor->bytes + RECORD_BYTES * record;
    little_endian(at + 4, 4, a);
    little_endian(at + 8, 4, b);
    little_endian(at + 12, 4, c);
}

static void append(floor_file *floor, uint32_t kind, uint32_t index, uint32_t a, uint32_t b, uint32_t c)
{
    write_record(floor->bytes + floor->len, kind, index, a, b, c);
    floor->len += RECORD_BYTES;
}

static void append_alike(floor_file *floor, uint32_t kind, uint32_t count, uint32_t a, uint32_t b)
{
    for (uint32_t index = 0; index < count; index++)
        append(floor, kind, index, a, b, 0);
}

static void append_beams(floor_file *floor, uint32_t kind, uint32_t lines, layout beams)
{
    for (uint32_t line = 0; line < lines; line++) {
        int outer = line == 0 || line == lines - 1;
        int beam = beams == BEAMS_EVERYWHERE || (beams == EDGE_BEAMS && outer);
        append(floor, kind, line, beam ? 300 : 0, beam ? 600 : 0, 0);
    }
}

floor_file square(uint32_t bays, layout beams)
{
    floor_file floor;
    memset(&floor, 0, sizeof floor);
    append(&floor, 1, 0, bays, bays, 200);
    append(&floor, 2, 0, 30, 420, 0);
    append(&floor, 3, 0, 5000, 2000, 0);
    append(&floor, 4, 0, 400, 400, 0);
    append_alike(&floor, 5, bays, 6000, 0);
    append_alike(&floor, 6, bays, 6000, 0);
    append_beams(&floor, 7, bays + 1, beams);
    append_beams(&floor, 8, bays + 1, beams);
    append_alike(&floor, 9, (bays + 1) * (bays + 1), 0, 0);
    return floor;
}

floor_file wide_beams(uint32_t bays, uint32_t width)
{
    floor_file floor = square(bays, BEAMS_EVERYWHERE);
    const size_t spans = 4, lines = spans + 2 * bays, columns = lines + 2 * (bays + 1);
    for (size_t record = spans; record < lines; record++)
        set(&floor, record, 2000, 0, 0);
    for (size_t record = lines; record < columns; record++)
        set(&floor, record, width, 600, 0);
    return floor;
}

/* In turn one and the other, from the first. */
static void append_in_turn(floor_file *floor, uint32_t kind, uint32_t count, uint32_t one, uint32_t other)
{
    for (uint32_t index = 0; index < count; index++)
        append(floor, kind, index, index % 2 == 0 ? one : other, 0, 0);
}

floor_file broken(uint32_t bays)
{
    floor_file floor;
    memset(&floor, 0, sizeof floor);
    append(&floor, 1, 0, bays, bays, 100);
    append(&floor, 2, 0, 30, 420, 0);
    append(&floor, 3, 0, 5000, 10001, 0);
    append(&floor, 4, 0, 200, 200, 0);
    append_in_turn(&floor, 5, bays, 3060, 4600);
    append_in_turn(&floor, 6, bays, 1000, 1520);
    append_alike(&floor, 7, bays + 1, 150, 101);
    append_alike(&floor, 8, bays + 1, 200, 200);
    append_alike(&floor, 9, (bays + 1) * (bays + 1), 461, 153);
    return floor;
}

floor_file refused(uint32_t number)
{
    floor_file floor = square(3, NO_BEAMS);
    switch (number) {
    case 1: floor.len -= 1; break;
    case 2: set(&floor, 0, 3, 3, 89); break;
    case 3: floor.len -= RECORD_BYTES; break;
    case 4: set(&floor, 1, 30, 420, 1); break;
    case 5: set(&floor, 1, 19, 420, 0); break;
    case 6: set(&floor, 3, 1500, 400, 0); set(&floor, 4, 2980, 0, 0); break;
    case 7: set(&floor, 11, 300, 600, 0); break; /* a beam on x line 1 alone */
    }
    return floor;
}
