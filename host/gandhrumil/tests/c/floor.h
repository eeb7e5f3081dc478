/* Floor files for the tests of the boundary (01, "The floor file"). C99 that is C++ too. */
#ifndef FLOOR_H
#define FLOOR_H

#include <stddef.h>
#include <stdint.h>

/* 12 by 12 bays: four single records, 12 spans and 13 lines each way, 169 columns. */
enum { RECORD_BYTES = 16, MOST_FLOOR_BYTES = RECORD_BYTES * (4 + 2 * 12 + 2 * 13 + 13 * 13) };

typedef struct {
    uint8_t bytes[MOST_FLOOR_BYTES];
    size_t len;
} floor_file;

typedef enum { NO_BEAMS, EDGE_BEAMS, BEAMS_EVERYWHERE } layout;

/* Writes a record: kind and index in two bytes each, then a, b and c. */
void write_record(uint8_t *record, uint32_t kind, uint32_t index, uint32_t a, uint32_t b, uint32_t c);

/* Square, with bays of 6,000, columns of 400 and beams of 300 by 600. An outer panel without beams asks for 5600/30 = 186.7 of
 * the slab of 200, and no other for more: from 3 bays on the floor is clear. */
floor_file square(uint32_t bays, layout beams);

/* The floor that breaks every limit in every place that it has: slender panels, neighbours that differ by more than a third, columns far off
 * their lines both ways, more live load than allowed, and beams everywhere, those on x lines so weak and the slab of 100 so thin that each
 * panel breaks 32 and 64. */
floor_file broken(uint32_t bays);

/* Square, with bays of 2,000 and beams of this width everywhere. Inside the column strip has 2 * 2000 / 4 = 1000 mm, beam and slab together. */
floor_file wide_beams(uint32_t bays, uint32_t width);

/* The floor with one record written anew; it keeps its kind and index. */
void set(floor_file *floor, size_t record, uint32_t a, uint32_t b, uint32_t c);

/* 3 by 3 bays that get this refusal, 1 to 7; for 0 the floor is clear. */
floor_file refused(uint32_t number);

#endif
