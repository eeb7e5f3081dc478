// The bar schedule of a floor (02, Five), as the yard gets it and as it is read.

import { SCHEDULE_LEN } from './library.js';
import { recordNumber, SECTIONS } from './table.js';

/** @typedef {import('./floor.js').Way} Way */
/** @typedef {import('./judge.js').Judged} Judged */
/** @typedef {import('./library.js').Library} Library */
/**
 * The file, or the number of the refusal and no byte.
 * @typedef {{refusal: number, bytes: Uint8Array}} Schedule
 */
/**
 * In mm, the area in mm².
 * @typedef {{width: number, area: number, diameter: number, spacing: number}} Bars
 */
/** @typedef {'column' | 'middle'} Strip */
/** @typedef {Record<'low' | 'between' | 'high', Record<Strip, Bars>>} SpanBars */

const ENTRY_BYTES = 32;
const ENTRIES_OF_SPAN = 6;

/** @type {Strip[]} */
export const STRIPS = ['column', 'middle'];

export const BARS_NOTE = 'Bars: diameter @ spacing in mm; those of the column strip lie in its slab, beside the beam.';

/** @param {Library} library @param {Uint8Array} floor @returns {Schedule} */
export function scheduleOf(library, floor) {
    const lent = new Uint8Array(SCHEDULE_LEN);
    const { refusal, value } = library.schedule(floor, lent);
    return { refusal, bytes: lent.slice(0, ENTRY_BYTES * value) };
}

/** @param {Uint8Array} bytes @param {number} entry @returns {Bars} */
function barsAt(bytes, entry) {
    const view = new DataView(bytes.buffer, bytes.byteOffset + ENTRY_BYTES * entry, ENTRY_BYTES);
    const [, , , width, , area, diameter, spacing] = Array.from({ length: 8 }, (_, number) => view.getUint32(4 * number, true));
    return { width, area, diameter, spacing };
}

/**
 * "Every section of every span appears once for each strip, in that order."
 * @param {Judged} judged of a floor that has a schedule @param {Way} way @param {number} line @param {number} span @returns {SpanBars}
 */
function spanBars({ floor, schedule: { bytes } }, way, line, span) {
    const first = ENTRIES_OF_SPAN * recordNumber(floor, way, line, span);
    const [low, between, high] = SECTIONS.map((_, section) => {
        const [column, middle] = STRIPS.map((_, strip) => barsAt(bytes, first + STRIPS.length * section + strip));
        return { column, middle };
    });
    return { low, between, high };
}

/**
 * The bars of a frame, span by span, or null where there is no schedule.
 * @param {Judged} judged @param {Way} way @param {number} line
 */
export function frameBars(judged, way, line) {
    return judged.schedule.refusal === 0 ? judged.floor.spans[way].map((_, span) => spanBars(judged, way, line, span)) : null;
}

/**
 * `10 @ 210`, the diameter at the spacing in mm.
 * @param {Bars} bars
 */
export function sayBars({ diameter, spacing }) {
    return `${diameter} @ ${spacing}`;
}
