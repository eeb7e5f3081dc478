// Which parts of the plan the library's places name: what a place of each limit is, the header says.

import { countAlong } from '../judge.js';

/** @typedef {import('../judge.js').Place} Place */
/** @typedef {import('../floor.js').Way} Way */

/** Limits whose places are panels. */
const OF_PANELS = [2, 32, 64];

/**
 * Everything in the plan has a key, and a place names some of them.
 * @param {Place} place @param {Record<Way, number[]>} spans
 */
export function keysOf(place, spans) {
    const { limit, way, i, j } = place;
    if (OF_PANELS.includes(limit)) {
        return [panelKey(i, j)];
    }
    switch (limit) {
        case 1:
            return spans[way].map((_, span) => spanKey(way, span));
        case 4:
            return [0, 1].map((next) => spanKey(way, countAlong(place) + next));
        case 8:
            return [columnKey(i, j)];
        default:
            return [WHOLE_FLOOR];
    }
}

export const WHOLE_FLOOR = 'floor';

/** @param {number} i @param {number} j */
export function panelKey(i, j) {
    return `panel ${i} ${j}`;
}

/** @param {number} i @param {number} j */
export function columnKey(i, j) {
    return `column ${i} ${j}`;
}

/** @param {Way} way @param {number} span */
export function spanKey(way, span) {
    return `${way} span ${span}`;
}

/** @param {Way} way @param {number} line */
export function lineKey(way, line) {
    return `${way} line ${line}`;
}
