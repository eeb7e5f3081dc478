// A column line moved: the two spans beside it change together, in the steps of 20 mm that the rules allow; an outer line has one.

import { across, recordOf, SPAN_KIND } from '../floor.js';

/** @typedef {import('../floor.js').Floor} Floor */
/** @typedef {import('../floor.js').Way} Way */

export const STEP = 20;

/**
 * The changes that put the line so many millimetres farther from the first line than it is in `floor`.
 * @param {Floor} floor @param {Way} way @param {number} line @param {number} mm
 */
export function movedLine(floor, way, line, mm) {
    const along = across(way);
    const spans = floor.spans[along];
    const beside = [
        { span: line - 1, length: spans[line - 1] + mm },
        { span: line, length: spans[line] - mm },
    ];
    const there = beside.filter(({ span }) => span >= 0 && span < spans.length);
    // A length below 0 has no bytes: 0 is as far out of range.
    return there.map(({ span, length }) => recordOf(SPAN_KIND[along], span, Math.max(length, 0)));
}

/**
 * The nearest whole step.
 * @param {number} mm
 */
export function inSteps(mm) {
    return Math.round(mm / STEP) * STEP;
}
