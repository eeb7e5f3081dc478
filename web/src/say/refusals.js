// A refusal in words, and the record that it is about in the words of a text.

import { columnPlace, readRecord } from '../floor.js';
import { writtenSides } from '../text/sides.js';

/** @typedef {import('../floor.js').Floor} Floor */
/** @typedef {import('./words.js').Words} Words */

/**
 * `refused 3: ...`
 * @param {Words} words @param {number} number
 * @returns {string}
 */
export function sayRefusal(words, number) {
    const reason = words.refusals.get(number);
    return reason === undefined ? `refused ${number}` : `refused ${number}: ${reason}`;
}

/**
 * What is said of a clear floor whose schedule is refused.
 * @param {Words} words @param {number} number
 */
export function sayUnbarred(words, number) {
    const said = sayRefusal(words, number);
    return `No bars are shown. ${said[0].toUpperCase()}${said.slice(1)}.`;
}

/**
 * One record of a floor in the words of its text.
 * @param {Floor} floor @param {Uint8Array} record
 * @returns {string}
 */
export function sayRecord(floor, record) {
    const { kind, index, fields: [a, b, c] } = readRecord(record);
    const { i, j } = columnPlace(floor, index);
    switch (kind) {
        case 2: return `concrete ${a}, steel ${b}`;
        case 3: return `dead ${a}, live ${b}`;
        case 4: return `columns ${a} ${b}, sides ${writtenSides(c)}`;
        case 5: return `x span ${index} of ${a} mm`;
        case 6: return `y span ${index} of ${a} mm`;
        case 7: return `x line ${index} beam ${a} ${b}`;
        case 8: return `y line ${index} beam ${a} ${b}`;
        case 9: return `column ${i} ${j} offset ${a} ${b}`;
        default: return `${a} by ${b} bays, slab ${c}`;
    }
}

/**
 * The record, and the range of its kind's values.
 * @param {Words} words @param {Floor} floor @param {Uint8Array} record
 * @returns {string}
 */
export function sayRange(words, floor, record) {
    const range = words.ranges.get(readRecord(record).kind);
    const said = sayRecord(floor, record);
    return range === undefined ? said : `${said}: expected ${range}`;
}
