// The four sides of a floor in the words of a text.

import { CODES, codeOf, SIDES, sumOfSides } from '../sides.js';

/** @typedef {import('./reader.js').LineReader} LineReader */

/**
 * The four sides in any order, one word for all of them, or the sum itself.
 * @param {LineReader} reader
 * @returns {number}
 */
export function readSides(reader) {
    if (reader.isAtNumber()) {
        return reader.number('the sum of the sides');
    }
    const alike = reader.oneOf(CODES);
    if (alike !== -1) {
        return sumOfSides(SIDES.map(() => alike));
    }
    const codes = readSideBySide(reader);
    const missing = codes.indexOf(-1);
    if (missing !== -1) {
        reader.expect(`the ${SIDES[missing]} side`);
    }
    return sumOfSides(codes);
}

/**
 * Of each side its code, -1 where it is missing.
 * @param {LineReader} reader
 */
function readSideBySide(reader) {
    const codes = SIDES.map(() => -1);
    for (let side = reader.oneOf(SIDES); side !== -1; side = reader.oneOf(SIDES)) {
        const code = reader.oneOf(CODES);
        if (code === -1) {
            reader.expect('columns, unrestrained or restrained');
        } else if (codes[side] !== -1) {
            reader.fail(`expected the ${SIDES[side]} side once`);
        }
        codes[side] = code;
    }
    return codes;
}

/**
 * In words where each side has a code that has a word, else the sum itself.
 * @param {number} sum
 * @returns {string}
 */
export function writtenSides(sum) {
    const codes = SIDES.map((side) => codeOf(sum, side));
    if (sum > 255 || codes.some((code) => code >= CODES.length)) {
        return String(sum);
    }
    return codes.map((code, side) => `${SIDES[side]} ${CODES[code]}`).join(', ');
}
