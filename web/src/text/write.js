// A floor into its text, in one fixed form.

import { columnPlace } from '../floor.js';
import { TEXT_FORMS } from './forms.js';

/** @typedef {import('../floor.js').Floor} Floor */
/** @typedef {import('../floor.js').Way} Way */

const TEXT_HEADER = `\
# A floor, as \`slab make\` reads it. Lengths in mm, loads in N/m2, strengths in MPa.
# x spans go from west to east, y spans from south to north. x lines run along x, x line 0 is south;
# y lines run along y, y line 0 is west. Sides are columns, unrestrained or restrained.
`;

/**
 * The text of a floor in its one fixed form, byte for byte that of `slab text`.
 * @param {Floor} floor
 * @returns {string}
 */
export function writeText(floor) {
    const once = TEXT_FORMS.map((form) => withNote([form.key, ...form.says(floor)].join(' '), form.note)).join('');
    const blocks = [TEXT_HEADER, once, beamLines(floor, 'x'), beamLines(floor, 'y'), offsetLines(floor)];
    return blocks.filter((block) => block !== '').join('\n');
}

/**
 * The note stands beside what is short enough.
 * @param {string} line @param {string} note
 */
function withNote(line, note) {
    return note === '' ? `${line}\n` : `${line.padEnd(27)} # ${note}\n`;
}

/**
 * What is not all zeros; the first of them with the note.
 * @param {[number, number][]} pairs @param {(number: number) => string} key @param {string} note
 */
function notedPairs(pairs, key, note) {
    const lines = pairs.flatMap(([a, b], number) => (a === 0 && b === 0 ? [] : [`${key(number)} ${a} ${b}`]));
    return lines.map((line, number) => withNote(line, number === 0 ? note : '')).join('');
}

/** @param {Floor} floor @param {Way} way */
function beamLines(floor, way) {
    return notedPairs(floor.beams[way], (number) => `${way} line ${number} beam`, 'width, depth');
}

/** @param {Floor} floor */
function offsetLines(floor) {
    const key = (/** @type {number} */ number) => {
        const { i, j } = columnPlace(floor, number);
        return `column ${i} ${j} offset`;
    };
    return notedPairs(floor.offsets, key, 'column on y line, x line; off along x, along y');
}
