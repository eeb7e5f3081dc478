// The numbers of the lent table and of the governing moments, by frame (01, "The table", and 02, One).

import { across } from './floor.js';

/** @typedef {import('./floor.js').Floor} Floor */
/** @typedef {import('./floor.js').Way} Way */
/** @typedef {import('./judge.js').Judged} Judged */
/**
 * In N·cm.
 * @typedef {{total: number, column: number, middle: number, beam: number, slab: number}} Section
 */
/**
 * Mo in N·m.
 * @typedef {{mo: number, low: Section, between: Section, high: Section}} SpanRecord
 */

const RECORD_NUMBERS = 16;
const SECTION_NUMBERS = 5;

/** @type {(keyof Section)[]} */
export const PARTS = ['total', 'column', 'middle', 'beam', 'slab'];

/** @type {('low' | 'between' | 'high')[]} */
export const SECTIONS = ['low', 'between', 'high'];

/**
 * How many lines run along the direction.
 * @param {Floor} floor @param {Way} way
 */
export function linesOf(floor, way) {
    return floor.spans[across(way)].length + 1;
}

/**
 * x frames come first, line by line.
 * @param {Floor} floor @param {Way} way @param {number} line @param {(way: Way) => number} each of one line
 */
function placeOf(floor, way, line, each) {
    const before = way === 'x' ? 0 : linesOf(floor, 'x') * each('x');
    return before + line * each(way);
}

/** @param {Uint32Array} numbers @param {number} start @returns {Section} */
function sectionAt(numbers, start) {
    const [total, column, middle, beam, slab] = numbers.subarray(start, start + SECTION_NUMBERS);
    return { total, column, middle, beam, slab };
}

/**
 * The number of a span's record in the table.
 * @param {Floor} floor @param {Way} way @param {number} line @param {number} span
 */
export function recordNumber(floor, way, line, span) {
    return placeOf(floor, way, line, (along) => floor.spans[along].length) + span;
}

/** @param {Judged} judged @param {Way} way @param {number} line @param {number} span @returns {SpanRecord} */
export function spanRecord({ floor, table }, way, line, span) {
    const start = RECORD_NUMBERS * recordNumber(floor, way, line, span);
    const [low, between, high] = [1, 6, 11].map((number) => sectionAt(table, start + number));
    return { mo: table[start], low, between, high };
}

/**
 * The governing negative.
 * @param {Judged} judged @param {Way} way @param {number} line @param {number} support
 */
export function supportAt({ floor, governing }, way, line, support) {
    const place = placeOf(floor, way, line, (along) => floor.spans[along].length + 1) + support;
    return sectionAt(governing, SECTION_NUMBERS * place);
}
