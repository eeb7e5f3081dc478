// Frames, their sections and the parts of a moment by the names that an engineer and a fixer know.

import { across } from '../floor.js';
import { linesOf } from '../table.js';

/** @typedef {import('../floor.js').Floor} Floor */
/** @typedef {import('../floor.js').Way} Way */
/** @typedef {'low' | 'between' | 'high'} SectionName */

/** The outer lines that run along a direction, line 0 and the last; its way from low to high; the ends of a span. */
const FRAME_WORDS = {
    x: { edges: ['south edge', 'north edge'], course: 'from west to east', low: 'west end', between: 'between', high: 'east end' },
    y: { edges: ['west edge', 'east edge'], course: 'from south to north', low: 'south end', between: 'between', high: 'north end' },
};

/**
 * Where the steel lies.
 * @type {Record<SectionName, string>}
 */
export const STEEL_OF_SECTION = { low: 'top', between: 'bottom', high: 'top' };

export const PART_NAMES = { total: 'total', column: 'column strip', middle: 'middle strip', beam: 'beam', slab: 'slab of column strip' };

/** @param {Way} way @param {SectionName} section */
export function sectionName(way, section) {
    return FRAME_WORDS[way][section];
}

/** @param {Floor} floor @param {Way} way @param {number} line */
export function frameName(floor, way, line) {
    const [first, last] = FRAME_WORDS[way].edges;
    const edge = line === 0 ? `, ${first}` : line === linesOf(floor, way) - 1 ? `, ${last}` : '';
    return `${way} line ${line}${edge}`;
}

/** @param {Way} way */
export function courseOf(way) {
    return FRAME_WORDS[way].course;
}

/**
 * A frame has its supports where the lines of the other direction cross it.
 * @param {Way} way @param {number} support
 */
export function supportName(way, support) {
    return `${across(way)} line ${support}`;
}
