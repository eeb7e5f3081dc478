// The lines that every text has once.

import { readSides, writtenSides } from './sides.js';

/** @typedef {import('../floor.js').Floor} Floor */
/** @typedef {import('./reader.js').LineReader} LineReader */

/**
 * A line that every text has once: the words that it begins with, how its numbers are read, what it says of a floor after those words, and what a
 * written text notes beside it.
 * @typedef {{key: string, read: (reader: LineReader) => number[], says: (floor: Floor) => (number | string)[], example: string, note: string}} Form
 */

/**
 * One number for each of these.
 * @param {string[]} whats
 * @returns {Form['read']}
 */
function oneEach(...whats) {
    return (reader) => whats.map((what) => reader.number(what));
}

/**
 * As many as there are.
 * @param {string} what
 * @returns {Form['read']}
 */
function asMany(what) {
    return (reader) => reader.numbers(what);
}

/**
 * In the order in which they are written.
 * @type {Form[]}
 */
export const TEXT_FORMS = [
    {
        key: 'slab',
        read: oneEach('the slab\'s thickness in mm'),
        says: (floor) => [floor.t],
        example: 'slab 200',
        note: 'thickness',
    },
    {
        key: 'concrete',
        read: oneEach('the concrete\'s fc in MPa'),
        says: (floor) => [floor.fc],
        example: 'concrete 30',
        note: 'fc',
    },
    {
        key: 'steel',
        read: oneEach('the steel\'s fy in MPa'),
        says: (floor) => [floor.fy],
        example: 'steel 420',
        note: 'fy',
    },
    {
        key: 'dead',
        read: oneEach('the dead load in N/m2'),
        says: (floor) => [floor.dead],
        example: 'dead 7200',
        note: 'slab included',
    },
    {
        key: 'live',
        read: oneEach('the live load in N/m2'),
        says: (floor) => [floor.live],
        example: 'live 5000',
        note: '',
    },
    {
        key: 'columns',
        read: oneEach('the columns\' size along x in mm', 'the columns\' size along y in mm'),
        says: (floor) => [floor.cx, floor.cy],
        example: 'columns 600 500',
        note: 'along x, along y',
    },
    {
        key: 'sides',
        read: (reader) => [readSides(reader)],
        says: (floor) => [writtenSides(floor.sides)],
        example: 'sides west columns, east columns, south unrestrained, north restrained',
        note: '',
    },
    {
        key: 'x spans',
        read: asMany('an x span in mm'),
        says: (floor) => floor.spans.x,
        example: 'x spans 6600 7200 6600',
        note: '',
    },
    {
        key: 'y spans',
        read: asMany('a y span in mm'),
        says: (floor) => floor.spans.y,
        example: 'y spans 6000 7000 6400',
        note: '',
    },
];
