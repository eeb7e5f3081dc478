// What one line of a text says.

import { TEXT_FORMS } from './forms.js';
import { readBeamLines } from './lines.js';
import { LineReader } from './reader.js';

/** @typedef {import('./lines.js').BeamLines} BeamLines */
/** @typedef {import('../floor.js').Pair} Pair */
/** @typedef {{form: number, numbers: number[]}} SaidOnce which of the forms, with its numbers */
/** @typedef {{beamOn: BeamLines, pair: Pair}} SaidBeam width and depth */
/** @typedef {{column: Pair, pair: Pair}} SaidOffset of the column on y line and x line: along x, along y */
/** @typedef {SaidOnce | SaidBeam | SaidOffset | null} Said null where the line says nothing */

const HASH = '#'.charCodeAt(0);

const FORM_KEYS = TEXT_FORMS.map(({ key }) => key);

const LINE_BEGINS = `a line that begins with ${FORM_KEYS.join(', ')}, \
x line, y line, x lines, y lines, outer lines, inner lines, all lines or column`;

/**
 * What one line of a text says, and its fault's words, or nothing: what is said besides a fault cannot be used.
 * @param {Uint8Array} line
 * @returns {{said: Said, fault: string}}
 */
export function saidOnLine(line) {
    const comment = line.indexOf(HASH);
    const code = comment === -1 ? line : line.subarray(0, comment);
    if (code.length === 0) {
        return { said: null, fault: '' };
    }
    const reader = new LineReader(code);
    if (reader.isOver()) {
        return { said: null, fault: reader.fault };
    }
    const { said, example } = readLine(reader);
    return { said, fault: reader.fault && example ? `${reader.fault}; for example \`${example}\`` : reader.fault };
}

/** @param {LineReader} reader @returns {{said: Said, example: string}} */
function readLine(reader) {
    const form = reader.oneOf(FORM_KEYS);
    if (form !== -1) {
        const { read, example } = TEXT_FORMS[form];
        const numbers = read(reader);
        reader.end();
        return { said: { form, numbers }, example };
    }
    const beamOn = readBeamLines(reader);
    if (beamOn !== null) {
        const pair = readPair(reader, 'beam', ['the beam\'s width in mm', 'the beam\'s depth in mm']);
        return { said: { beamOn, pair }, example: 'x line 0 beam 400 700' };
    }
    if (reader.pass('column')) {
        return { said: readOffset(reader), example: 'column 2 0 offset 250 0' };
    }
    reader.expect(LINE_BEGINS);
    return { said: null, example: '' };
}

/** @param {LineReader} reader @returns {SaidOffset} */
function readOffset(reader) {
    const i = reader.number('the column\'s y line');
    const j = reader.number('the column\'s x line');
    const pair = readPair(reader, 'offset', ['the offset along x in mm', 'the offset along y in mm']);
    return { column: [i, j], pair };
}

/**
 * The key, two numbers, and the end of the line.
 * @param {LineReader} reader @param {string} key @param {[string, string]} whats
 * @returns {Pair}
 */
function readPair(reader, key, whats) {
    if (!reader.pass(key)) {
        reader.expect(`\`${key}\``);
    }
    /** @type {Pair} */
    const pair = [reader.number(whats[0]), reader.number(whats[1])];
    reader.end();
    return pair;
}
