// A text into the floor that it says.

import { TEXT_FORMS } from './forms.js';
import { placeBeams, placeOffsets } from './given.js';
import { MOST_TEXT_BYTES } from './input.js';
import { saidOnLine } from './line.js';

/** @typedef {import('../floor.js').Floor} Floor */
/** @typedef {import('./faults.js').Fault} Fault */
/** @typedef {import('./given.js').GivenBeam} GivenBeam */
/** @typedef {import('./given.js').GivenOffset} GivenOffset */
/** @typedef {import('./line.js').SaidOnce} SaidOnce */

// A record's index has two bytes, and no kind has more records than there are columns.
const MOST_COLUMNS = 1 << 16;

const NEWLINE = '\n'.charCodeAt(0);
const BYTE_ORDER_MARK = [0xef, 0xbb, 0xbf];

/**
 * The floor that a text says, or every fault by rising line, as `slab make` reads it.
 * @param {Uint8Array} bytes
 * @returns {{floor: Floor} | {faults: Fault[]}}
 */
export function readText(bytes) {
    if (bytes.length > MOST_TEXT_BYTES) {
        return { faults: [{ line: 0, words: `has ${bytes.length} bytes: expected a text of at most ${MOST_TEXT_BYTES}` }] };
    }
    const draft = new TextDraft();
    for (const line of linesOfText(bytes)) {
        draft.take(line);
    }
    draft.nameMissing();
    const floor = draft.floor();
    const faults = draft.faults.sort((one, other) => one.line - other.line);
    return floor !== null && faults.length === 0 ? { floor } : { faults };
}

/**
 * Without a byte order mark, and without an empty line after the last newline.
 * @param {Uint8Array} bytes
 */
function* linesOfText(bytes) {
    const marked = BYTE_ORDER_MARK.every((byte, at) => bytes[at] === byte);
    const unmarked = marked ? bytes.subarray(BYTE_ORDER_MARK.length) : bytes;
    const text = unmarked.at(-1) === NEWLINE ? unmarked.subarray(0, -1) : unmarked;
    let start = 0;
    for (let end = text.indexOf(NEWLINE); end !== -1; end = text.indexOf(NEWLINE, start)) {
        yield text.subarray(start, end);
        start = end + 1;
    }
    yield text.subarray(start);
}

/** What the lines of a text say, put together. */
class TextDraft {
    constructor() {
        /** How many lines have been read. */
        this.lines = 0;
        /**
         * Of each form the line that has it and its numbers, null where they could not be read.
         * @type {{line: number, numbers: number[] | null}[]}
         */
        this.once = [];
        /** @type {GivenBeam[]} */
        this.beams = [];
        /** @type {GivenOffset[]} */
        this.offsets = [];
        /** @type {Fault[]} */
        this.faults = [];
    }

    /** @param {Uint8Array} bytes */
    take(bytes) {
        this.lines += 1;
        const line = this.lines;
        const { said, fault } = saidOnLine(bytes);
        if (said !== null && 'form' in said) {
            this.takeOnce(said, fault);
        } else if (fault !== '') {
            this.faults.push({ line, words: fault });
        } else if (said !== null && 'column' in said) {
            this.offsets.push({ ...said, line });
        } else if (said !== null) {
            this.beams.push({ ...said, line });
        }
    }

    /** @param {SaidOnce} said @param {string} fault */
    takeOnce({ form, numbers }, fault) {
        const first = this.once[form];
        const words = first ? `expected \`${TEXT_FORMS[form].key}\` once, and line ${first.line} has it already` : fault;
        this.once[form] ??= { line: this.lines, numbers: fault === '' ? numbers : null };
        if (words !== '') {
            this.faults.push({ line: this.lines, words });
        }
    }

    nameMissing() {
        const missing = TEXT_FORMS.filter((_, form) => this.once[form] === undefined);
        for (const { key, example } of missing) {
            this.faults.push({ line: this.lines, words: `expected \`${key}\` before the text ends; for example \`${example}\`` });
        }
    }

    /**
     * Null where there are no spans to place things by, or something else is missing; a fault has said so.
     * @returns {Floor | null}
     */
    floor() {
        const numbers = TEXT_FORMS.map((_, form) => this.once[form]?.numbers ?? null);
        const [x, y] = numbers.slice(-2);
        if (x === null || y === null) {
            return null;
        }
        const [nx, ny] = [x.length, y.length];
        if ((nx + 1) * (ny + 1) > MOST_COLUMNS) {
            this.nameCrowd(nx, ny);
            return null;
        }
        const { beams, faults } = placeBeams(this.beams, { x: ny + 1, y: nx + 1 });
        const { offsets, faults: faultsOfOffsets } = placeOffsets(this.offsets, nx, ny);
        this.faults = [...this.faults, ...faults, ...faultsOfOffsets];
        const few = numbers.slice(0, -2);
        if (few.includes(null)) {
            return null;
        }
        const [t, fc, fy, dead, live, cx, cy, sides] = few.flatMap((read) => read ?? []);
        return { t, fc, fy, dead, live, cx, cy, sides, spans: { x, y }, beams, offsets };
    }

    /** @param {number} nx @param {number} ny */
    nameCrowd(nx, ny) {
        const words = `expected at most ${MOST_COLUMNS} columns, which a floor file has room for, found ${nx} x spans and ${ny} y spans`;
        const { line } = this.once[TEXT_FORMS.length - (nx > ny ? 2 : 1)];
        this.faults.push({ line, words });
    }
}
