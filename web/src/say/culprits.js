// What a refusal 5, 6 or 7 is about, by the library's answers: it is asked about a floor of the same bays with nothing amiss but the one record in
// question. The lines are those of `slab check`.

import { bytesOf, floorOf, readRecord, RECORD_BYTES } from '../floor.js';
import { sayRange, sayRecord, sayRefusal } from './refusals.js';

/** @typedef {import('../floor.js').Floor} Floor */
/** @typedef {import('../floor.js').Pair} Pair */
/** @typedef {import('../library.js').Library} Library */
/** @typedef {import('./words.js').Words} Words */

/** More lines say nothing new. */
const MOST_CULPRITS = 12;

/**
 * Accepted, whatever the bays: the longest spans, the smallest columns, no beams.
 * @param {Floor} floor @param {Pair} beam on every line
 * @returns {Floor}
 */
function mildFloor({ spans, beams, offsets }, beam = [0, 0]) {
    const longest = (/** @type {number[]} */ lengths) => lengths.map(() => 12000);
    return {
        t: 90, fc: 20, fy: 280, dead: 1000, live: 0, cx: 200, cy: 200, sides: 0,
        spans: { x: longest(spans.x), y: longest(spans.y) },
        beams: { x: beams.x.map(() => beam), y: beams.y.map(() => beam) },
        offsets: offsets.map(() => [0, 0]),
    };
}

/**
 * The records of a floor for which `base`, with that record alone put in, is refused with this number.
 * @param {Library} library @param {Floor} base @param {Uint8Array} bytes @param {number} number
 */
function recordsAlone(library, base, bytes, number) {
    const records = Array.from({ length: bytes.length / RECORD_BYTES }, (_, place) => bytes.slice(RECORD_BYTES * place, RECORD_BYTES * (place + 1)));
    const mild = bytesOf(base);
    return records.filter((record, place) => {
        const asked = mild.slice();
        asked.set(record, RECORD_BYTES * place);
        return library.clear(asked).refusal === number;
    });
}

/** @param {Floor} floor */
function beamedLines(floor) {
    const along = [floor.beams.x, floor.beams.y].map((beams) => {
        const numbers = beams.flatMap(([width, depth], line) => (width === 0 && depth === 0 ? [] : [line]));
        return numbers.length === 0 ? 'none' : `${numbers.join(' ')} of 0 to ${beams.length - 1}`;
    });
    return `beams on x lines ${along[0]}, on y lines ${along[1]}`;
}

/**
 * Every beam that is not deeper than the slab is thick, and the layout where it is not allowed.
 * @param {Library} library @param {Floor} floor @param {Uint8Array} bytes
 */
function beamCulprits(library, floor, bytes) {
    const deep = { ...mildFloor(floor, [150, 1500]), t: floor.t };
    // A line without a beam is a matter of the layout.
    const shallow = recordsAlone(library, deep, bytes, 7).filter((record) => readRecord(record).fields.some((field) => field !== 0));
    const lines = shallow.map((record) => `${sayRecord(floor, record)}: slab ${floor.t}`);
    // Every beam is deeper than 90, so that the layout alone is left to refuse.
    const layout = library.clear(bytesOf({ ...floor, t: 90 })).refusal === 7;
    return layout ? [...lines, beamedLines(floor)] : lines;
}

/**
 * A line for each thing that the refusal is about; none where the number is another, or the bytes are not laid out as a floor.
 * @param {Library} library @param {Words} words @param {Uint8Array} bytes of a floor that is refused @param {number} refusal
 * @returns {string[]}
 */
function sayCulprits(library, words, bytes, refusal) {
    const floor = floorOf(bytes);
    if (floor === null) {
        return [];
    }
    switch (refusal) {
        case 5:
            return recordsAlone(library, mildFloor(floor), bytes, 5).map((record) => sayRange(words, floor, record));
        case 6:
            return recordsAlone(library, { ...mildFloor(floor), cx: floor.cx, cy: floor.cy }, bytes, 6)
                .map((record) => `${sayRecord(floor, record)}: columns ${floor.cx} ${floor.cy}`);
        case 7:
            return beamCulprits(library, floor, bytes);
        default:
            return [];
    }
}

/**
 * The reason of a refusal, and a line for each thing that it is about.
 * @param {Library} library @param {Words} words @param {Uint8Array} bytes of the floor that is refused @param {number} refusal
 */
export function sayWhy(library, words, bytes, refusal) {
    const culprits = sayCulprits(library, words, bytes, refusal);
    const said = culprits.slice(0, MOST_CULPRITS);
    const more = culprits.length - said.length;
    return [sayRefusal(words, refusal), ...said, ...(more === 0 ? [] : [`and ${more} more`])];
}
