// What the proved library says of a floor. A floor and what was said of it stand together and are never changed: a change makes new ones.

import { floorOf } from './floor.js';
import { GOVERNING_LEN, PLACES_LEN, TABLE_LEN } from './library.js';
import { scheduleOf } from './schedule.js';

/** @typedef {import('./floor.js').Floor} Floor */
/** @typedef {import('./floor.js').Way} Way */
/** @typedef {import('./library.js').Library} Library */
/** @typedef {import('./schedule.js').Schedule} Schedule */
/**
 * Where a limit is broken; the header says what way, i and j are for each limit.
 * @typedef {{limit: number, way: Way, i: number, j: number}} Place
 */
/**
 * The refusal's number, and of several changes which one.
 * @typedef {{refusal: number, position: number}} Refused
 */
/**
 * `least[j][i]` is the least thickness of the panel of x bay i and y bay j.
 * @typedef {{bytes: Uint8Array, floor: Floor, verdict: number, places: Place[], least: number[][], table: Uint32Array, governing: Uint32Array,
 *     schedule: Schedule}} Judged
 */

/** @param {Library} library @param {Uint8Array} bytes @returns {Judged | Refused} */
export function opened(library, bytes) {
    const table = new Uint32Array(TABLE_LEN);
    const governing = new Uint32Array(GOVERNING_LEN);
    const { refusal, value } = library.open(bytes, table, governing);
    return refusal === 0 ? judgedOf(library, bytes, value, table, governing) : { refusal, position: 0 };
}

/**
 * The changes in their order, all taken or none.
 * @param {Library} library @param {Judged} judged @param {Uint8Array[]} records at least one
 * @returns {Judged | Refused}
 */
export function changed(library, judged, records) {
    const bytes = judged.bytes.slice();
    const table = judged.table.slice();
    const governing = judged.governing.slice();
    let verdict = judged.verdict;
    for (const [position, record] of records.entries()) {
        const { refusal, value } = library.change(bytes, table, governing, record);
        if (refusal !== 0) {
            return { refusal, position };
        }
        verdict = value;
    }
    return judgedOf(library, bytes, verdict, table, governing);
}

/**
 * @param {Library} library @param {Uint8Array} bytes of a floor that is accepted @param {number} verdict
 * @param {Uint32Array} table @param {Uint32Array} governing
 * @returns {Judged}
 */
function judgedOf(library, bytes, verdict, table, governing) {
    const floor = floorOf(bytes);
    if (floor === null) {
        throw new Error('an accepted floor is laid out as 01 lists it');
    }
    const least = floor.spans.y.map((_, j) => floor.spans.x.map((_, i) => library.panel(bytes, i, j).value));
    return { bytes, floor, verdict, places: placesOf(library, bytes), least, table, governing, schedule: scheduleOf(library, bytes) };
}

/** @param {Library} library @param {Uint8Array} bytes @returns {Place[]} */
function placesOf(library, bytes) {
    const lent = new Uint32Array(PLACES_LEN);
    const count = library.places(bytes, lent).value;
    return Array.from({ length: count }, (_, place) => {
        const [limit, way, i, j] = lent.subarray(4 * place, 4 * place + 4);
        return { limit, way: way === 0 ? 'x' : 'y', i, j };
    });
}

/**
 * The one of i and j that counts along the place's direction.
 * @param {Place} place
 */
export function countAlong({ way, i, j }) {
    return way === 'x' ? i : j;
}
