// Floors that several tests lay on the desk.

import { bytesOf, floorOf } from '../../src/floor.js';
import { GARAGE, hex } from './page.js';

/**
 * The garage's bytes with other numbers.
 * @param {(floor: import('../../src/floor.js').Floor) => void} change
 */
export function garageWith(change) {
    const floor = floorOf(GARAGE);
    if (floor === null) {
        throw new Error('the garage is no floor');
    }
    change(floor);
    return hex(bytesOf(floor));
}

/**
 * Its bytes as an array.
 * @param {Parameters<typeof garageWith>[0]} change
 */
export function changedGarage(change) {
    return Uint8Array.from(Buffer.from(garageWith(change), 'hex'));
}

/** Clear, with more moment in a middle strip than any bar has a spacing for. */
export const HEAVY_FLOOR = changedGarage((floor) => Object.assign(floor, { dead: 30000, live: 50000 }));

/** Clear, with beams as wide as the column strips of the inside lines. */
export const WIDE_BEAMS = changedGarage((floor) => {
    /** @type {() => [number, number][]} */
    const beams = () => Array.from({ length: 4 }, () => [1000, 1000]);
    floor.spans = { x: [2000, 2000, 2000], y: [2000, 2000, 2000] };
    floor.beams = { x: beams(), y: beams() };
    floor.offsets = Array.from({ length: 16 }, () => [0, 0]);
});

/**
 * 12 by 12 bays with beams on every line: all of the table, all five curves of a frame.
 * @returns {Uint8Array}
 */
export function largest() {
    /** @type {() => [number, number][]} */
    const beams = () => Array.from({ length: 13 }, () => [400, 650]);
    /** @type {[number, number][]} */
    const offsets = Array.from({ length: 169 }, () => [0, 0]);
    return bytesOf({
        t: 200, fc: 30, fy: 420, dead: 7200, live: 5000, cx: 500, cy: 500, sides: 0,
        spans: { x: Array(12).fill(6000), y: Array(12).fill(6000) }, beams: { x: beams(), y: beams() }, offsets,
    });
}
