// The seven calls made as frames ask for them, one frame in, one out.

import { Frames } from './frames.js';

/** @typedef {import('../src/library.js').Library} Library */
/** @typedef {import('../src/library.js').Answer} Answer */
/** @typedef {import('./frames.js').Frame} Frame */

/**
 * By the numbers of `Call` in host/differ/src/page/frame.rs.
 * @type {Record<number, (library: Library, frame: Frame) => Answer>}
 */
const CALLS = {
    1: (library, { floor, slices: [table, governing] }) => library.open(floor, table, governing),
    2: (library, { floor, slices: [table, governing], bytes }) => library.change(floor, table, governing, bytes),
    3: (library, { floor, numbers: [x, y] }) => library.panel(floor, x, y),
    4: (library, { floor }) => library.clear(floor),
    5: (library, { floor, slices: [places] }) => library.places(floor, places),
    6: (library, { numbers: [m, b, t, d, fc, fy] }) => library.steel({ m, b, t, d, fc, fy }),
    7: (library, { floor, bytes }) => library.schedule(floor, bytes),
};

/** @param {Library} library @param {Frames} frames */
export function answerCalls(library, frames = new Frames()) {
    for (let frame = frames.next(); frame !== null; frame = frames.next()) {
        frames.answer(CALLS[frame.call](library, frame));
    }
}
