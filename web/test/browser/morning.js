// Floors and changes drawn from a seed, with what the independent implementation says of each (`cargo cases morning`).

import { cases } from './page.js';

/** @typedef {{bytes: Uint8Array, refusal: number, verdict: number, table: string, governing: string}} Step */

/** @param {string} digits */
function bytesOfHex(digits) {
    return Uint8Array.from(Buffer.from(digits, 'hex'));
}

/** @param {string[]} lines three of them @returns {Step} */
function stepOf([said, table, governing]) {
    const [, digits, refusal, verdict] = said.split(' ');
    return {
        bytes: bytesOfHex(digits),
        refusal: Number(refusal),
        verdict: Number(verdict),
        table: table.replace('table ', ''),
        governing: governing.replace('governing ', ''),
    };
}

/**
 * The floor, the changes one after the other, and the bytes that they leave.
 * @param {number} seed @param {number} count
 */
export function morning(seed, count) {
    const lines = cases(['morning', String(seed), String(count)]).trimEnd().split('\n');
    const steps = Array.from({ length: count + 1 }, (_, step) => stepOf(lines.slice(3 * step, 3 * step + 3)));
    const left = bytesOfHex(lines[3 * (count + 1)].replace('left ', ''));
    return { floor: steps[0], changes: steps.slice(1), left };
}
