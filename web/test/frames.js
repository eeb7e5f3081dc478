// Calls as bytes on standard input, answers as bytes on standard output; little-endian. host/differ/src/page/frame.rs is the other end.

import { readSync, writeSync } from 'node:fs';

/**
 * `slices` are the table and the governing slice, or the slice for places; `bytes` the change, or the buffer for the schedule; `numbers` the panel's
 * bays, or the steel query.
 * @typedef {{call: number, slices: Uint32Array[], floor: Uint8Array, bytes: Uint8Array, numbers: BigUint64Array}} Frame
 */

/** Six numbers of 32 bits (which frame it is, the call, four lengths), then six of 64. */
const HEAD_BYTES = 72;
const PLAIN_AT = 24;

/** The answer's head takes the end of the frame's, so that what was lent follows it where it is: one piece is read, and one written. */
const ANSWER_AT = 56;

export class Frames {
    constructor() {
        /** Room for the longest frame of a floor; what is longer than any floor makes it grow. */
        this.bytes = new Uint8Array(65536);
        this.filled = 0;
        this.number = 0;
    }

    /** @returns {Frame | null} whose arrays are the very bytes that `answer` writes; null where the input has ended */
    next() {
        this.filled = 0;
        if (!this.fill(HEAD_BYTES)) {
            return null;
        }
        const [number, call, ...lengths] = new Uint32Array(this.bytes.buffer, 0, 6);
        const [first, second, floor, bytes] = lengths;
        const secondAt = HEAD_BYTES + 4 * first;
        const floorAt = secondAt + 4 * second;
        const bytesAt = floorAt + floor;
        this.fill(bytesAt + bytes);
        this.number = number;
        const { buffer } = this.bytes;
        return {
            call,
            slices: [new Uint32Array(buffer, HEAD_BYTES, first), new Uint32Array(buffer, secondAt, second)],
            floor: new Uint8Array(buffer, floorAt, floor),
            bytes: new Uint8Array(buffer, bytesAt, bytes),
            numbers: new BigUint64Array(buffer, PLAIN_AT, 6),
        };
    }

    /** @param {{refusal: number, value: number}} answer */
    answer({ refusal, value }) {
        new Uint32Array(this.bytes.buffer, ANSWER_AT, 4).set([this.number, this.filled - HEAD_BYTES, refusal, value]);
        for (let written = ANSWER_AT; written < this.filled;) {
            written += writeSync(1, this.bytes, written, this.filled - written);
        }
    }

    /** @param {number} length @returns {boolean} false where the input has ended before the frame */
    fill(length) {
        if (length > this.bytes.length) {
            const grown = new Uint8Array(2 * length);
            grown.set(this.bytes.subarray(0, this.filled));
            this.bytes = grown;
        }
        while (this.filled < length) {
            const read = readSync(0, this.bytes, this.filled, this.bytes.length - this.filled, null);
            if (read === 0 && this.filled > 0) {
                throw new Error('the input ends within a frame');
            }
            if (read === 0) {
                return false;
            }
            this.filled += read;
        }
        return true;
    }
}
