// The seven calls of include/gandhrumil.h, made in the proved module, as functions of typed arrays. Every call takes any bytes, lengths and numbers.

/** @typedef {{refusal: number, value: number}} Answer */

/** Numbers enough for the table, the governing moments and the places of any floor, and bytes enough for its schedule. */
export const TABLE_LEN = 16 * 2 * 13 * 12;
export const GOVERNING_LEN = 5 * 2 * 13 * 13;
export const PLACES_LEN = 3172;
export const SCHEDULE_LEN = 59904;

const PAGE_BYTES = 65536;

/** Numbers must start at a multiple of 4; so many bytes are also left free between two buffers. */
const GAP_BYTES = 16;

/** @param {bigint} answer two numbers of 32 bits, the refusal below. @returns {Answer} */
function answerOf(answer) {
    return { refusal: Number(BigInt.asUintN(32, answer)), value: Number(BigInt.asUintN(32, answer >> 32n)) };
}

export class Library {
    /** @param {WebAssembly.Instance} instance */
    constructor(instance) {
        /** @type {Record<string, any>} */
        this.exports = instance.exports;
    }

    /** @param {BufferSource} module */
    static async of(module) {
        const { instance } = await WebAssembly.instantiate(module, {});
        return new this(instance);
    }

    /**
     * Copies the arrays into the module's memory, makes the call with the address and length of each and then the numbers, and copies them back.
     * @param {string} name
     * @param {(Uint8Array | Uint32Array)[]} lent
     * @param {(number | bigint)[]} numbers
     */
    call(name, lent, numbers = []) {
        const starts = this.place(lent);
        const memory = new Uint8Array(this.exports.memory.buffer);
        lent.forEach((array, which) => memory.set(bytesUnder(array), starts[which]));
        const words = lent.flatMap((array, which) => [starts[which], BigInt(array.length)]);
        const answer = this.exports[`gandhrumil_${name}`](...words, ...numbers.map((number) => BigInt.asUintN(64, BigInt(number))));
        lent.forEach((array, which) => bytesUnder(array).set(memory.subarray(starts[which], starts[which] + array.byteLength)));
        return answerOf(answer);
    }

    /**
     * Where each array goes: one after the other above the module's own memory, which grows where it is too small.
     * @param {(Uint8Array | Uint32Array)[]} lent
     */
    place(lent) {
        let end = this.exports.__heap_base.value;
        const starts = lent.map((array) => {
            const start = Math.ceil((end + GAP_BYTES) / GAP_BYTES) * GAP_BYTES;
            end = start + array.byteLength;
            return start;
        });
        const short = end + GAP_BYTES - this.exports.memory.buffer.byteLength;
        if (short > 0) {
            this.exports.memory.grow(Math.ceil(short / PAGE_BYTES));
        }
        return starts;
    }

    /** @param {Uint8Array} floor @param {Uint32Array} table @param {Uint32Array} governing */
    open(floor, table, governing) {
        return this.call('open', [floor, table, governing]);
    }

    /** @param {Uint8Array} floor @param {Uint32Array} table @param {Uint32Array} governing @param {Uint8Array} change */
    change(floor, table, governing, change) {
        return this.call('change', [floor, table, governing, change]);
    }

    /** @param {Uint8Array} floor @param {number | bigint} x @param {number | bigint} y */
    panel(floor, x, y) {
        return this.call('panel', [floor], [x, y]);
    }

    /** @param {Uint8Array} floor */
    clear(floor) {
        return this.call('clear', [floor]);
    }

    /** @param {Uint8Array} floor @param {Uint32Array} places */
    places(floor, places) {
        return this.call('places', [floor, places]);
    }

    /** @param {Uint8Array} floor @param {Uint8Array} schedule */
    schedule(floor, schedule) {
        return this.call('schedule', [floor, schedule]);
    }

    /** @param {Record<'m' | 'b' | 't' | 'd' | 'fc' | 'fy', number | bigint>} query */
    steel({ m, b, t, d, fc, fy }) {
        return this.call('steel', [], [m, b, t, d, fc, fy]);
    }
}

/** @param {Uint8Array | Uint32Array} array */
function bytesUnder(array) {
    return new Uint8Array(array.buffer, array.byteOffset, array.byteLength);
}
