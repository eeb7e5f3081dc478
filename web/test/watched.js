// The page's library, watched: after each call no byte of the module's memory is other than before, except in what was lent and in the stack.

import { Library } from '../src/library.js';

/** GANDHRUMIL_STACK of include/gandhrumil.h. */
export const STACK_BYTES = 32768;

export class Watched extends Library {
    /** @param {WebAssembly.Instance} instance */
    constructor(instance) {
        super(instance);
        const stackEnd = this.exports.__stack_pointer.value;
        this.stack = { start: stackEnd - STACK_BYTES, end: stackEnd };
        this.memory = Buffer.alloc(0);
        /** What the memory holds between two calls. */
        this.kept = Buffer.alloc(0);
        /** @type {{start: number, end: number}[]} where what is lent lies, above the stack and rising */
        this.lent = [];
        this.keep();
    }

    /** @param {(Uint8Array | Uint32Array)[]} lent */
    place(lent) {
        const starts = super.place(lent);
        this.keep();
        this.lent = lent.map((array, which) => ({ start: starts[which], end: starts[which] + array.byteLength }));
        return starts;
    }

    /** @param {string} name @param {(Uint8Array | Uint32Array)[]} lent @param {(number | bigint)[]} [numbers] */
    call(name, lent, numbers) {
        const answer = super.call(name, lent, numbers);
        this.look(name);
        for (const { start, end } of this.lent) {
            this.kept.copy(this.memory, start, start, end);
        }
        return answer;
    }

    /** Memory that is new above the module's own gets any numbers: a stray 0 would not show among zeros. */
    keep() {
        const { buffer } = this.exports.memory;
        if (buffer === this.memory.buffer) {
            return;
        }
        this.memory = Buffer.from(buffer);
        let any = 1;
        for (let at = Math.max(this.exports.__heap_base.value, this.kept.length); at < this.memory.length; at++) {
            any = (Math.imul(any, 1664525) + 1013904223) >>> 0;
            this.memory[at] = any >>> 24;
        }
        this.kept = Buffer.from(this.memory);
    }

    /** @param {string} name */
    look(name) {
        let from = 0;
        for (const { start, end } of [this.stack, ...this.lent, { start: this.memory.length, end: 0 }]) {
            if (from > start) {
                throw new Error(`gandhrumil_${name}: what is lent overlaps at ${start}`);
            }
            if (this.memory.compare(this.kept, from, start, from, start) !== 0) {
                throw new Error(`gandhrumil_${name} writes at ${this.firstOther(from)}, which is not lent: lent are ${this.lentInWords()}`);
            }
            from = end;
        }
    }

    /** @param {number} from */
    firstOther(from) {
        let at = from;
        while (this.memory[at] === this.kept[at]) {
            at++;
        }
        return at;
    }

    lentInWords() {
        return this.lent.map(({ start, end }) => `${start} to ${end}`).join(', ') || 'none';
    }
}
