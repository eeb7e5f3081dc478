// What lies on the designer's desk: one accepted floor with what the library says of it, its name, and the way back. A refusal leaves all as it was.

import { changed, opened } from './judge.js';

/** @typedef {import('./judge.js').Judged} Judged */
/** @typedef {import('./judge.js').Refused} Refused */
/** @typedef {import('./library.js').Library} Library */
/** @typedef {{bytes: Uint8Array, name: string}} Sheaf */

export class Desk {
    /** @param {Library} library @param {Uint8Array} bytes of a floor that is accepted @param {string} name */
    constructor(library, bytes, name) {
        const judged = opened(library, bytes);
        if ('refusal' in judged) {
            throw new Error(`the first floor is refused ${judged.refusal}`);
        }
        this.library = library;
        /** @type {Judged} */
        this.held = judged;
        this.name = oneLine(name);
        /** @type {Sheaf[]} */
        this.past = [];
        /** @type {Sheaf[]} */
        this.future = [];
        /**
         * What the last step took from the future.
         * @type {Sheaf[]}
         */
        this.dropped = [];
        /**
         * The drag that is under way: all of its steps are one step back.
         * @type {object | null}
         */
        this.gesture = null;
        /** @type {() => void} */
        this.onChange = () => {};
    }

    /** @param {Uint8Array} bytes @returns {Refused | null} */
    open(bytes, name = this.name) {
        return this.settle(opened(this.library, bytes), name, null);
    }

    /**
     * Changes, all taken or none.
     * @param {Uint8Array[]} records @param {object | null} gesture @returns {Refused | null}
     */
    take(records, gesture = null) {
        return this.settle(changed(this.library, this.held, records), this.name, gesture);
    }

    /** @param {Judged | Refused} answer @param {string} name @param {object | null} gesture */
    settle(answer, name, gesture) {
        if ('refusal' in answer) {
            return answer;
        }
        if (gesture === null || gesture !== this.gesture) {
            this.past.push(this.sheaf());
            this.dropped = this.future;
        }
        this.gesture = gesture;
        this.future = [];
        this.lay(answer, name);
        return null;
    }

    /** A drag that ends where it began is no step, and what could be done again before it still can. */
    endGesture() {
        const before = this.past.at(-1);
        if (this.gesture !== null && before !== undefined && sameBytes(before.bytes, this.held.bytes)) {
            this.past.pop();
            this.future = this.dropped;
            this.onChange();
        }
        this.gesture = null;
    }

    undo() {
        this.move(this.past, this.future);
    }

    redo() {
        this.move(this.future, this.past);
    }

    /** @param {Sheaf[]} from @param {Sheaf[]} to */
    move(from, to) {
        const sheaf = from.pop();
        if (sheaf === undefined) {
            return;
        }
        const judged = opened(this.library, sheaf.bytes);
        if ('refusal' in judged) {
            throw new Error(`a floor that was accepted is refused ${judged.refusal}`);
        }
        to.push(this.sheaf());
        this.gesture = null;
        this.lay(judged, sheaf.name);
    }

    /** @param {Judged} judged @param {string} name */
    lay(judged, name) {
        this.held = judged;
        this.name = oneLine(name);
        this.onChange();
    }

    /** @returns {Sheaf} */
    sheaf() {
        return { bytes: this.held.bytes, name: this.name };
    }
}

/**
 * So that no name looks like a line of the sheet.
 * @param {string} name
 */
function oneLine(name) {
    return name.replace(/\p{Cc}/gu, ' ');
}

/** @param {Uint8Array} one @param {Uint8Array} other */
function sameBytes(one, other) {
    return one.length === other.length && one.every((byte, at) => byte === other[at]);
}
