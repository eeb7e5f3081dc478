// A drawing that is said anew at every step and touches only what differs, so that a step is quick and what has the focus or the pointer keeps it.

import { drawn } from './dom.js';

/** @typedef {import('./dom.js').Attributes} Attributes */
/** @typedef {{node: SVGElement, attributes: Attributes, text: string, turn: number}} Kept */

/**
 * A tenth of a pixel is as fine as a screen shows.
 * @param {number} position
 */
export function pixel(position) {
    return Math.round(10 * position) / 10;
}

export class Drawing {
    constructor() {
        /** @type {Map<string, Kept>} */
        this.kept = new Map();
        this.turn = 0;
    }

    /**
     * What `say` does not name is taken away.
     * @param {() => void} say
     */
    draw(say) {
        this.turn += 1;
        say();
        for (const [key, { node, turn }] of this.kept) {
            if (turn !== this.turn) {
                node.remove();
                this.kept.delete(key);
            }
        }
    }

    /**
     * @param {string} key of its own @param {SVGElement} parent @param {keyof SVGElementTagNameMap} tag
     * @param {Attributes} attributes the same names each time @param {string} text
     */
    put(key, parent, tag, attributes, text = '') {
        const kept = this.kept.get(key) ?? this.make(key, parent, tag);
        kept.turn = this.turn;
        for (const name in attributes) {
            const value = attributes[name];
            if (kept.attributes[name] !== value) {
                kept.attributes[name] = value;
                kept.node.setAttribute(name, String(value));
            }
        }
        if (kept.text !== text) {
            kept.text = text;
            kept.node.textContent = text;
        }
        return kept.node;
    }

    /** @param {string} key @param {SVGElement} parent @param {keyof SVGElementTagNameMap} tag */
    make(key, parent, tag) {
        const node = drawn(tag);
        parent.append(node);
        /** @type {Kept} */
        const kept = { node, attributes: {}, text: '', turn: this.turn };
        this.kept.set(key, kept);
        return kept;
    }
}
