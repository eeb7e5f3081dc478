// What every part of the plan is drawn from, and with, at one step.

import { drawn } from '../dom.js';
import { Drawing } from '../drawing.js';
import { linesInMm } from './scale.js';

/** @typedef {import('../judge.js').Judged} Judged */
/** @typedef {import('./scale.js').Scale} Scale */

/** The parts of the plan, from the lowest up. */
const LAYERS = ['panels', 'sides', 'lines', 'columns', 'words', 'spans', 'outline'];

/** What stays from one step to the next. */
export class Board {
    /** @param {SVGSVGElement} svg */
    constructor(svg) {
        this.drawing = new Drawing();
        /** @type {Record<string, SVGElement>} */
        this.layers = {};
        for (const name of LAYERS) {
            this.layers[name] = drawn('g', { class: name });
            svg.append(this.layers[name]);
        }
    }
}

export class Paper {
    /**
     * @param {Board} board @param {Judged} judged @param {Scale} scale
     * @param {{broken: Set<string>, picked: string, pointed: Set<string>}} marked keys of what is broken, picked, and pointed at in the list
     */
    constructor(board, judged, scale, marked) {
        this.drawing = board.drawing;
        this.layers = board.layers;
        this.judged = judged;
        this.floor = judged.floor;
        this.scale = scale;
        this.marked = marked;
        this.mm = linesInMm(judged.floor);
        /** The lines on the screen: y lines from left to right, x lines from the bottom up. */
        this.at = { x: this.mm.x.map((mm) => scale.y(mm)), y: this.mm.y.map((mm) => scale.x(mm)) };
    }

    /** The edges of the floor on the screen. */
    edges() {
        const { x, y } = this.at;
        return { west: y[0], east: y[y.length - 1], south: x[0], north: x[x.length - 1] };
    }

    /**
     * Of panels, and of columns, the keyboard comes to one, and goes on from there by the arrow keys.
     * @param {'panel' | 'column'} sort @param {number} i @param {number} j @param {string} words
     */
    reached(sort, i, j, words) {
        const { picked } = this.marked;
        const first = picked.startsWith(sort) ? picked : `${sort} 0 0`;
        return { tabindex: first === `${sort} ${i} ${j}` ? 0 : -1, role: 'button', 'aria-label': words };
    }

    /** @param {string} name @param {string} key */
    classes(name, key) {
        const { broken, picked, pointed } = this.marked;
        return `${name}${broken.has(key) ? ' broken' : ''}${picked === key ? ' picked' : ''}${pointed.has(key) ? ' pointed' : ''}`;
    }
}
