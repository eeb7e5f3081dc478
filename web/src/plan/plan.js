// The plan: drawn to scale, north up, with what is broken marked where the library says that it is.

import { drawColumns } from './columns.js';
import { drawLines } from './lines.js';
import { keysOf } from './marks.js';
import { drawPanels } from './panels.js';
import { Board, Paper } from './paper.js';
import { Scale } from './scale.js';
import { drawSides } from './sides.js';
import { drawSpans } from './spans.js';

/** @typedef {import('../judge.js').Judged} Judged */
/** @typedef {import('../judge.js').Place} Place */

export class PlanView {
    /** @param {SVGSVGElement} svg @param {() => void} onSize the plan has another size and is to be shown anew */
    constructor(svg, onSize) {
        this.svg = svg;
        this.board = new Board(svg);
        // Asked once: to ask at every step would make the browser lay out the whole page before the step is drawn.
        this.size = svg.getBoundingClientRect();
        new ResizeObserver(([{ contentRect }]) => {
            this.size = contentRect;
            onSize();
        }).observe(svg);
        /** @type {Scale | null} */
        this.scale = null;
        /** While a line is in hand the scale stays, or the line would run away from the pointer. */
        this.steady = false;
    }

    /** @param {Judged} judged @param {string} picked @param {Place[]} pointed */
    show(judged, picked, pointed) {
        if (this.scale === null || !this.steady) {
            this.scale = new Scale(judged.floor, this.size.width, this.size.height);
        }
        const keys = (/** @type {Place[]} */ places) => new Set(places.flatMap((place) => keysOf(place, judged.floor.spans)));
        const paper = new Paper(this.board, judged, this.scale, { broken: keys(judged.places), picked, pointed: keys(pointed) });
        this.board.drawing.draw(() => {
            for (const part of [drawPanels, drawSides, drawLines, drawColumns, drawSpans]) {
                part(paper);
            }
        });
    }

    /** Whether some number has no room. */
    isCrowded() {
        return this.svg.querySelector('text.crowded') !== null;
    }

    focusPicked() {
        const picked = this.svg.querySelector('g.picked');
        if (picked instanceof SVGElement) {
            picked.focus();
        }
    }

    factor() {
        return this.scale === null ? 1 : this.scale.factor;
    }
}
