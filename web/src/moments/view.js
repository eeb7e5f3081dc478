// The moments of one frame, picked from a list, drawn and as numbers. On a floor that is not clear none of it is in the page, nor kept for later.

import { element } from '../dom.js';
import { FrameDiagram } from './diagram.js';
import { frameOf } from './frame.js';
import { frameName } from './names.js';
import { FrameTables } from './numbers.js';
import { FramePick } from './pick.js';

/** @typedef {import('../floor.js').Way} Way */
/** @typedef {import('../judge.js').Judged} Judged */
/** @typedef {import('./frame.js').Frame} Frame */
/** @typedef {import('./pick.js').Picked} Picked */

const FIRST_WIDTH = 800;
const LEAST_WIDTH = 320;

export class FrameView {
    /** @param {HTMLElement} host @param {(way: Way, line: number) => void} onPick */
    constructor(host, onPick) {
        this.host = host;
        this.onPick = onPick;
        this.exact = false;
        this.width = FIRST_WIDTH;
        /** @type {FrameShown | null} */
        this.shown = null;
        new ResizeObserver(([{ contentRect }]) => this.resize(Math.floor(contentRect.width))).observe(host);
    }

    /** @param {Judged} judged @param {Picked} picked */
    show(judged, picked) {
        if (judged.verdict !== 0) {
            this.shown = null;
            this.host.replaceChildren(element('p', { class: 'no-moments' }, 'Moments stand only on a floor that is clear.'));
            return;
        }
        if (this.shown === null) {
            this.shown = new FrameShown(this.onPick, this.exact, (exact) => {
                this.exact = exact;
            });
            this.host.replaceChildren(...this.shown.elements);
        }
        this.shown.show(judged, picked, this.width);
    }

    /**
     * A view that is hidden has no width.
     * @param {number} width
     */
    resize(width) {
        if (width > 0 && width !== this.width) {
            this.width = Math.max(LEAST_WIDTH, width);
            this.shown?.draw(this.width);
        }
    }
}

/** What there is of the view while the floor is clear. */
class FrameShown {
    /** @param {(way: Way, line: number) => void} onPick @param {boolean} exact @param {(exact: boolean) => void} onExact */
    constructor(onPick, exact, onExact) {
        this.name = '';
        /** @type {Frame | null} */
        this.frame = null;
        this.pick = new FramePick(onPick);
        this.diagram = new FrameDiagram();
        this.tables = new FrameTables();
        this.exact = element('input', { id: 'exact', type: 'checkbox', checked: exact });
        this.exact.addEventListener('change', () => {
            onExact(this.exact.checked);
            this.write();
        });
        this.elements = this.laidOut();
    }

    laidOut() {
        const head = element('div', { class: 'frame-head' }, element('label', {}, 'Frame', this.pick.select),
            element('label', {}, this.exact, 'exact N·cm'));
        const note = element('p', { class: 'curves' }, 'Curves only join the three sections of a span; the dots are the moments that stand.');
        const tables = element('div', { class: 'frame-tables' }, this.tables.spans, this.tables.supports);
        return [head, this.diagram.legend.list, this.diagram.drawing, note, this.tables.units, tables];
    }

    /** @param {Judged} judged @param {Picked} picked @param {number} width */
    show(judged, { way, line }, width) {
        this.name = frameName(judged.floor, way, line);
        this.frame = frameOf(judged, way, line);
        this.pick.show(judged.floor, { way, line });
        this.draw(width);
        this.write();
    }

    /** @param {number} width */
    draw(width) {
        if (this.frame !== null) {
            this.diagram.show(this.frame, this.name, width);
        }
    }

    write() {
        if (this.frame !== null) {
            this.tables.show(this.frame, this.exact.checked);
        }
    }
}
