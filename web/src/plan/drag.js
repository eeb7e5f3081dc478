// Lines taken hold of with the mouse, a finger or the arrow keys. Every step is sent on once, no more often than the screen is drawn.

import { inSteps, movedLine, STEP } from './move.js';

/** @typedef {import('../floor.js').Floor} Floor */
/** @typedef {import('../floor.js').Way} Way */
/** @typedef {{way: Way, line: number}} Line */
/** @typedef {{floor: () => Floor, factor: () => number, pick: (line: Line) => void, send: (records: Uint8Array[], gesture: object | null) => void,
 *     begin: () => void, end: () => void}} Desktop */

/** A pointer that moves less has only picked the line. */
const PICK_PIXELS = 3;

const ARROWS = { x: { ArrowUp: STEP, ArrowDown: -STEP }, y: { ArrowRight: STEP, ArrowLeft: -STEP } };

/** @param {EventTarget | null} target @returns {Line | null} */
function lineUnder(target) {
    const group = target instanceof Element ? target.closest('g.line') : null;
    if (!(group instanceof SVGElement)) {
        return null;
    }
    return { way: /** @type {Way} */ (group.dataset.way), line: Number(group.dataset.line) };
}

/** A line in hand: from where, and how far it has been moved. */
class Grip {
    /** @param {PointerEvent} event @param {Line} line @param {Desktop} desktop */
    constructor(event, line, desktop) {
        this.pointer = event.pointerId;
        this.line = line;
        this.desktop = desktop;
        this.from = { x: event.clientX, y: event.clientY };
        this.first = desktop.floor();
        this.last = this.first;
        this.factor = desktop.factor();
        this.sent = 0;
        this.wanted = 0;
        this.waiting = false;
        this.moves = false;
    }

    /** @param {PointerEvent} event */
    moveTo(event) {
        const pixels = this.line.way === 'y' ? event.clientX - this.from.x : this.from.y - event.clientY;
        if (!this.moves && Math.abs(pixels) < PICK_PIXELS) {
            return;
        }
        if (!this.moves) {
            this.moves = true;
            this.desktop.begin();
        }
        this.wanted = inSteps(pixels / this.factor);
        if (!this.waiting) {
            this.waiting = true;
            requestAnimationFrame(() => this.send());
        }
    }

    /** Where something else has changed the floor meanwhile, the line in hand is none of it any more. */
    send() {
        this.waiting = false;
        if (this.wanted !== this.sent && this.desktop.floor() === this.last) {
            this.sent = this.wanted;
            this.desktop.send(movedLine(this.first, this.line.way, this.line.line, this.wanted), this);
            this.last = this.desktop.floor();
        }
    }

    /** What the screen has not shown yet is sent all the same. */
    letGo() {
        this.send();
        if (this.moves) {
            this.desktop.end();
        }
    }
}

/** @param {SVGSVGElement} svg @param {Desktop} desktop */
export function holdLines(svg, desktop) {
    holdByPointer(svg, desktop);
    holdByArrows(svg, desktop);
}

/** @param {SVGSVGElement} svg @param {Desktop} desktop */
function holdByPointer(svg, desktop) {
    /** @type {Grip | null} */
    let grip = null;
    svg.addEventListener('pointerdown', (event) => {
        const line = lineUnder(event.target);
        if (line === null || grip !== null || event.button !== 0) {
            return;
        }
        svg.setPointerCapture(event.pointerId);
        // Picked first: what was typed in a field is sent by it, and the line is held on the floor that this makes.
        desktop.pick(line);
        grip = new Grip(event, line, desktop);
    });
    /**
     * A second finger moves nothing.
     * @param {PointerEvent} event
     */
    const gripOf = (event) => (grip !== null && grip.pointer === event.pointerId ? grip : null);
    /** @param {PointerEvent} event */
    const letGo = (event) => {
        const held = gripOf(event);
        if (held !== null) {
            held.letGo();
            grip = null;
        }
    };
    svg.addEventListener('pointermove', (event) => {
        // Let go of where this page could not see it.
        if (event.buttons === 0) {
            letGo(event);
        }
        gripOf(event)?.moveTo(event);
    });
    svg.addEventListener('pointerup', letGo);
    svg.addEventListener('pointercancel', letGo);
}

/** @param {SVGSVGElement} svg @param {Desktop} desktop */
function holdByArrows(svg, desktop) {
    svg.addEventListener('keydown', (event) => {
        const line = lineUnder(event.target);
        /** @type {Record<string, number>} */
        const arrows = line === null ? {} : ARROWS[line.way];
        if (line !== null && event.key in arrows) {
            event.preventDefault();
            desktop.pick(line);
            desktop.send(movedLine(desktop.floor(), line.way, line.line, arrows[event.key]), null);
        }
    });
}
