// The list of a floor's frames, from which one is picked.

import { element } from '../dom.js';
import { WAYS } from '../floor.js';
import { linesOf } from '../table.js';
import { frameName } from './names.js';

/** @typedef {import('../floor.js').Floor} Floor */
/** @typedef {import('../floor.js').Way} Way */
/** @typedef {{way: Way, line: number}} Picked */

export class FramePick {
    /** @param {(way: Way, line: number) => void} onPick */
    constructor(onPick) {
        this.lines = '';
        this.select = element('select', { id: 'frame-pick' });
        this.select.addEventListener('change', () => {
            const value = this.select.value;
            onPick(/** @type {Way} */ (value[0]), Number(value.slice(1)));
        });
    }

    /**
     * The list is made anew only for other lines: it keeps the keyboard's focus while frames are walked through.
     * @param {Floor} floor @param {Picked} picked
     */
    show(floor, { way, line }) {
        const lines = WAYS.map((along) => linesOf(floor, along)).join(' ');
        if (lines !== this.lines) {
            this.lines = lines;
            this.select.replaceChildren(...WAYS.flatMap((along) => frameOptions(floor, along)));
        }
        this.select.value = `${way}${line}`;
    }
}

/** @param {Floor} floor @param {Way} way */
function frameOptions(floor, way) {
    return Array.from({ length: linesOf(floor, way) }, (_, line) => element('option', { value: `${way}${line}` }, frameName(floor, way, line)));
}
