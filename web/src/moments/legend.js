// Which curve is which part.

import { drawn, element } from '../dom.js';
import { PART_NAMES } from './names.js';

/** @typedef {import('../table.js').Section} Section */

const SAMPLE_PIXELS = 30;

export class DiagramLegend {
    constructor() {
        this.list = element('ul', { class: 'legend' });
        this.shown = '';
    }

    /** @param {(keyof Section)[]} parts */
    show(parts) {
        if (this.shown !== parts.join()) {
            this.shown = parts.join();
            this.list.replaceChildren(...parts.map(legendItem));
        }
    }
}

/** @param {keyof Section} part */
function legendItem(part) {
    const sample = drawn('svg', { width: SAMPLE_PIXELS, height: 10, 'aria-hidden': 'true' },
        drawn('path', { class: `curve part-${part}`, d: `M0 5H${SAMPLE_PIXELS}` }));
    return element('li', {}, sample, PART_NAMES[part]);
}
