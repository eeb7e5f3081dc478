// The moments of a frame drawn: for each part a curve through the three sections of each span, top steel above the axis, bottom steel below.

import { drawn, setAttributes } from '../dom.js';
import { pixel } from '../drawing.js';
import { PARTS, SECTIONS } from '../table.js';
import { footLabels, marginLabels, scaleLabels } from './captions.js';
import { valueLabels } from './labels.js';
import { fillLayer } from './layers.js';
import { DiagramLegend } from './legend.js';
import { layoutOf } from './layout.js';
import { curvePaths, scalePaths, supportPaths } from './paths.js';

/** @typedef {import('./frame.js').Frame} Frame */
/** @typedef {import('./labels.js').Label} Label */
/** @typedef {import('./layers.js').Mark} Mark */

/** From the back to the front: the slab's dots lie on the column strip's curve where the two are one, and the total on all. */
const CURVE_LAYERS = ['column', 'middle', 'beam', 'slab', 'total'].flatMap((part) => [`curve part-${part}`, `dots part-${part}`]);
const PATH_LAYERS = ['columns', 'lines', 'dimension', 'ticks', 'axis', ...CURVE_LAYERS];
const TEXT_LAYERS = ['heading', 'side', 'tick', 'length', 'name', 'value'];

export class FrameDiagram {
    constructor() {
        this.layers = [...PATH_LAYERS, ...TEXT_LAYERS].map((name) => ({ name, group: drawn('g', { class: name }) }));
        this.drawing = drawn('svg', { id: 'diagram', role: 'img' }, ...this.layers.map(({ group }) => group));
        this.legend = new DiagramLegend();
    }

    /** @param {Frame} frame @param {string} name @param {number} width in pixels */
    show(frame, name, width) {
        const parts = partsIn(frame);
        const layout = layoutOf(frame, width);
        setAttributes(this.drawing, {
            width, height: layout.height, viewBox: `0 0 ${width} ${layout.height}`,
            'aria-label': `Diagram of the moments of ${name}; its numbers are in the tables`,
        });
        const paths = new Map([...supportPaths(layout), ...scalePaths(layout), ...curvePaths(frame, layout, parts)]);
        const texts = new Map([...footLabels(frame, layout), ...scaleLabels(layout), ...marginLabels(frame, layout)]);
        texts.set('value', valueLabels(frame, layout));
        for (const { name: layer, group } of this.layers) {
            const d = paths.get(layer);
            fillLayer(group, d === undefined ? 'text' : 'path', d === undefined ? (texts.get(layer) ?? []).map(textMark) : [{ d }]);
        }
        this.legend.show(parts);
    }
}

/**
 * A part that is 0 all along the frame, as the beam's is where there is none, is not drawn.
 * @param {Frame} frame
 */
function partsIn(frame) {
    return PARTS.filter((part) => frame.spans.some((record) => SECTIONS.some((section) => record[section][part] > 0)));
}

/** @param {Label} label @returns {Mark} */
function textMark({ x, y, words }) {
    return { x: pixel(x), y: pixel(y), words };
}
