// What is written around a diagram: lengths and lines at its foot, the scale, and which steel is meant above and below the axis.

import { across } from '../floor.js';
import { fittingLabels } from './labels.js';
import { SCALE_GAP, ticksOf } from './layout.js';

/** @typedef {import('./frame.js').Frame} Frame */
/** @typedef {import('./labels.js').Label} Label */
/** @typedef {import('./layout.js').Layout} Layout */

/** @param {Frame} frame @param {Layout} layout @returns {[string, Label[]][]} */
export function footLabels(frame, { supports, dimension }) {
    const lengths = frame.lengths.map((length, span) => ({ x: (supports[span] + supports[span + 1]) / 2, y: dimension - 4, words: String(length) }));
    const lines = supports.map((x, support) => ({ x, y: dimension + 20, words: String(support) }));
    return [['length', fittingLabels(lengths)], ['name', fittingLabels(lines)]];
}

/** @param {Layout} layout @returns {[string, Label[]][]} */
export function scaleLabels(layout) {
    return [['tick', ticksOf(layout).map(({ y, words }) => ({ x: layout.left - SCALE_GAP, y: y + 4, words }))]];
}

/** @param {Frame} frame @param {Layout} layout @returns {[string, Label[]][]} */
export function marginLabels({ way }, { top, bottom, dimension }) {
    const headings = [
        { x: 0, y: dimension + 4, words: 'span, mm' },
        { x: 0, y: dimension + 20, words: `${across(way)} line` },
    ];
    const sides = [{ x: 0, y: top - 18, words: 'kN·m, top steel' }, { x: 0, y: bottom + 16, words: 'bottom steel' }];
    return [['heading', headings], ['side', sides]];
}
