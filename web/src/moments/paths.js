// The lines of a diagram as paths: curves and dots of each part, columns, dimension line, scale.

import { pixel } from '../drawing.js';
import { SCALE_GAP, pointsOf, ticksOf } from './layout.js';

/** @typedef {import('./frame.js').Frame} Frame */
/** @typedef {import('./layout.js').Layout} Layout */
/** @typedef {import('./layout.js').Point} Point */
/** @typedef {import('./layout.js').SpanPoints} SpanPoints */
/** @typedef {import('../table.js').Section} Section */

/** @param {Point} point */
function pixels({ x, y }) {
    return `${pixel(x)} ${pixel(y)}`;
}

/** @param {Frame} frame @param {Layout} layout @param {(keyof Section)[]} parts @returns {[string, string][]} */
export function curvePaths(frame, layout, parts) {
    return parts.flatMap((part) => {
        const points = pointsOf(frame, layout, part);
        const dots = points.flatMap(({ low, between, high }) => [low, between, high]).map((point) => `M${pixels(point)}h0`);
        return [[`curve part-${part}`, points.map(curve).join('')], [`dots part-${part}`, dots.join('')]];
    });
}

/**
 * From each end a parabola that is level at the middle: so the curve goes nowhere beyond the three moments that stand.
 * @param {SpanPoints} points
 */
function curve({ low, between, high }) {
    const [before, after] = [low, high].map((end) => pixels({ x: (end.x + between.x) / 2, y: between.y }));
    return `M${pixels(low)}Q${before} ${pixels(between)}Q${after} ${pixels(high)}`;
}

/** @param {Layout} layout @returns {[string, string][]} */
export function supportPaths({ supports, half, top, bottom, left, right, dimension }) {
    const slashes = supports.map((x) => `M${pixel(x - 4)} ${dimension + 4}l8 -8`);
    return [
        ['columns', supports.map((x) => `M${pixel(x - half)} ${top}H${pixel(x + half)}V${bottom}H${pixel(x - half)}Z`).join('')],
        ['lines', supports.map((x) => `M${pixel(x)} ${top}V${dimension + 6}`).join('')],
        ['dimension', `M${left} ${dimension}H${right}${slashes.join('')}`],
    ];
}

/** @param {Layout} layout @returns {[string, string][]} */
export function scalePaths(layout) {
    const level = (/** @type {number} */ y) => `M${layout.left - SCALE_GAP + 4} ${pixel(y)}H${layout.right}`;
    return [['ticks', ticksOf(layout).map(({ y }) => level(y)).join('')], ['axis', level(layout.axis)]];
}
