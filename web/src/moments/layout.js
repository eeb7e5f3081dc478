// Where a diagram has its supports, sections and moments: lengths to scale, negatives above the axis, positives below.

/** @typedef {import('./frame.js').Frame} Frame */
/** @typedef {import('../table.js').Section} Section */
/** @typedef {{x: number, y: number}} Point */
/**
 * The points of a span's three sections for one part.
 * @typedef {{low: Point, between: Point, high: Point}} SpanPoints
 */
/**
 * The moments are drawn from left to right and from top to bottom, the lengths on the line `dimension`; `half` is half a column's width, `unit` the
 * height of one N·cm.
 * @typedef {{height: number, left: number, right: number, top: number, bottom: number, dimension: number, axis: number, unit: number, half: number,
 *     supports: number[]}} Layout
 */

const DIAGRAM_HEIGHT = 276;

/** At the left for the scale beside the first support's value, above and below for values, at the foot for lengths and the lines' names. */
const ROOM = { left: 86, right: 32, top: 30, bottom: 56 };

/** The scale's numbers end so far before the first support, whose value has this room. */
export const SCALE_GAP = 34;

/** @param {Frame} frame @param {number} width in pixels @returns {Layout} */
export function layoutOf(frame, width) {
    const right = width - ROOM.right;
    const bottom = DIAGRAM_HEIGHT - ROOM.bottom;
    const scale = (right - ROOM.left) / frame.lengths.reduce((sum, length) => sum + length);
    const highest = Math.max(...frame.spans.flatMap(({ low, high }) => [low.total, high.total]));
    const lowest = Math.max(...frame.spans.map(({ between }) => between.total));
    const unit = (bottom - ROOM.top) / Math.max(1, highest + lowest);
    let x = ROOM.left;
    const supports = [x, ...frame.lengths.map((length) => (x += scale * length))];
    return {
        height: DIAGRAM_HEIGHT, left: ROOM.left, right, top: ROOM.top, bottom, dimension: bottom + 32, axis: ROOM.top + unit * highest, unit,
        half: scale * frame.columns / 2, supports,
    };
}

/**
 * Sections at the ends are those at the columns' faces, so that the two of a support stand apart.
 * @param {Frame} frame @param {Layout} layout @param {keyof Section} part
 * @returns {SpanPoints[]}
 */
export function pointsOf(frame, { supports, half, axis, unit }, part) {
    return frame.spans.map(({ low, between, high }, span) => ({
        low: { x: supports[span] + half, y: axis - unit * low[part] },
        between: { x: (supports[span] + supports[span + 1]) / 2, y: axis + unit * between[part] },
        high: { x: supports[span + 1] - half, y: axis - unit * high[part] },
    }));
}

const LEAST_TICK_PIXELS = 26;
const N_CM_OF_KNM = 100000;

/**
 * The scale's step in kN·m, of 1, 2 or 5 and zeros, so that its numbers do not touch.
 * @param {Layout} layout
 */
function tickStep({ unit }) {
    const least = LEAST_TICK_PIXELS / (unit * N_CM_OF_KNM);
    const decade = 10 ** Math.floor(Math.log10(least));
    return [1, 2, 5, 10].map((step) => step * decade).find((step) => step >= least) ?? 10 * decade;
}

/**
 * Heights of the scale's lines with what is written at them, the axis among them.
 * @param {Layout} layout
 */
export function ticksOf(layout) {
    const step = tickStep(layout);
    const pixels = step * N_CM_OF_KNM * layout.unit;
    const above = Math.floor((layout.axis - layout.top) / pixels);
    const below = Math.floor((layout.bottom - layout.axis) / pixels);
    return Array.from({ length: above + below + 1 }, (_, tick) => {
        const steps = tick - above;
        return { y: layout.axis + steps * pixels, words: String(Number((Math.abs(steps) * step).toPrecision(6))) };
    });
}
