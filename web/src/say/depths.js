// How deep the bars lie. The areas of the schedule hold for this order of the layers alone, so the fixer is told it wherever bars are shown.

/** @typedef {import('../floor.js').Floor} Floor */
/** @typedef {import('../floor.js').Way} Way */

/**
 * From the face of the slab, top or bottom, to the bars along each direction: "The y bars lie on the x bars" (02, Six).
 * @type {Record<Way, number>}
 */
const FACE_TO_BARS = { x: 26, y: 38 };

/**
 * Of the bars along a direction, in mm.
 * @param {Pick<Floor, 't'>} floor @param {Way} way
 */
export function barDepth({ t }, way) {
    return t - FACE_TO_BARS[way];
}

/**
 * Both layers, as `slab sheet` says them.
 * @param {Pick<Floor, 't'>} floor
 */
export function sayLayers(floor) {
    const [x, y] = [barDepth(floor, 'x'), barDepth(floor, 'y')];
    return `At top and bottom, bars along x lie next to the face of the slab, at an effective depth of ${x} mm, and bars along y inside them, at ${y} mm.`;
}

/**
 * The layer of one frame's bars.
 * @param {Way} way @param {number} depth
 */
export function sayLayer(way, depth) {
    return `Bars at an effective depth of ${depth} mm, ${way === 'x' ? 'next to the face of the slab' : 'inside the bars along x'}.`;
}
