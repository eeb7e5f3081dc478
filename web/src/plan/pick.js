// What is picked in the plan: what lies under the pointer or has the focus, and its neighbours by the arrow keys.

/** @typedef {import('../floor.js').Way} Way */
/** @typedef {import('../panel/picked.js').Picked} Picked */

const STEPS = { ArrowRight: [1, 0], ArrowLeft: [-1, 0], ArrowUp: [0, 1], ArrowDown: [0, -1] };

/**
 * @param {EventTarget | null} target
 * @returns {Picked | null}
 */
export function pickedUnder(target) {
    const group = target instanceof Element ? target.closest('g.panel, g.column, g.span, g.line') : null;
    if (!(group instanceof SVGElement)) {
        return null;
    }
    const { way, line, span, i, j } = group.dataset;
    if (way === undefined) {
        return { sort: group.classList.contains('panel') ? 'panel' : 'column', i: Number(i), j: Number(j) };
    }
    const sort = line === undefined ? 'span' : 'line';
    return { sort, way: /** @type {Way} */ (way), number: Number(line ?? span) };
}

/**
 * The panel or the column beside it, if the key is an arrow. A line is moved by the arrow keys instead.
 * @param {Picked} picked @param {string} key
 * @returns {Picked | null}
 */
export function neighbourOf(picked, key) {
    if (!(key in STEPS) || !('i' in picked)) {
        return null;
    }
    const [east, north] = STEPS[/** @type {keyof typeof STEPS} */ (key)];
    return { sort: picked.sort, i: picked.i + east, j: picked.j + north };
}
