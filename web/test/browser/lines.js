// Column lines taken hold of on the screen.

/** @typedef {import('../../src/floor.js').Way} Way */
/** @typedef {import('./driver.js').Browser} Browser */

/**
 * A point of the screen where the line itself lies on top, looked for from its middle on, and pixels a millimetre across it.
 * @param {Browser} browser @param {Way} way @param {number} line
 * @returns {Promise<{x: number, y: number, factor: number}>}
 */
export function gripOf(browser, way, line) {
    return browser.run((way, line) => {
        /** @param {number} number */
        const axisOf = (number) => {
            const axis = document.querySelector(`g.line[data-way="${way}"][data-line="${number}"] .axis`);
            return /** @type {Element} */ (axis).getBoundingClientRect();
        };
        const along = way === 'x' ? 'x' : 'y';
        const cross = way === 'x' ? 'y' : 'x';
        const length = way === 'x' ? 'width' : 'height';
        const box = axisOf(line);
        const spans = Array.from(document.querySelectorAll(`g.span[data-way="${cross}"] text:not(.bay)`), (text) => Number(text.textContent));
        const between = Math.abs(axisOf(spans.length)[cross] - axisOf(0)[cross]);
        const factor = between / spans.reduce((sum, span) => sum + span, 0);
        for (let part = 0.5; part < 0.98; part += 0.01) {
            const point = { [along]: Math.round(box[along] + part * box[length]), [cross]: Math.round(box[cross]) };
            const group = document.elementFromPoint(point.x, point.y)?.closest('g.line');
            if (group instanceof SVGElement && group.dataset.way === way && Number(group.dataset.line) === line) {
                return { x: point.x, y: point.y, factor };
            }
        }
        throw new Error(`nowhere does ${way} line ${line} lie on top`);
    }, way, line);
}

/**
 * From a point so many millimetres across the line, in so many moves.
 * @param {Way} way @param {{x: number, y: number, factor: number}} grip @param {number} mm
 */
export function pathOf(way, { x, y, factor }, mm, from = 0, moves = 8) {
    return Array.from({ length: moves + 1 }, (_, move) => {
        const pixels = (from + ((mm - from) * move) / moves) * factor;
        return way === 'y' ? { x: x + pixels, y } : { x, y: y - pixels };
    });
}
