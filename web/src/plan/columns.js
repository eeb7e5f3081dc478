// The columns where they stand. A floor file has how far a column is off its lines and not to which side: it is drawn to the east and to the north.

import { columnPlace } from '../floor.js';
import { columnKey } from './marks.js';

/** @typedef {import('./paper.js').Paper} Paper */

const LEAST_COLUMN = 4;

/** @param {Paper} paper */
export function drawColumns(paper) {
    paper.floor.offsets.forEach((offset, index) => {
        const { i, j } = columnPlace(paper.floor, index);
        drawColumn(paper, i, j, offset);
    });
}

/** @param {Paper} paper @param {number} i @param {number} j @param {import('../floor.js').Pair} offset */
function drawColumn(paper, i, j, [east, north]) {
    const { drawing, layers, at, floor, scale } = paper;
    const key = columnKey(i, j);
    const width = Math.max(scale.length(floor.cx), LEAST_COLUMN);
    const height = Math.max(scale.length(floor.cy), LEAST_COLUMN);
    const x = at.y[i] + scale.length(east) - width / 2;
    const y = at.x[j] - scale.length(north) - height / 2;
    const off = east === 0 && north === 0 ? 'on its lines' : `off its lines by ${east} mm along x and ${north} mm along y`;
    const words = `Column on y line ${i}, x line ${j}, ${floor.cx} by ${floor.cy} mm, ${off}`;
    const classes = paper.classes('column', key);
    const group = drawing.put(key, layers.columns, 'g', { class: classes, 'data-i': i, 'data-j': j, ...paper.reached('column', i, j, words) });
    drawing.put(`${key} title`, group, 'title', {}, words);
    drawing.put(`${key} box`, group, 'rect', { x, y, width, height });
    if (classes !== 'column') {
        drawing.put(`${key} ring`, group, 'circle', { class: 'ring', cx: x + width / 2, cy: y + height / 2, r: Math.max(width, height) / 2 + 5 });
    }
}
