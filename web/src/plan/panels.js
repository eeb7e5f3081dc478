// The panels, each with its least thickness.

import { panelKey, WHOLE_FLOOR } from './marks.js';
import { sizeThatFits } from './scale.js';

/** @typedef {import('./paper.js').Paper} Paper */

const BEYOND_FLOOR = 6;

/** @param {Paper} paper */
export function drawPanels(paper) {
    drawOutline(paper);
    const thin = new Set(paper.judged.places.filter(({ limit }) => limit === 64).map(({ i, j }) => panelKey(i, j)));
    paper.judged.least.forEach((row, j) => row.forEach((least, i) => drawPanel(paper, i, j, least, thin)));
}

/**
 * Around the whole floor, for the limit that has no place in it.
 * @param {Paper} paper
 */
function drawOutline(paper) {
    const { west, east, south, north } = paper.edges();
    const box = { x: west - BEYOND_FLOOR, y: north - BEYOND_FLOOR, width: east - west + 2 * BEYOND_FLOOR, height: south - north + 2 * BEYOND_FLOOR };
    paper.drawing.put(WHOLE_FLOOR, paper.layers.outline, 'rect', { class: paper.classes('outline', WHOLE_FLOOR), ...box });
}

/** @param {Paper} paper @param {number} i @param {number} j @param {number} least @param {Set<string>} thin */
function drawPanel(paper, i, j, least, thin) {
    const { drawing, layers, at, floor } = paper;
    const key = panelKey(i, j);
    const box = { x: at.y[i], y: at.x[j + 1], width: at.y[i + 1] - at.y[i], height: at.x[j] - at.x[j + 1] };
    const names = paper.classes(thin.has(key) ? 'panel thin' : 'panel', key);
    const words = `Panel of x bay ${i}, y bay ${j}: ${floor.spans.x[i]} by ${floor.spans.y[j]} mm, at least ${least} mm thick`;
    const group = drawing.put(key, layers.panels, 'g', { class: names, 'data-i': i, 'data-j': j, ...paper.reached('panel', i, j, words) });
    drawing.put(`${key} box`, group, 'rect', box);
    drawing.put(`${key} title`, group, 'title', {}, words);
    const middle = { x: box.x + box.width / 2, y: box.y + box.height / 2 };
    const size = sizeThatFits(String(least), box.width, box.height);
    drawing.put(`${key} least`, group, 'text', { ...middle, 'font-size': size, class: size === 0 ? 'crowded' : '' }, String(least));
}
