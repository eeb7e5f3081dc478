// The lines of both directions: beam, axis, name, and what the pointer takes hold of.

import { across, WAYS } from '../floor.js';
import { linesOf } from '../table.js';
import { lineKey } from './marks.js';
import { MARGIN } from './scale.js';

/** @typedef {import('../floor.js').Way} Way */
/** @typedef {import('./paper.js').Paper} Paper */

const BUBBLE_RADIUS = { most: 12, least: 7 };
const BUBBLE_PLACE = { x: MARGIN.left - 15, y: MARGIN.top - 15 };
const BEYOND = 8;
const LEAST_BEAM = 3;
/** What the pointer takes hold of: so wide, or narrower where another line is nearer. */
const HOLD = { most: 16, least: 3 };

/** @param {Paper} paper */
export function drawLines(paper) {
    for (const way of WAYS) {
        const places = paper.at[way];
        const bubbles = bubblesOf(places);
        for (let line = 0; line < linesOf(paper.floor, way); line += 1) {
            drawLine(paper, way, line, { ...bubbles(line), hold: Math.max(Math.min(HOLD.most, nearest(places, line)), HOLD.least) });
        }
    }
}

/** @param {number[]} places @param {number} line */
function nearest(places, line) {
    return Math.min(...[line - 1, line + 1].filter((other) => other in places).map((other) => Math.abs(places[other] - places[line])));
}

/**
 * Names of neighbouring lines do not touch: they get smaller and, where that is not enough, stand in two rows.
 * @param {number[]} places @returns {(line: number) => {radius: number, away: number}}
 */
function bubblesOf(places) {
    const room = Math.min(...places.map((_, line) => nearest(places, line))) / 2 - 1;
    const radius = Math.max(Math.min(BUBBLE_RADIUS.most, room), BUBBLE_RADIUS.least);
    return (line) => ({ radius, away: room < BUBBLE_RADIUS.least && line % 2 === 1 ? 2 * radius + 1 : 0 });
}

/**
 * A line from end to end, `from` nearer to its name: along x from west to east, along y from north to south.
 * @param {Paper} paper @param {Way} way @param {number} line @param {number} before how far it goes beyond the floor @param {number} after
 */
function stretch(paper, way, line, before, after) {
    const { west, east, south, north } = paper.edges();
    const place = paper.at[way][line];
    return way === 'x'
        ? { x1: west - before, y1: place, x2: east + after, y2: place }
        : { x1: place, y1: north - before, x2: place, y2: south + after };
}

/**
 * What a test finds it by, and what is read out where the screen is not seen.
 * @param {Paper} paper @param {Way} way @param {number} line
 */
function spokenLine(paper, way, line) {
    const lines = paper.mm[way];
    const mm = lines[line];
    const arrows = across(way) === 'x' ? 'east and west' : 'north and south';
    return {
        'data-way': way,
        'data-line': line,
        tabindex: 0,
        role: 'slider',
        'aria-label': `${lineKey(way, line)}, moved ${arrows} by the arrow keys`,
        'aria-valuemin': lines[line - 1] ?? mm,
        'aria-valuenow': mm,
        'aria-valuemax': lines[line + 1] ?? mm,
        'aria-valuetext': `${mm} mm`,
    };
}

/** @param {Paper} paper @param {Way} way @param {number} line @param {{radius: number, away: number, hold: number}} sizes */
function drawLine(paper, way, line, { radius, away, hold }) {
    const { drawing, layers, floor } = paper;
    const key = lineKey(way, line);
    const [width, depth] = floor.beams[way][line];
    const beam = { class: 'beam', 'stroke-width': width === 0 ? 0 : Math.max(paper.scale.length(width), LEAST_BEAM) };
    const bubble = BUBBLE_PLACE[way] - away;
    const group = drawing.put(key, layers.lines, 'g', { class: paper.classes(`line along-${way}`, key), ...spokenLine(paper, way, line) });
    drawing.put(`${key} title`, group, 'title', {}, `${key}: ${width === 0 ? 'no beam' : `beam ${width} by ${depth} mm`}`);
    drawing.put(`${key} beam`, group, 'line', { ...beam, ...stretch(paper, way, line, 0, 0) });
    drawing.put(`${key} axis`, group, 'line', { class: 'axis', ...stretch(paper, way, line, bubble - radius, BEYOND) });
    drawing.put(`${key} hold`, group, 'line', { class: 'hold', 'stroke-width': hold, ...stretch(paper, way, line, bubble, BEYOND) });
    const { x1, y1 } = stretch(paper, way, line, bubble, 0);
    drawing.put(`${key} bubble`, group, 'circle', { class: 'bubble', cx: x1, cy: y1, r: radius });
    drawing.put(`${key} name`, group, 'text', { class: 'name', x: x1, y: y1, 'font-size': radius < 11 ? 9 : 12 }, `${way}${line}`);
}
