// The spans of both directions with their lengths: along x below the floor, along y to the right of it.

import { across, WAYS } from '../floor.js';
import { spanKey } from './marks.js';
import { sizeThatFits } from './scale.js';

/** @typedef {import('../floor.js').Way} Way */
/** @typedef {import('./paper.js').Paper} Paper */

const DISTANCE = 39;
const TICK = 4;
/** How far from the line its length is written along it, and across it where it does not fit along. */
const BESIDE = { along: 11, across: 22 };

/** The bay's number, on the other side of the line and smaller. */
const BAY_BESIDE = 6;
const BAY_SIZE = 9;

/** @param {Paper} paper */
export function drawSpans(paper) {
    for (const way of WAYS) {
        paper.floor.spans[way].forEach((length, span) => drawSpan(paper, way, span, length));
    }
}

/** @param {Paper} paper @param {Way} way @param {number} span @param {number} length */
function drawSpan(paper, way, span, length) {
    const { drawing, layers } = paper;
    const key = spanKey(way, span);
    const ends = [span, span + 1].map((line) => paper.at[across(way)][line]);
    const { east, south } = paper.edges();
    const names = { class: paper.classes('span', key), 'data-way': way, 'data-span': span, tabindex: 0, role: 'button' };
    const group = drawing.put(key, layers.spans, 'g', { ...names, 'aria-label': `${key}, ${length} mm` });
    drawing.put(`${key} title`, group, 'title', {}, `${key}: ${length} mm`);
    const place = way === 'x' ? south + DISTANCE : east + DISTANCE;
    drawing.put(`${key} line`, group, 'path', { class: 'dimension', d: dimension(way, ends, place) });
    drawing.put(`${key} hold`, group, 'path', { class: 'hold', d: straight(way, ends, place + BESIDE.along) });
    drawing.put(`${key} length`, group, 'text', placeOfLength(way, ends, place, String(length)), String(length));
    drawing.put(`${key} bay`, group, 'text', placeOfBay(way, ends, place, String(span)), String(span));
}

/** @param {Way} way @param {number[]} ends @param {number} place @param {string} text */
function placeOfBay(way, ends, place, text) {
    const room = Math.abs(ends[1] - ends[0]);
    const middle = (ends[0] + ends[1]) / 2;
    const [x, y] = way === 'x' ? [middle, place - BAY_BESIDE] : [place - BAY_BESIDE, middle];
    return { x, y, 'font-size': BAY_SIZE, class: sizeThatFits(text, room, room) === 0 ? 'bay crowded' : 'bay' };
}

/**
 * Along the line where it fits, else across it.
 * @param {Way} way @param {number[]} ends @param {number} place @param {string} text
 */
function placeOfLength(way, ends, place, text) {
    const room = Math.abs(ends[1] - ends[0]);
    const along = sizeThatFits(text, room, Infinity);
    const size = along || sizeThatFits(text, Infinity, room);
    const beside = place + (along ? BESIDE.along : BESIDE.across);
    const middle = (ends[0] + ends[1]) / 2;
    const [x, y] = way === 'x' ? [middle, beside] : [beside, middle];
    const turned = (way === 'x') === (along === 0);
    return { x, y, 'font-size': size, class: size === 0 ? 'crowded' : '', transform: turned ? `rotate(-90 ${x} ${y})` : '' };
}

/** @param {Way} way @param {number[]} ends @param {number} place */
function straight(way, [from, to], place) {
    return way === 'x' ? `M${from} ${place}H${to}` : `M${place} ${from}V${to}`;
}

/**
 * With a slanting tick at each end.
 * @param {Way} way @param {number[]} ends @param {number} place
 */
function dimension(way, ends, place) {
    const ticks = ends.map((end) => {
        const [x, y] = way === 'x' ? [end, place] : [place, end];
        return `M${x - TICK} ${y + TICK}L${x + TICK} ${y - TICK}`;
    });
    return straight(way, ends, place) + ticks.join('');
}
