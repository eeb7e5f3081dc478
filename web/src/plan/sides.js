// The four edges with what the floor rests on there.

import { CODES, codeOf, SIDES } from '../sides.js';

/** @typedef {import('./paper.js').Paper} Paper */

const DISTANCE_OF_WORDS = 17;

/** @param {Paper} paper */
export function drawSides(paper) {
    const { west, east, south, north } = paper.edges();
    const middle = { x: (west + east) / 2, y: (south + north) / 2 };
    const places = {
        west: { x: west - DISTANCE_OF_WORDS, y: middle.y, edge: `M${west} ${south}V${north}` },
        east: { x: east + DISTANCE_OF_WORDS, y: middle.y, edge: `M${east} ${south}V${north}` },
        south: { x: middle.x, y: south + DISTANCE_OF_WORDS, edge: `M${west} ${south}H${east}` },
        north: { x: middle.x, y: north - DISTANCE_OF_WORDS, edge: `M${west} ${north}H${east}` },
    };
    for (const side of SIDES) {
        const { x, y, edge } = places[side];
        const code = CODES[codeOf(paper.floor.sides, side)];
        paper.drawing.put(`${side} edge`, paper.layers.sides, 'path', { class: `edge ${code}`, d: edge });
        const group = paper.drawing.put(side, paper.layers.words, 'g', { class: 'side', 'data-side': side });
        const turned = side === 'west' || side === 'east' ? `rotate(-90 ${x} ${y})` : '';
        paper.drawing.put(`${side} words`, group, 'text', { x, y, transform: turned }, `${side}: ${code}`);
    }
}
