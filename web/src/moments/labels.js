// Values written into a diagram, where there is room: no two of them touch.

import { kNm } from '../units.js';
import { pointsOf } from './layout.js';

/** @typedef {import('./frame.js').Frame} Frame */
/** @typedef {import('./layout.js').Layout} Layout */
/**
 * Centred on x and standing on y.
 * @typedef {{x: number, y: number, words: string}} Label
 */
/** @typedef {{x: number, y: number, moment: number}} Face */

/** Of the diagram's 11 px type, at least as wide as the widest figure of common fonts. */
const CHARACTER_PIXELS = 7;
const LABEL_HEIGHT = 13;
const CLEARANCE = 4;

/** @param {string} words */
function pixelsOf(words) {
    return CHARACTER_PIXELS * words.length;
}

/** @param {Label} a @param {Label} b */
function labelsTouch(a, b) {
    const apart = (pixelsOf(a.words) + pixelsOf(b.words)) / 2 + CLEARANCE;
    return Math.abs(a.x - b.x) < apart && Math.abs(a.y - b.y) < LABEL_HEIGHT;
}

/**
 * Those that touch none before them.
 * @param {Label[]} labels
 */
export function fittingLabels(labels) {
    /** @type {Label[]} */
    const kept = [];
    for (const label of labels) {
        if (!kept.some((other) => labelsTouch(label, other))) {
            kept.push(label);
        }
    }
    return kept;
}

/**
 * The one or two faces of each support.
 * @param {Frame} frame @param {Layout} layout @returns {Face[][]}
 */
function facesOf(frame, layout) {
    const points = pointsOf(frame, layout, 'total');
    return layout.supports.map((_, support) => {
        const faces = [];
        if (support > 0) {
            faces.push({ ...points[support - 1].high, moment: frame.spans[support - 1].high.total });
        }
        if (support < points.length) {
            faces.push({ ...points[support].low, moment: frame.spans[support].low.total });
        }
        return faces;
    });
}

/**
 * Both faces side by side, or one label where they are equal or it is the only one.
 * @param {Face[]} faces @param {number} x @param {number} governing @returns {Label[]}
 */
function apartLabels(faces, x, governing) {
    const [first, second] = faces;
    if (second === undefined || first.moment === second.moment) {
        return [governingLabel(faces, x, governing)];
    }
    return [labelBeside(first, x, -1), labelBeside(second, x, 1)];
}

/** @param {Face} face @param {number} x @param {-1 | 1} side @returns {Label} */
function labelBeside(face, x, side) {
    const words = kNm(face.moment);
    return { x: x + side * (pixelsOf(words) / 2 + CLEARANCE), y: face.y - CLEARANCE, words };
}

/**
 * At the height of the face that the library took it from.
 * @param {Face[]} faces @param {number} x @param {number} governing @returns {Label}
 */
function governingLabel(faces, x, governing) {
    const face = faces.find(({ moment }) => moment === governing) ?? faces[0];
    return { x, y: face.y - CLEARANCE, words: kNm(governing) };
}

/**
 * Totals alone: both faces of every support or, in a frame too dense for that, the governing one of each; and between them.
 * @param {Frame} frame @param {Layout} layout
 */
export function valueLabels(frame, layout) {
    const supports = facesOf(frame, layout).map((faces, support) => ({ faces, x: layout.supports[support], governing: frame.supports[support].total }));
    const apart = supports.flatMap(({ faces, x, governing }) => apartLabels(faces, x, governing));
    const fits = fittingLabels(apart).length === apart.length;
    const ends = fits ? apart : fittingLabels(supports.map(({ faces, x, governing }) => governingLabel(faces, x, governing)));
    const between = pointsOf(frame, layout, 'total').map((points, span) => (
        { x: points.between.x, y: points.between.y + LABEL_HEIGHT + 1, words: kNm(frame.spans[span].between.total) }));
    return [...ends, ...fittingLabels(between)];
}
