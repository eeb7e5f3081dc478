// Where millimetres of the floor lie on the screen: to scale, north up.

import { pixel } from '../drawing.js';
import { across } from '../floor.js';

/** @typedef {import('../floor.js').Floor} Floor */
/** @typedef {import('../floor.js').Way} Way */

/** Room around the floor: line names and sides left and above, sides and spans right and below. */
export const MARGIN = { left: 62, top: 58, right: 77, bottom: 75 };

/**
 * How far each line is from the first: from 0 to the whole length.
 * @param {number[]} spans
 */
function stations(spans) {
    const places = [0];
    for (const span of spans) {
        places.push(places[places.length - 1] + span);
    }
    return places;
}

export class Scale {
    /** @param {Floor} floor @param {number} width of the screen @param {number} height */
    constructor(floor, width, height) {
        const [long, high] = [floor.spans.x, floor.spans.y].map((spans) => spans.reduce((sum, span) => sum + span, 0));
        const room = { x: width - MARGIN.left - MARGIN.right, y: height - MARGIN.top - MARGIN.bottom };
        /** Pixels a millimetre. */
        this.factor = Math.max(Math.min(room.x / long, room.y / high), 0.0001);
        this.left = MARGIN.left + (room.x - long * this.factor) / 2;
        this.bottom = MARGIN.top + (room.y + high * this.factor) / 2;
    }

    /**
     * From the south-west corner.
     * @param {number} mm
     */
    x(mm) {
        return pixel(this.left + mm * this.factor);
    }

    /** @param {number} mm */
    y(mm) {
        return pixel(this.bottom - mm * this.factor);
    }

    /** @param {number} mm */
    length(mm) {
        return pixel(mm * this.factor);
    }
}

/**
 * How far each line is from the first of its direction: x lines northward, y lines eastward.
 * @param {Floor} floor @returns {Record<Way, number[]>}
 */
export function linesInMm(floor) {
    return { x: stations(floor.spans[across('x')]), y: stations(floor.spans[across('y')]) };
}

/** So wide a digit is at most, as a share of its height. */
const DIGIT_WIDTH = 0.64;

/** The sizes of text in the plan, in pixels, the better first. */
const TEXT_SIZES = [12, 9];

/**
 * The size at which a text fits, or 0 where it does not fit at all.
 * @param {string} text @param {number} width @param {number} height
 */
export function sizeThatFits(text, width, height) {
    return TEXT_SIZES.find((size) => DIGIT_WIDTH * size * text.length + 1 <= width && size <= height) ?? 0;
}
