// Floors drawn from a seed: every layout of beams, offsets, sides, values in range and out of it.

import { WAYS, across } from '../src/floor.js';

/** @typedef {import('../src/floor.js').Floor} Floor */
/** @typedef {import('../src/floor.js').Pair} Pair */

const MOST = 0xffff_ffff;

/** The same numbers for the same seed (mulberry32). */
export class Draw {
    /** @param {number} seed */
    constructor(seed) {
        this.state = seed >>> 0;
    }

    /** 0 to 2^32 - 1. */
    number() {
        this.state = (this.state + 0x6d2b79f5) >>> 0;
        let mixed = Math.imul(this.state ^ (this.state >>> 15), this.state | 1);
        mixed ^= mixed + Math.imul(mixed ^ (mixed >>> 7), mixed | 61);
        return (mixed ^ (mixed >>> 14)) >>> 0;
    }

    /** @param {number} count */
    below(count) {
        return Math.floor((this.number() / 2 ** 32) * count);
    }

    /** @param {number} least @param {number} most @param {number} step */
    between(least, most, step = 1) {
        return least + step * this.below(Math.floor((most - least) / step) + 1);
    }

    /** @template T @param {ArrayLike<T>} choices @returns {T} */
    among(choices) {
        return choices[this.below(choices.length)];
    }

    /**
     * True once in so many.
     * @param {number} times
     */
    once(times) {
        return this.below(times) === 0;
    }

    /** @template T @param {number} length @param {(at: number) => T} make @returns {T[]} */
    list(length, make) {
        return Array.from({ length }, (_, at) => make(at));
    }
}

/**
 * A floor that the library accepts, clear or not.
 * @param {Draw} draw @param {number} mostBays
 * @returns {Floor}
 */
export function drawAccepted(draw, mostBays = 12) {
    const t = draw.between(90, draw.among([120, 300, 500]));
    const spans = { x: drawSpans(draw, draw.between(1, mostBays)), y: drawSpans(draw, draw.between(1, mostBays)) };
    const layout = draw.among([() => false, isOuter, () => true]);
    const size = (/** @type {number[]} */ along) => draw.between(200, Math.min(1500, Math.min(...along) / 2), 10);
    return {
        t,
        fc: draw.between(20, 60),
        fy: draw.among([280, 420, 520]),
        dead: draw.between(1000, 30000),
        live: draw.between(0, draw.among([10000, 50000])),
        cx: size(spans.x),
        cy: size(spans.y),
        sides: draw.list(4, () => draw.below(3)).reduce((sum, code, side) => sum + code * 4 ** side, 0),
        spans,
        beams: { x: drawBeams(draw, t, spans.y.length + 1, layout), y: drawBeams(draw, t, spans.x.length + 1, layout) },
        offsets: drawOffsets(draw, (spans.x.length + 1) * (spans.y.length + 1)),
    };
}

/**
 * Much alike or of any length.
 * @param {Draw} draw @param {number} count
 */
function drawSpans(draw, count) {
    const [least, most] = draw.among([[1000, 12000], [4000, 8000], [6000, 6400]]);
    return draw.list(count, () => draw.between(least, most, 20));
}

/** @param {number} line @param {number} last */
function isOuter(line, last) {
    return line === 0 || line === last;
}

/**
 * @param {Draw} draw @param {number} t @param {number} count @param {(line: number, last: number) => boolean} layout
 * @returns {Pair[]}
 */
function drawBeams(draw, t, count, layout) {
    const size = () => /** @type {Pair} */ ([draw.between(150, 1000), draw.between(t + 1, draw.among([t + 40, 1500]))]);
    const alike = size();
    const isAlike = draw.once(2);
    return draw.list(count, (line) => (!layout(line, count - 1) ? [0, 0] : isAlike ? [...alike] : size()));
}

/** @param {Draw} draw @param {number} count @returns {Pair[]} */
function drawOffsets(draw, count) {
    const [times, most] = draw.among([[1, 12000], [3, 1000], [10, 600], [Infinity, 0]]);
    return draw.list(count, () => (draw.once(times) ? [draw.between(0, most), draw.among([0, draw.between(0, most)])] : [0, 0]));
}

/**
 * Numbers that a field of four bytes may have.
 * @param {Draw} draw
 */
function drawOdd(draw) {
    return draw.among([0, 1, 89, 255, 256, 501, 65535, 65536, 12001, 12020, 0x7fff_ffff, 0x8000_0000, MOST, draw.number()]);
}

/**
 * A floor file's numbers, accepted or not: values out of range, beams anywhere, no bays or too many.
 * @param {Draw} draw
 * @returns {Floor}
 */
export function drawAny(draw) {
    const floor = drawAccepted(draw, 5);
    for (let left = draw.below(6); left > 0; left -= 1) {
        draw.among([oddNumber, oddSpan, oddBeam, oddOffset, otherBays])(draw, floor);
    }
    return floor;
}

/** @param {Draw} draw @param {Floor} floor */
function oddNumber(draw, floor) {
    /** @type {('t' | 'fc' | 'fy' | 'dead' | 'live' | 'cx' | 'cy' | 'sides')[]} */
    const names = ['t', 'fc', 'fy', 'dead', 'live', 'cx', 'cy', 'sides'];
    floor[draw.among(names)] = drawOdd(draw);
}

/** @param {Draw} draw @param {Floor} floor */
function oddSpan(draw, floor) {
    const spans = floor.spans[draw.among(WAYS)];
    if (spans.length > 0) {
        spans[draw.below(spans.length)] = drawOdd(draw);
    }
}

/** @param {Draw} draw @param {Pair[]} pairs */
function oddPair(draw, pairs) {
    pairs[draw.below(pairs.length)] = [drawOdd(draw), draw.among([0, drawOdd(draw)])];
}

/** @param {Draw} draw @param {Floor} floor */
function oddBeam(draw, floor) {
    oddPair(draw, floor.beams[draw.among(WAYS)]);
}

/** @param {Draw} draw @param {Floor} floor */
function oddOffset(draw, floor) {
    oddPair(draw, floor.offsets);
}

/** @param {Draw} draw @param {Floor} floor */
function otherBays(draw, floor) {
    const way = draw.among(WAYS);
    floor.spans[way] = draw.list(draw.among([0, 1, 13, 20]), () => draw.between(1000, 12000, 20));
    floor.beams[across(way)] = draw.list(floor.spans[way].length + 1, () => draw.among([[0, 0], [300, 600]]));
    floor.offsets = drawOffsets(draw, floor.beams.x.length * floor.beams.y.length);
}
