// Beams and offsets put in their places, once the spans say how many lines there are.

/** @typedef {import('../floor.js').Way} Way */
/** @typedef {import('./faults.js').Fault} Fault */
/** @typedef {import('../floor.js').Pair} Pair */
/** @typedef {import('./line.js').SaidBeam & {line: number}} GivenBeam a beam, and the line of the text that gives it */
/** @typedef {import('./line.js').SaidOffset & {line: number}} GivenOffset */

/** The places of one sort: their pairs, and the line of the text that gave each. */
class GivenPairs {
    /** @param {number} count */
    constructor(count) {
        /** @type {Pair[]} */
        this.pairs = Array.from({ length: count }, () => [0, 0]);
        /** @type {number[]} */
        this.lines = new Array(count).fill(0);
    }

    /**
     * The words of the fault where the place was given before, or nothing.
     * @param {number} at @param {{line: number, pair: Pair}} given @param {string} name
     */
    give(at, { line, pair }, name) {
        const first = this.lines[at];
        this.pairs[at] = [pair[0], pair[1]];
        this.lines[at] = line;
        return first === 0 ? '' : `expected ${name} once, and line ${first} gives it already`;
    }
}

/**
 * The beams put on their lines, once the spans say how many there are.
 * @param {GivenBeam[]} beams @param {{x: number, y: number}} counts how many lines run along each way
 * @returns {{beams: {x: Pair[], y: Pair[]}, faults: Fault[]}}
 */
export function placeBeams(beams, counts) {
    const x = new GivenPairs(counts.x);
    const y = new GivenPairs(counts.y);
    const faults = beams.flatMap((beam) => faultOn(beam.line, giveBeam(x, 'x', beam) || giveBeam(y, 'y', beam)));
    return { beams: { x: x.pairs, y: y.pairs }, faults };
}

/** @param {number} line @param {string} words of a fault, or nothing @returns {Fault[]} */
function faultOn(line, words) {
    return words === '' ? [] : [{ line, words }];
}

/**
 * The words of a fault, or nothing.
 * @param {GivenPairs} places @param {Way} way @param {GivenBeam} beam
 */
function giveBeam(places, way, beam) {
    const count = places.pairs.length;
    const [first, end, step] = beam.beamOn(way, count);
    for (let number = first; number < end; number += step) {
        if (number >= count) {
            return `expected one of the ${way} lines 0 to ${count - 1} that the spans make, found ${number}`;
        }
        const fault = places.give(number, beam, `the beam on ${way} line ${number}`);
        if (fault !== '') {
            return fault;
        }
    }
    return '';
}

/**
 * The offsets put to their columns.
 * @param {GivenOffset[]} offsets @param {number} nx @param {number} ny
 * @returns {{offsets: Pair[], faults: Fault[]}}
 */
export function placeOffsets(offsets, nx, ny) {
    const columns = new GivenPairs((nx + 1) * (ny + 1));
    const faults = offsets.flatMap((offset) => {
        const [i, j] = offset.column;
        const words = i <= nx && j <= ny
            ? columns.give(j * (nx + 1) + i, offset, `the offset of column ${i} ${j}`)
            : `expected a column on y lines 0 to ${nx} and x lines 0 to ${ny}, which the spans make, found column ${i} ${j}`;
        return faultOn(offset.line, words);
    });
    return { offsets: columns.pairs, faults };
}
