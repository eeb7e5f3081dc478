// The places where a limit is broken, in words with the floor's numbers that break it.

import { columnIndex } from '../floor.js';
import { countAlong } from '../judge.js';

/** @typedef {import('../floor.js').Floor} Floor */
/** @typedef {import('../floor.js').Way} Way */
/** @typedef {import('../judge.js').Judged} Judged */
/** @typedef {import('../judge.js').Place} Place */

/**
 * Of each limit, how a place that breaks it is said.
 * @type {Map<number, (judged: Judged, place: Place) => string>}
 */
const SAYERS_OF_PLACES = new Map([
    [1, sayFewBays],
    [2, saySlenderPanel],
    [4, sayNeighbours],
    [8, sayColumn],
    [16, sayLoads],
    [32, sayUnequalPanel],
    [64, sayThinPanel],
]);

/**
 * A place where a limit is broken, with the floor's numbers there: the line that `slab check --all` has for it.
 * @param {Judged} judged @param {Place} place
 * @returns {string}
 */
export function sayPlace(judged, place) {
    const say = SAYERS_OF_PLACES.get(place.limit);
    if (say === undefined) {
        throw new RangeError(`there is no limit ${place.limit}`);
    }
    return say(judged, place);
}

/** @param {Judged} judged @param {Place} place */
function sayFewBays({ floor }, { way }) {
    const bays = floor.spans[way].length;
    return `${bays} bay${bays === 1 ? '' : 's'} along ${way}`;
}

/** @param {Judged} judged @param {Place} place */
function saySlenderPanel({ floor }, place) {
    return `${panelNamed(place)}: ${panelSize(floor, place)}, of which the longer is more than twice the shorter`;
}

/** @param {Judged} judged @param {Place} place */
function sayNeighbours({ floor }, place) {
    const first = countAlong(place);
    const [one, next] = floor.spans[place.way].slice(first, first + 2);
    return `${place.way} spans ${first} and ${first + 1}: ${one} and ${next} mm, which differ by more than a third of the longer`;
}

/** @param {Judged} judged @param {Place} place */
function sayColumn({ floor }, place) {
    const { way, i, j } = place;
    const [alongX, alongY] = floor.offsets[columnIndex(floor, i, j)];
    const line = countAlong(place);
    const beside = [line - 1, line].filter((span) => span in floor.spans[way]);
    const lengths = beside.map((span) => floor.spans[way][span]);
    const spans = `${way} span${beside.length === 1 ? '' : 's'} ${beside.join(' and ')}`;
    return `column on y line ${i}, x line ${j}: ${way === 'x' ? alongX : alongY} mm off along ${way}, beside ${spans} of ${lengths.join(' and ')} mm`;
}

/** @param {Judged} judged */
function sayLoads({ floor }) {
    return `live load ${floor.live} N/m², dead load ${floor.dead}`;
}

/**
 * The stiffness of the lines is the library's own: the beams that it comes from are shown.
 * @param {Judged} judged @param {Place} place
 */
function sayUnequalPanel({ floor }, place) {
    return `${panelNamed(place)}: ${panelSize(floor, place)}, beams ${beamsBeside(floor, 'x', place.j)}, ${beamsBeside(floor, 'y', place.i)}`;
}

/** @param {Judged} judged @param {Place} place */
function sayThinPanel({ floor, least }, place) {
    return `${panelNamed(place)}: ${least[place.j][place.i]} mm needed, slab ${floor.t}`;
}

/** @param {Place} place */
function panelNamed({ i, j }) {
    return `panel of x bay ${i}, y bay ${j}`;
}

/**
 * Along x by along y.
 * @param {Floor} floor @param {Place} place
 */
function panelSize({ spans }, { i, j }) {
    return `${spans.x[i]} by ${spans.y[j]} mm`;
}

/**
 * Those on the two lines beside a bay.
 * @param {Floor} floor @param {Way} way of the lines @param {number} bay across them
 */
function beamsBeside(floor, way, bay) {
    const sizes = floor.beams[way].slice(bay, bay + 2).map(([width, depth]) => `${width} by ${depth}`);
    return `${[...new Set(sizes)].join(' and ')} on ${way} lines ${bay} and ${bay + 1}`;
}
