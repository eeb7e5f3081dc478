// Which lines of the floor a beam is given to.

/** @typedef {import('../floor.js').Way} Way */
/** @typedef {import('./reader.js').LineReader} LineReader */

/**
 * Of `count` lines along `way` each from the first on, below the end, by the step. A line that is named by its number need not be there.
 * @typedef {(way: Way, count: number) => [first: number, end: number, step: number]} BeamLines
 */

/** @type {BeamLines} */
const ALL_LINES = (_, count) => [0, count, 1];

/** @param {Way} only @param {BeamLines} lines @returns {BeamLines} */
function alongOnly(only, lines) {
    return (way, count) => (way === only ? lines(way, count) : [0, 0, 1]);
}

/** @type {[key: string, lines: BeamLines][]} */
const GROUPS_OF_LINES = [
    ['x lines', alongOnly('x', ALL_LINES)],
    ['y lines', alongOnly('y', ALL_LINES)],
    ['outer lines', (_, count) => [0, count, Math.max(count - 1, 1)]],
    ['inner lines', (_, count) => [1, count - 1, 1]],
    ['all lines', ALL_LINES],
];

/**
 * The line or lines that the words name, if they begin so.
 * @param {LineReader} reader
 * @returns {BeamLines | null}
 */
export function readBeamLines(reader) {
    const group = reader.oneOf(GROUPS_OF_LINES.map(([key]) => key));
    if (group !== -1) {
        return GROUPS_OF_LINES[group][1];
    }
    /** @type {Way[]} */
    const ways = ['x', 'y'];
    const way = ways.find((one) => reader.pass(`${one} line`));
    if (way === undefined) {
        return null;
    }
    const number = reader.number(`the ${way} line's number`);
    return alongOnly(way, () => [number, number + 1, 1]);
}
