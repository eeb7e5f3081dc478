// A new floor from its bays, spans, slab and materials, which are asked for all at once.

import { holdDialog } from './dialogs.js';
import { byId } from './dom.js';
import { bytesOf } from './floor.js';
import { notWhole, wholeNumber } from './panel/fields.js';

/** @typedef {import('./floor.js').Floor} Floor */
/** @typedef {import('./floor.js').Pair} Pair */

/** More columns than these bays make have no numbers in a floor file. How many bays a floor may have is for the library to say. */
const MOST_BAYS = 255;

/** @param {string} id */
function typedIn(id) {
    return /** @type {HTMLInputElement | HTMLSelectElement} */ (byId(`grid-${id}`)).value;
}

/** @param {string} id @param {string} label */
function numberIn(id, label) {
    const number = wholeNumber(typedIn(id));
    if (number === null) {
        throw new RangeError(`${label}: ${notWhole(typedIn(id))}`);
    }
    return number;
}

/** @param {string} id @param {string} label */
function numbersIn(id, label) {
    const numbers = typedIn(id).split(/[\s,]+/).filter((word) => word !== '').map(wholeNumber);
    if (numbers.includes(null)) {
        throw new RangeError(`${label}: expected whole numbers with spaces between, found “${typedIn(id)}”`);
    }
    if (numbers.length > MOST_BAYS) {
        throw new RangeError(`${label}: expected at most ${MOST_BAYS} spans, found ${numbers.length}`);
    }
    return /** @type {number[]} */ (numbers);
}

/**
 * A beam on each line that the layout has one on.
 * @param {number} lines @param {Pair} beam @returns {Pair[]}
 */
function laidBeams(lines, beam) {
    const layout = typedIn('layout');
    return Array.from({ length: lines }, (_, line) => {
        const outer = line === 0 || line === lines - 1;
        return layout === 'all' || (layout === 'outer' && outer) ? beam : [0, 0];
    });
}

/**
 * The floor that the dialog says. Throws words where there is no number.
 * @returns {Floor}
 */
function floorInDialog() {
    const spans = { x: numbersIn('x', 'x spans'), y: numbersIn('y', 'y spans') };
    const [nx, ny] = [spans.x.length, spans.y.length];
    /** @type {Pair} */
    const beam = typedIn('layout') === 'none' ? [0, 0] : [numberIn('beam-width', 'beam width'), numberIn('beam-depth', 'beam depth')];
    return {
        t: numberIn('slab', 'slab thickness'),
        fc: numberIn('concrete', 'concrete, fc'),
        fy: numberIn('steel', 'steel, fy'),
        dead: numberIn('dead', 'dead load, slab included'),
        live: numberIn('live', 'live load'),
        cx: numberIn('cx', 'columns along x'),
        cy: numberIn('cy', 'columns along y'),
        sides: 0,
        spans,
        beams: { x: laidBeams(ny + 1, beam), y: laidBeams(nx + 1, beam) },
        offsets: Array.from({ length: (nx + 1) * (ny + 1) }, () => [0, 0]),
    };
}

/** The floor that the dialog says, or what in it is no number. */
function floorOrWords() {
    try {
        return floorInDialog();
    } catch (trouble) {
        if (trouble instanceof RangeError) {
            return trouble.message;
        }
        throw trouble;
    }
}

/** @param {(bytes: Uint8Array) => string[]} open what is wrong with the floor, or nothing where it is open now */
export function askForGrid(open) {
    const make = () => {
        const said = floorOrWords();
        return typeof said === 'string' ? [said] : open(bytesOf(said));
    };
    holdDialog({ button: 'new', dialog: 'grid', begin: () => {}, make });
}
