// "Sides = west + 4·east + 16·south + 64·north, each 0 columns, 1 unrestrained, 2 fully restrained"

/** @typedef {'west' | 'east' | 'south' | 'north'} Side */

/** @type {Side[]} */
export const SIDES = ['west', 'east', 'south', 'north'];
export const CODES = ['columns', 'unrestrained', 'restrained'];

/** @param {number} sum @param {Side} side */
export function codeOf(sum, side) {
    return Math.floor(sum / 4 ** SIDES.indexOf(side)) % 4;
}

/** @param {number[]} codes in the order of the sides */
export function sumOfSides(codes) {
    return codes.reduce((sum, code, side) => sum + code * 4 ** side, 0);
}

/** @param {number} sum @param {Side} side @param {number} code */
export function withCode(sum, side, code) {
    return sum + (code - codeOf(sum, side)) * 4 ** SIDES.indexOf(side);
}
