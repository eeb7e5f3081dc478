// The faults of a text, in the words of `slab make`.

/**
 * What is wrong with a text, and where: the line counts from 1, and 0 is the text as a whole.
 * @typedef {{line: number, words: string}} Fault
 */

// More than these say nothing new.
const MOST_FAULTS_SAID = 20;

/**
 * A line for each fault, as `slab make` has them.
 * @param {string} name what to call the text @param {Fault[]} faults
 * @returns {string[]}
 */
export function sayFaults(name, faults) {
    const said = faults.slice(0, MOST_FAULTS_SAID).map(({ line, words }) => (line === 0 ? `${name} ${words}` : `${name}, line ${line}: ${words}`));
    const left = faults.length - said.length;
    return left === 0 ? said : [...said, `and ${left} more`];
}
