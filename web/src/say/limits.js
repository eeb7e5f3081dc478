// The limits that a floor breaks, each with its sentence and its places.

/** @typedef {import('../judge.js').Judged} Judged */
/** @typedef {import('../judge.js').Place} Place */
/** @typedef {import('./words.js').Words} Words */

/** What is said of a floor with verdict 0. */
export const CLEAR_SENTENCE = 'clear: no limit of the Direct Design Method is broken and the slab is thick enough';

// 01, "The verdict": "A sum of what is broken".
const LIMIT_NUMBERS = [1, 2, 4, 8, 16, 32, 64];

/**
 * Every limit that the verdict has in it, in the order of the limits.
 * @param {Words} words @param {Judged} judged
 * @returns {{limit: number, sentence: string, places: Place[]}[]}
 */
export function brokenLimits(words, judged) {
    const broken = LIMIT_NUMBERS.filter((limit) => (judged.verdict & limit) !== 0);
    return broken.map((limit) => ({
        limit,
        sentence: words.limits.get(limit) ?? `limit ${limit}`,
        places: judged.places.filter((place) => place.limit === limit),
    }));
}
