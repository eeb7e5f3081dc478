// The sentences that the command and the page share (words/).

/**
 * Each sentence by its number: of a limit, of a refusal, of a kind of record whose range it says.
 * @typedef {{limits: Map<number, string>, refusals: Map<number, string>, ranges: Map<number, string>}} Words
 */

/** @param {{limits: string, refusals: string, ranges: string}} texts of words/, each line `NUMBER sentence` @returns {Words} */
export function readWords(texts) {
    return { limits: sentencesOf(texts.limits), refusals: sentencesOf(texts.refusals), ranges: sentencesOf(texts.ranges) };
}

/** @param {string} text @returns {Map<number, string>} */
function sentencesOf(text) {
    const lines = text.matchAll(/^(\d+) (.+)$/gm);
    return new Map(Array.from(lines, ([, number, sentence]) => [Number(number), sentence]));
}
