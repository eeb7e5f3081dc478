// The fixer's sheet, element for element what `slab sheet --html` writes: of a clear floor every frame, of any other what is broken and no figure.

import { element } from '../dom.js';
import { sayLayers } from '../say/depths.js';
import { brokenLimits, CLEAR_SENTENCE } from '../say/limits.js';
import { sayUnbarred } from '../say/refusals.js';
import { BARS_NOTE } from '../schedule.js';
import { frameSections } from './frames.js';

/** @typedef {import('../floor.js').Floor} Floor */
/** @typedef {import('../judge.js').Judged} Judged */
/** @typedef {import('../say/words.js').Words} Words */

const BROKEN_STANDING = 'not clear: no moment stands, and nothing may be built from this sheet';
const SHEET_NOTES = 'Moments in kN·m, rounded up to the next 0.01. Top and bottom say where in the slab the steel lies. Lines, spans and supports '
    + 'count from 0; x lines run west to east, y lines south to north. Column strip: beam and slab together.';

/** @param {Judged} judged @param {string} name @param {string} date @param {Words} words */
export function sheetOf(judged, name, date, words) {
    const head = element('div', { class: 'head' }, element('h1', {}, name), paragraph('date', date));
    return judged.verdict === 0
        ? element('article', { class: 'sheet clear' }, head, ...clearFloor(judged, words))
        : element('article', { class: 'sheet broken' }, head, ...brokenFloor(judged, words));
}

/** @param {Judged} judged @param {Words} words */
function clearFloor(judged, words) {
    const { refusal } = judged.schedule;
    const head = [paragraph('facts', floorFacts(judged.floor)), paragraph('standing', CLEAR_SENTENCE)];
    const notes = refusal === 0
        ? [paragraph('notes', `${SHEET_NOTES} ${BARS_NOTE} ${sayLayers(judged.floor)}`)]
        : [paragraph('unbarred', sayUnbarred(words, refusal)), paragraph('notes', SHEET_NOTES)];
    return [...head, ...notes, ...frameSections(judged)];
}

/** @param {Judged} judged @param {Words} words */
function brokenFloor(judged, words) {
    const sentences = brokenLimits(words, judged).map(({ sentence }) => element('li', {}, sentence));
    return [paragraph('standing', BROKEN_STANDING), paragraph('notes', 'What is broken:'), element('ul', {}, ...sentences)];
}

/** @param {Floor} floor */
export function floorFacts({ t, fc, fy, dead, live }) {
    return `slab ${t} mm, concrete fc ${fc} MPa, steel fy ${fy} MPa, dead load ${dead} N/m² (slab included), live load ${live} N/m²`;
}

/** @param {string} kind @param {string} words */
function paragraph(kind, words) {
    return element('p', { class: kind }, words);
}
