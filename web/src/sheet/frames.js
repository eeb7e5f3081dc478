// The frames of a clear floor as the fixer's sheet has them.

import { element } from '../dom.js';
import { WAYS } from '../floor.js';
import { frameOf } from '../moments/frame.js';
import { courseOf, frameName } from '../moments/names.js';
import { SUPPORTS_CAPTION, headRow, spanRows, supportRow } from '../moments/rows.js';
import { sayBars, STRIPS } from '../schedule.js';
import { linesOf } from '../table.js';
import { kNm } from '../units.js';

/** @typedef {import('../judge.js').Judged} Judged */
/** @typedef {import('../moments/frame.js').Frame} Frame */
/** @typedef {import('../moments/names.js').SectionName} SectionName */

/**
 * Every x line, then every y line.
 * @param {Judged} judged of a clear floor
 */
export function frameSections(judged) {
    return WAYS.flatMap((way) => Array.from({ length: linesOf(judged.floor, way) }, (_, line) => {
        const heading = `${frameName(judged.floor, way, line)}: spans ${courseOf(way)}, moments in kN·m`;
        return frameSection(heading, frameOf(judged, way, line));
    }));
}

/** @param {string} heading @param {Frame} frame */
function frameSection(heading, frame) {
    const bodies = frame.lengths.map((length, span) => {
        const leading = [element('th', { rowspan: 3 }, String(span)), element('td', { rowspan: 3 }, String(length))];
        return spanRows(frame.way, leading, (section, part) => printedMoment(frame.spans[span][section][part]),
            (section) => printedBars(frame, span, section));
    });
    const supports = frame.supports.map((moments, support) => supportRow(frame.way, support, (part) => printedMoment(moments[part])));
    return element('section', { class: 'frame' }, element('h2', {}, heading),
        element('table', { class: 'spans' }, headRow(['span', 'length, mm', 'section', 'steel'], frame.bars !== null), ...bodies),
        element('table', { class: 'supports' }, element('caption', {}, SUPPORTS_CAPTION), headRow(['support', 'at', 'steel']),
            element('tbody', {}, ...supports)));
}

/** @param {number} nCm */
function printedMoment(nCm) {
    return element('td', { class: 'moment' }, kNm(nCm));
}

/**
 * Of both strips, or nothing where the schedule is refused.
 * @param {Frame} frame @param {number} span @param {SectionName} section
 */
function printedBars({ bars }, span, section) {
    return bars === null ? [] : STRIPS.map((strip) => element('td', { class: 'bars' }, sayBars(bars[span][section][strip])));
}
