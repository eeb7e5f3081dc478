// One frame with all its numbers. It is read from the table of a clear floor and its schedule, and from nothing else.

import { barDepth } from '../say/depths.js';
import { frameBars } from '../schedule.js';
import { spanRecord, supportAt } from '../table.js';

/** @typedef {import('../floor.js').Way} Way */
/** @typedef {import('../judge.js').Judged} Judged */
/** @typedef {import('../schedule.js').SpanBars} SpanBars */
/** @typedef {import('../table.js').Section} Section */
/** @typedef {import('../table.js').SpanRecord} SpanRecord */
/**
 * The columns' size is that along the frame, in mm as are the lengths and the bars' depth; `bars` of each span, or null where none are shown.
 * @typedef {{way: Way, line: number, lengths: number[], columns: number, spans: SpanRecord[], bars: SpanBars[] | null, depth: number,
 *     supports: Section[]}} Frame
 */

/** @param {Judged} judged of a clear floor @param {Way} way @param {number} line @returns {Frame} */
export function frameOf(judged, way, line) {
    const { spans, cx, cy } = judged.floor;
    const lengths = spans[way];
    return {
        way,
        line,
        lengths,
        columns: way === 'x' ? cx : cy,
        spans: lengths.map((_, span) => spanRecord(judged, way, line, span)),
        bars: frameBars(judged, way, line),
        depth: barDepth(judged.floor, way),
        supports: [0, ...lengths].map((_, support) => supportAt(judged, way, line, support)),
    };
}
