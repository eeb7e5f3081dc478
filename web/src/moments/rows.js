// The rows that a frame's tables have on the screen and on the sheet alike.

import { element } from '../dom.js';
import { STRIPS } from '../schedule.js';
import { PARTS, SECTIONS } from '../table.js';
import { PART_NAMES, STEEL_OF_SECTION, sectionName, supportName } from './names.js';

/** @typedef {import('../floor.js').Way} Way */
/** @typedef {import('../table.js').Section} Section */
/** @typedef {import('./names.js').SectionName} SectionName */

export const SUPPORTS_CAPTION = 'larger moment of the two faces at each support';

/**
 * The columns before the parts, the parts, then the bars.
 * @param {string[]} leading @param {boolean} barred whether bars are shown
 */
export function headRow(leading, barred = false) {
    const names = [...leading, ...PARTS.map((part) => PART_NAMES[part])].map((name) => element('th', {}, name));
    const bars = STRIPS.map((strip) => element('th', { class: 'bars' }, `bars, ${PART_NAMES[strip]}`));
    return element('thead', {}, element('tr', {}, ...names, ...(barred ? bars : [])));
}

/**
 * A span's three sections. What leads stands before all three.
 * @param {Way} way @param {HTMLElement[]} leading each three rows high
 * @param {(section: SectionName, part: keyof Section) => HTMLElement} cell
 * @param {(section: SectionName) => HTMLElement[]} bars none where none are shown
 */
export function spanRows(way, leading, cell, bars) {
    const rows = SECTIONS.map((section) => element('tr', {}, ...(section === 'low' ? leading : []), element('td', {}, sectionName(way, section)),
        element('td', {}, STEEL_OF_SECTION[section]), ...PARTS.map((part) => cell(section, part)), ...bars(section)));
    return element('tbody', {}, ...rows);
}

/** @param {Way} way @param {number} support @param {(part: keyof Section) => HTMLElement} cell */
export function supportRow(way, support, cell) {
    return element('tr', {}, element('th', {}, String(support)), element('td', {}, supportName(way, support)), element('td', {}, 'top'),
        ...PARTS.map((part) => cell(part)));
}
