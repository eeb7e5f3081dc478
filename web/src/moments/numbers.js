// A frame's numbers in two tables: the three sections of each span with its static moment and its bars, and the governing negative at each support.

import { element } from '../dom.js';
import { sayLayer } from '../say/depths.js';
import { BARS_NOTE, sayBars, STRIPS } from '../schedule.js';
import { kNm, kNmOfNm } from '../units.js';
import { SUPPORTS_CAPTION, headRow, spanRows, supportRow } from './rows.js';

/** @typedef {import('../dom.js').Attributes} Attributes */
/** @typedef {import('./frame.js').Frame} Frame */
/** @typedef {import('./names.js').SectionName} SectionName */
/**
 * How moments, and static moments, are written.
 * @typedef {{units: string, moment: (nCm: number) => string, mo: (nM: number) => string}} Writing
 */
/** @typedef {(frame: Frame, writing: Writing) => string} Reading */

/** @type {Writing} */
const ROUNDED_UP = {
    units: 'Moments, and the static moment Mo of each span, in kN·m, rounded up to the next 0.01.',
    moment: kNm,
    mo: kNmOfNm,
};

/** @type {Writing} */
const EXACT = {
    units: 'Moments in N·cm, and the static moment Mo of each span in N·m, exact. The diagram is in kN·m.',
    moment: String,
    mo: String,
};

/** The tables are made anew only for other spans, or where bars come or go; otherwise just the cells that differ are written. */
export class FrameTables {
    constructor() {
        this.units = element('p', { class: 'units' });
        this.spans = element('table', { id: 'frame-table' });
        this.supports = element('table', { id: 'support-table' });
        this.shape = '';
        /** @type {{text: Text, reading: Reading}[]} */
        this.cells = [];
    }

    /** @param {Frame} frame @param {boolean} exact */
    show(frame, exact) {
        const shape = `${frame.way} ${frame.lengths.length} ${frame.bars === null}`;
        if (shape !== this.shape) {
            this.shape = shape;
            this.make(frame);
        }
        const writing = exact ? EXACT : ROUNDED_UP;
        this.units.textContent = frame.bars === null ? writing.units : `${writing.units} ${BARS_NOTE}`;
        for (const { text, reading } of this.cells) {
            const words = reading(frame, writing);
            if (text.data !== words) {
                text.data = words;
            }
        }
    }

    /** @param {Frame} frame */
    make(frame) {
        this.cells = [];
        const rows = frame.supports.map((_, support) => supportRow(frame.way, support, (part) => this.cell(
            { class: 'moment', 'data-support': support, 'data-part': part },
            ({ supports }, { moment }) => moment(supports[support][part]),
        )));
        this.spans.replaceChildren(this.spansCaption(frame), headRow(['span', 'length, mm', 'Mo', 'section', 'steel'], frame.bars !== null),
            ...frame.lengths.map((_, span) => this.spanBody(frame, span)));
        this.supports.replaceChildren(element('caption', {}, SUPPORTS_CAPTION), headRow(['support', 'at', 'steel']), element('tbody', {}, ...rows));
    }

    /** @param {Frame} frame */
    spansCaption({ bars }) {
        const layer = () => element('span', { class: 'layer' }, this.text(({ way, depth }) => sayLayer(way, depth)));
        return element('caption', {}, 'three sections of each span ', ...(bars === null ? [] : [layer()]));
    }

    /** @param {Frame} frame @param {number} span */
    spanBody(frame, span) {
        const leading = [
            element('th', { rowspan: 3 }, String(span)),
            this.cell({ rowspan: 3 }, ({ lengths }) => String(lengths[span])),
            this.cell({ class: 'mo', rowspan: 3, 'data-span': span }, ({ spans }, { mo }) => mo(spans[span].mo)),
        ];
        return spanRows(frame.way, leading, (section, part) => this.cell(
            { class: 'moment', 'data-span': span, 'data-section': section, 'data-part': part },
            ({ spans }, { moment }) => moment(spans[span][section][part]),
        ), (section) => (frame.bars === null ? [] : this.barCells(span, section)));
    }

    /** @param {number} span @param {SectionName} section */
    barCells(span, section) {
        return STRIPS.map((strip) => this.cell(
            { class: 'bars', 'data-span': span, 'data-section': section, 'data-strip': strip },
            ({ bars }) => (bars === null ? '' : sayBars(bars[span][section][strip])),
        ));
    }

    /** @param {Attributes} attributes @param {Reading} reading */
    cell(attributes, reading) {
        return element('td', attributes, this.text(reading));
    }

    /** @param {Reading} reading */
    text(reading) {
        const text = document.createTextNode('');
        this.cells.push({ text, reading });
        return text;
    }
}
