// What is picked in the plan, with the fields that change it.

import { element } from '../dom.js';
import { across, BEAM_KIND, columnIndex, OFFSET_KIND, recordOf, SPAN_KIND } from '../floor.js';
import { columnKey, lineKey, panelKey, spanKey } from '../plan/marks.js';
import { headingField, numberField } from './fields.js';

/** @typedef {import('../floor.js').Floor} Floor */
/** @typedef {import('../floor.js').Pair} Pair */
/** @typedef {import('../floor.js').Way} Way */
/** @typedef {import('./fields.js').Field} Field */
/** @typedef {import('./fields.js').Hand} Hand */
/** @typedef {{sort: 'panel' | 'column', i: number, j: number} | {sort: 'line' | 'span', way: Way, number: number}} Picked */

/** @param {Picked} picked */
export function keyOfPicked(picked) {
    switch (picked.sort) {
        case 'panel':
            return panelKey(picked.i, picked.j);
        case 'column':
            return columnKey(picked.i, picked.j);
        case 'line':
            return lineKey(picked.way, picked.number);
        case 'span':
            return spanKey(picked.way, picked.number);
    }
}

/**
 * Whether the floor has it.
 * @param {Floor} floor @param {Picked} picked
 */
export function isThere({ spans, beams }, picked) {
    switch (picked.sort) {
        case 'panel':
            return picked.i in spans.x && picked.j in spans.y;
        case 'column':
            return picked.i in beams.y && picked.j in beams.x;
        case 'line':
            return picked.number in beams[picked.way];
        case 'span':
            return picked.number in spans[picked.way];
    }
}

/** @param {Hand} hand @param {Picked} picked @returns {Field[]} */
export function pickedFields(hand, picked) {
    switch (picked.sort) {
        case 'panel':
            return [headingField(`Panel of x bay ${picked.i}, y bay ${picked.j}`), spanField(hand, 'x', picked.i), spanField(hand, 'y', picked.j)];
        case 'column':
            return columnFields(hand, picked);
        case 'line':
            return lineFields(hand, picked);
        case 'span':
            return [headingField(`${picked.way} span ${picked.number}`), spanField(hand, picked.way, picked.number)];
    }
}

/** @param {Hand} hand @param {Way} way @param {number} span */
function spanField(hand, way, span) {
    return numberField(hand, {
        label: `${way} span ${span}`,
        unit: 'mm',
        attributes: { 'data-span-way': way, 'data-span': span },
        read: (floor) => floor.spans[way][span],
        send: (value) => hand.take([recordOf(SPAN_KIND[way], span, value)]),
    });
}

/**
 * The two numbers of one record.
 * @param {Hand} hand @param {number} kind @param {number} index @param {(floor: Floor) => Pair} read
 * @param {[string, string][]} named label and id of each
 */
function pairFields(hand, kind, index, read, named) {
    return named.map(([label, id], which) =>
        numberField(hand, {
            label,
            unit: 'mm',
            attributes: { id },
            read: (floor) => read(floor)[which],
            send: (value) => {
                const pair = read(hand.floor()).slice();
                pair[which] = value;
                hand.take([recordOf(kind, index, ...pair)]);
            },
        }),
    );
}

/** @param {Hand} hand @param {{i: number, j: number}} column */
function columnFields(hand, { i, j }) {
    const index = columnIndex(hand.floor(), i, j);
    const fields = pairFields(hand, OFFSET_KIND, index, (floor) => floor.offsets[index], [
        ['off its line along x', 'offset-x'],
        ['off its line along y', 'offset-y'],
    ]);
    return [headingField(`Column on y line ${i}, x line ${j}`), ...fields];
}

/** @param {Hand} hand @param {{way: Way, number: number}} line */
function lineFields(hand, { way, number }) {
    const along = across(way);
    const beside = [number - 1, number].filter((span) => span >= 0 && span < hand.floor().spans[along].length);
    const beam = pairFields(hand, BEAM_KIND[way], number, (floor) => floor.beams[way][number], [
        ['beam width', 'beam-width'],
        ['beam depth', 'beam-depth'],
    ]);
    const hint = { node: element('p', { class: 'hint' }, 'Drag the line in the plan, or move it with the arrow keys.'), refresh: () => {} };
    return [headingField(`${way} line ${number}`), hint, ...beam, ...beside.map((span) => spanField(hand, along, span))];
}
