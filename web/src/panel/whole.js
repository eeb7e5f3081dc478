// The numbers of the whole floor. Loads are a change; slab, materials, columns and sides are none that 01 allows: the floor is opened anew with them.

import { bytesOf, LOADS_KIND, recordOf } from '../floor.js';
import { CODES, codeOf, SIDES, withCode } from '../sides.js';
import { choiceField, headingField, numberField } from './fields.js';

/** @typedef {import('../floor.js').Floor} Floor */
/** @typedef {import('./fields.js').Field} Field */
/** @typedef {import('./fields.js').Hand} Hand */

/** "fy 280, 420 or 520" */
const GRADES = [280, 420, 520];

/** @param {Hand} hand @returns {Field[]} */
export function wholeFields(hand) {
    /** @param {Partial<Floor>} numbers */
    const anew = (numbers) => hand.reopen(bytesOf({ ...hand.floor(), ...numbers }));
    /** @param {'t' | 'fc' | 'cx' | 'cy'} of @param {string} label @param {string} unit @param {string} id */
    const single = (of, label, unit, id) =>
        numberField(hand, { label, unit, attributes: { id }, read: (floor) => floor[of], send: (value) => anew({ [of]: value }) });
    return [
        headingField('Loads'),
        loadField(hand, 'dead', 'dead, slab included'),
        loadField(hand, 'live', 'live'),
        headingField('Slab and materials'),
        single('t', 'slab thickness', 'mm', 'slab'),
        single('fc', 'concrete, fc', 'MPa', 'concrete'),
        choiceField(hand, {
            label: 'steel, fy in MPa',
            id: 'steel',
            choices: GRADES,
            read: (floor) => GRADES.indexOf(floor.fy),
            send: (grade) => anew({ fy: GRADES[grade] }),
        }),
        headingField('Columns and sides'),
        single('cx', 'columns along x', 'mm', 'cx'),
        single('cy', 'columns along y', 'mm', 'cy'),
        ...SIDES.map((side) =>
            choiceField(hand, {
                label: `${side} side`,
                id: side,
                choices: CODES,
                read: (floor) => codeOf(floor.sides, side),
                send: (code) => anew({ sides: withCode(hand.floor().sides, side, code) }),
            }),
        ),
    ];
}

/** @param {Hand} hand @param {'dead' | 'live'} of @param {string} label */
function loadField(hand, of, label) {
    const send = (/** @type {number} */ value) => {
        const loads = { dead: hand.floor().dead, live: hand.floor().live };
        loads[of] = value;
        hand.take([recordOf(LOADS_KIND, 0, loads.dead, loads.live)]);
    };
    return numberField(hand, { label, unit: 'N/m²', attributes: { id: of }, read: (floor) => floor[of], send });
}
