// The figures on the screen: those of example/garage.sheet for every frame of the garage, and the reference's for floors drawn from seeds.

import assert from 'node:assert/strict';
import { readFileSync } from 'node:fs';
import { join } from 'node:path';
import { test } from 'node:test';
import { floorOf } from '../../src/floor.js';
import { morning } from './morning.js';
import { GARAGE, pageOfTests, ROOT } from './page.js';

/** @typedef {import('../../src/floor.js').Floor} Floor */

const seat = pageOfTests();

const DRAWN_FLOORS = 20;
/** Of these, those whose kN·m are looked at too: one of each layout. */
const ROUNDED_FLOORS = 3;
const SECTIONS = ['low', 'between', 'high'];
const PARTS = ['total', 'column', 'middle', 'beam', 'slab'];

/**
 * The lines of a floor as the list of frames names them, with the number of spans of each.
 * @param {Floor} floor
 */
function framesOf({ spans }) {
    /** @type {{value: string, spans: number}[]} */
    const frames = [];
    spans.y.concat(0).forEach((_, line) => frames.push({ value: `x${line}`, spans: spans.x.length }));
    spans.x.concat(0).forEach((_, line) => frames.push({ value: `y${line}`, spans: spans.y.length }));
    return frames;
}

/**
 * What each cell of each frame has to show, by the cell's name.
 * @param {Floor} floor @param {number[]} table @param {number[]} governing
 */
function cellsWanted(floor, table, governing) {
    let [record, support] = [0, 0];
    return framesOf(floor).map(({ value, spans }) => {
        /** @type {Record<string, number>} */
        const cells = {};
        for (let span = 0; span < spans; span += 1, record += 16) {
            cells[`mo ${span}`] = table[record];
            SECTIONS.forEach((section, which) => PARTS.forEach((part, place) => {
                cells[`${span} ${section} ${part}`] = table[record + 1 + 5 * which + place];
            }));
        }
        for (let number = 0; number <= spans; number += 1, support += 5) {
            PARTS.forEach((part, place) => {
                cells[`support ${number} ${part}`] = governing[support + place];
            });
        }
        return { value, cells };
    });
}

/**
 * The governing negative of each support by the rule: the face with the larger total, the lower span's on a tie.
 * @param {Floor} floor @param {number[]} table
 */
function governingOf(floor, table) {
    let record = 0;
    return framesOf(floor).flatMap(({ spans }) => {
        const records = Array.from({ length: spans }, (_, span) => table.slice(record + 16 * span, record + 16 * span + 16));
        record += 16 * spans;
        return Array.from({ length: spans + 1 }, (_, support) => {
            const faces = [records[support - 1]?.slice(11), records[support]?.slice(1, 6)].filter((face) => face !== undefined);
            return faces.reduce((larger, face) => (face[0] > larger[0] ? face : larger));
        }).flat();
    });
}

/**
 * In the page: picks each frame, and reads all of its cells.
 * @param {string[]} frames
 */
function cellsShown(frames) {
    return frames.map((value) => {
        const pick = /** @type {HTMLSelectElement} */ (document.querySelector('#frame-pick'));
        pick.value = value;
        pick.dispatchEvent(new Event('change', { bubbles: true }));
        /** @type {Record<string, string>} */
        const cells = {};
        for (const cell of /** @type {NodeListOf<HTMLElement>} */ (document.querySelectorAll('#frame td.moment, #frame td.mo'))) {
            const { span, section, part, support } = cell.dataset;
            const place = support === undefined ? `${span} ${section}` : `support ${support}`;
            const name = cell.matches('td.mo') ? `mo ${span}` : `${place} ${part}`;
            if (name in cells) {
                throw new Error(`${value}: ${name} comes twice`);
            }
            cells[name] = (cell.textContent ?? '').replace(/\s/g, '');
        }
        const labels = Array.from(document.querySelectorAll('svg#diagram text'), (text) => text.textContent ?? '');
        return { value: /** @type {HTMLSelectElement} */ (document.querySelector('#frame-pick')).value, cells, labels };
    });
}

/**
 * kN·m to two places, never below the exact and less than 0.01 above it.
 * @param {string} name @param {string} shown @param {number} exact
 */
function assertNeverBelow(name, shown, exact) {
    assert.match(shown, /^\d+\.\d\d$/, name);
    const over = Number(shown.replace('.', '')) * (name.startsWith('mo') ? 10 : 1000) - exact;
    assert.ok(over >= 0 && over < (name.startsWith('mo') ? 10 : 1000), `${name}: ${shown} kN·m for ${exact}`);
}

/**
 * The values that are written into the diagram are those of the frame's cells.
 * @param {string} value @param {string[]} labels @param {Record<string, string>} cells
 */
function assertLabels(value, labels, cells) {
    const shown = new Set(Object.values(cells));
    const values = labels.filter((label) => /^\d+\.\d\d$/.test(label));
    assert.deepEqual(values.filter((label) => !shown.has(label)), [], `diagram of ${value}`);
    assert.ok(values.length >= 3, `${values.length} values in the diagram of ${value}`);
}

/** @typedef {{floor: Floor, wanted: {value: string, cells: Record<string, number>}[], frames: string[]}} Laid */

/** @param {Uint8Array} bytes @param {number[]} table @param {number[]} governing @returns {Promise<Laid>} */
async function laid(bytes, table, governing) {
    const { page, browser } = seat;
    const floor = floorOf(bytes);
    assert.ok(floor !== null);
    await page.lay(bytes);
    const wanted = cellsWanted(floor, table, governing);
    const frames = wanted.map(({ value }) => value);
    const options = await browser.run(() => Array.from(document.querySelectorAll('#frame-pick option'), (option) => option.getAttribute('value')));
    assert.deepEqual(options, frames);
    return { floor, wanted, frames };
}

/**
 * In kN·m.
 * @param {Laid} laid
 */
async function assertRoundedUp({ wanted, frames }) {
    const shown = await seat.browser.run(cellsShown, frames);
    assert.deepEqual(shown.map(({ value }) => value), frames);
    shown.forEach(({ value, cells, labels }, place) => {
        const right = wanted[place].cells;
        assert.deepEqual(Object.keys(cells).sort(), Object.keys(right).sort());
        Object.entries(cells).forEach(([name, moment]) => assertNeverBelow(name, moment, right[name]));
        assertLabels(value, labels, cells);
    });
}

/**
 * In N·cm, and Mo in N·m.
 * @param {Laid} laid
 */
async function assertExact({ wanted, frames }) {
    const { browser } = seat;
    await browser.click('#exact');
    const shown = (await browser.run(cellsShown, frames)).map(({ value, cells }) => ({ value, cells }));
    /** @param {Record<string, number>} cells */
    const written = (cells) => Object.fromEntries(Object.entries(cells).map(([name, number]) => [name, String(number)]));
    assert.deepEqual(shown, wanted.map(({ value, cells }) => ({ value, cells: written(cells) })));
    await browser.click('#exact');
}

test('every frame of the garage has the figures of example/garage.sheet', async () => {
    const [first, ...lines] = readFileSync(join(ROOT, 'example/garage.sheet'), 'utf8').trim().split('\n');
    assert.equal(first, '0 0');
    const table = lines.flatMap((line) => line.split(' ').map(Number));
    const floor = floorOf(GARAGE);
    assert.ok(floor !== null && table.length === 49 * 16);
    const garage = await laid(GARAGE, table, governingOf(floor, table));
    await assertRoundedUp(garage);
    await assertExact(garage);
});

test(`${DRAWN_FLOORS} drawn floors have the reference's figures`, async () => {
    for (let seed = 1; seed <= DRAWN_FLOORS; seed += 1) {
        const { floor } = morning(seed, 0);
        const drawn = await laid(floor.bytes, floor.table.split(' ').map(Number), floor.governing.split(' ').map(Number));
        await assertExact(drawn);
        if (seed <= ROUNDED_FLOORS) {
            await assertRoundedUp(drawn);
        }
    }
});
