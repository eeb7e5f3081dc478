// Values typed into the fields: loads, slab, materials, columns, sides, spans, beams and offsets.

import assert from 'node:assert/strict';
import { beforeEach, test } from 'node:test';
import { garageWith } from './floors.js';
import { GARAGE, hex, pageOfTests, wordsOf } from './page.js';

/** @typedef {import('../../src/floor.js').Floor} Floor */

const seat = pageOfTests();
beforeEach(() => seat.page.fresh());

/** @param {string} selector */
function value(selector) {
    return seat.browser.run((found) => /** @type {HTMLInputElement} */ (document.querySelector(found)).value, selector);
}

/**
 * A person clicks what lies in the middle of it, a panel beside its number.
 * @param {string} selector
 */
async function pick(selector) {
    const point = await seat.browser.run((found) => {
        const box = /** @type {Element} */ (document.querySelector(found)).getBoundingClientRect();
        return { x: box.x + box.width / 2, y: box.y + box.height / 2 };
    }, selector);
    await seat.browser.drag('mouse', [point]);
}

/** @type {{field: string, typed: string, change: (floor: Floor) => void, pick?: string}[]} */
const TYPED = [
    { field: '#dead', typed: '8000', change: (floor) => { floor.dead = 8000; } },
    { field: '#live', typed: '14401', change: (floor) => { floor.live = 14401; } },
    { field: '#slab', typed: '220', change: (floor) => { floor.t = 220; } },
    { field: '#concrete', typed: '35', change: (floor) => { floor.fc = 35; } },
    { field: '#cx', typed: '650', change: (floor) => { floor.cx = 650; } },
    { field: '#cy', typed: '550', change: (floor) => { floor.cy = 550; } },
    {
        field: 'input[data-span-way="x"][data-span="2"]', typed: '7600', pick: 'g.span[data-way="x"][data-span="2"] text',
        change: ({ spans }) => { spans.x[2] = 7600; },
    },
    {
        field: 'input[data-span-way="y"][data-span="1"]', typed: '7020', pick: 'g.span[data-way="y"][data-span="1"] text',
        change: ({ spans }) => { spans.y[1] = 7020; },
    },
    {
        field: 'input[data-span-way="y"][data-span="3"]', typed: '6420', pick: 'g.panel[data-i="1"][data-j="3"] text',
        change: ({ spans }) => { spans.y[3] = 6420; },
    },
    { field: '#beam-width', typed: '360', pick: 'g.line[data-way="x"][data-line="2"] text', change: ({ beams }) => { beams.x[2] = [360, 650]; } },
    { field: '#beam-depth', typed: '640', pick: 'g.line[data-way="y"][data-line="1"] text', change: ({ beams }) => { beams.y[1] = [350, 640]; } },
    { field: '#offset-x', typed: '120', pick: 'g.column[data-i="1"][data-j="2"] rect', change: ({ offsets }) => { offsets[13] = [120, 0]; } },
    { field: '#offset-y', typed: '130', pick: 'g.column[data-i="4"][data-j="3"] rect', change: ({ offsets }) => { offsets[22] = [0, 130]; } },
];

for (const { field, typed, change, pick: picked } of TYPED) {
    test(`${typed} typed into ${field}`, async () => {
        const { page, browser } = seat;
        if (picked !== undefined) {
            await pick(picked);
        }
        await browser.type(field, `${typed}\uE007`);
        assert.equal(await page.bytes(), garageWith(change));
        assert.equal(await value(field), typed);
        assert.equal((await page.message()).words, '');
        await browser.click('#undo');
        assert.equal(await page.bytes(), hex(GARAGE));
        assert.notEqual(await value(field), typed);
    });
}

test('a value is sent by leaving its field, too', async () => {
    const { page, browser } = seat;
    await browser.type('#dead', '8000\uE004');
    assert.equal(await page.bytes(), garageWith((floor) => { floor.dead = 8000; }));
    assert.equal(await browser.run(() => document.activeElement?.id), 'live');
    await browser.press(['Control', 'a'], '4', '0', '0', '0');
    await browser.click('#slab');
    assert.equal(await page.bytes(), garageWith((floor) => Object.assign(floor, { dead: 8000, live: 4000 })));
});

test('steel and sides are chosen', async () => {
    const { page, browser } = seat;
    const option = (/** @type {string} */ id, /** @type {string} */ words) => browser.run((id, words) => {
        const select = /** @type {HTMLSelectElement} */ (document.querySelector(`select#${id}`));
        return Array.from(select.options).findIndex(({ text }) => text === words) + 1;
    }, id, words);
    /** @type {[string, string, (floor: Floor) => void][]} */
    const chosen = [
        ['steel', '520', (floor) => { floor.fy = 520; }],
        ['west', 'unrestrained', (floor) => { floor.sides += 1; }],
        ['east', 'restrained', (floor) => { floor.sides += 8; }],
        ['south', 'unrestrained', (floor) => { floor.sides += 16; }],
        ['north', 'restrained', (floor) => { floor.sides += 128; }],
    ];
    for (const [place, [id, words]] of chosen.entries()) {
        const number = await option(id, words);
        assert.ok(number > 0, `${id} has no choice ${words}`);
        await browser.click(`select#${id} option:nth-child(${number})`);
        assert.equal(await page.bytes(), garageWith((floor) => chosen.slice(0, place + 1).forEach(([, , change]) => change(floor))));
    }
    const said = await page.texts('g.side[data-side]');
    assert.equal(said.length, 4);
    assert.match(await browser.run(() => document.querySelector('g.side[data-side="north"]')?.textContent ?? ''), /restrained/);
});

/** @type {{field: string, typed: string, refusal: number, pick?: string}[]} */
const REFUSED = [
    { field: '#dead', typed: '999', refusal: 5 },
    { field: '#slab', typed: '501', refusal: 2 },
    { field: '#concrete', typed: '61', refusal: 5 },
    { field: '#cx', typed: '605', refusal: 5 },
    { field: 'input[data-span-way="x"][data-span="2"]', typed: '7510', refusal: 5, pick: 'g.span[data-way="x"][data-span="2"] text' },
    { field: 'input[data-span-way="x"][data-span="2"]', typed: '1180', refusal: 6, pick: 'g.span[data-way="x"][data-span="2"] text' },
    { field: '#beam-depth', typed: '200', refusal: 7, pick: 'g.line[data-way="x"][data-line="2"] text' },
    { field: '#beam-width', typed: '0', refusal: 5, pick: 'g.line[data-way="x"][data-line="2"] text' },
    { field: '#offset-x', typed: '12001', refusal: 5, pick: 'g.column[data-i="1"][data-j="2"] rect' },
];

for (const { field, typed, refusal, pick: picked } of REFUSED) {
    test(`${typed} typed into ${field} is refused ${refusal}, and the field shows what the floor keeps`, async () => {
        const { page, browser } = seat;
        if (picked !== undefined) {
            await pick(picked);
        }
        const before = await value(field);
        await browser.type(field, `${typed}\uE007`);
        const message = await page.message();
        assert.equal(message.refusal, String(refusal));
        assert.ok(message.words.includes(wordsOf('refusals').get(refusal) ?? 'no such refusal'), message.words);
        assert.equal(await page.bytes(), hex(GARAGE));
        assert.equal(await value(field), before);
        await browser.type('#dead', '8000\uE007');
        assert.deepEqual(await page.message(), { refusal: '', words: '' });
    });
}

for (const typed of ['', '-5', '7.5', '4294967296', '<b>7</b>']) {
    test(`“${typed}” is no number: it is said, and nothing is sent`, async () => {
        const { page, browser } = seat;
        await browser.type('#live', `${typed === '' ? '\uE003' : typed}\uE007`);
        const message = await page.message();
        assert.equal(message.refusal, '');
        assert.notEqual(message.words, '');
        assert.equal(await page.bytes(), hex(GARAGE));
        assert.equal(await value('#live'), '5000');
        assert.equal(await page.count('#message b'), 0);
    });
}
