// A new floor from the dialog, and a dialog that stays where a value is refused.

import assert from 'node:assert/strict';
import { beforeEach, test } from 'node:test';
import { bytesOf } from '../../src/floor.js';
import { GARAGE, hex, pageOfTests, wordsOf } from './page.js';

const seat = pageOfTests();
beforeEach(async () => {
    await seat.page.fresh();
    await seat.browser.click('#new');
});

/** @param {Record<string, string>} values by the field's name */
async function fill(values) {
    for (const [name, typed] of Object.entries(values)) {
        await seat.browser.type(`#grid-${name}`, typed);
    }
}

function isOpen() {
    return seat.browser.run(() => /** @type {HTMLDialogElement} */ (document.querySelector('#grid')).open);
}

const ASKED = {
    x: '6000 6200 6400 6000', y: '5000 5200 5400', slab: '180', concrete: '28', dead: '6500', live: '3000', cx: '450', cy: '400',
    'beam-width': '300', 'beam-depth': '500',
};

/**
 * What is asked above, as a floor.
 * @param {(line: number, last: number) => boolean} hasBeam
 */
function floorAsked(hasBeam) {
    /** @param {number} last @returns {[number, number][]} */
    const beams = (last) => Array.from({ length: last + 1 }, (_, line) => (hasBeam(line, last) ? [300, 500] : [0, 0]));
    /** @type {[number, number][]} */
    const offsets = Array.from({ length: 20 }, () => [0, 0]);
    return hex(bytesOf({
        t: 180, fc: 28, fy: 520, dead: 6500, live: 3000, cx: 450, cy: 400, sides: 0,
        spans: { x: [6000, 6200, 6400, 6000], y: [5000, 5200, 5400] }, beams: { x: beams(3), y: beams(4) }, offsets,
    }));
}

/** @type {[string, (line: number, last: number) => boolean][]} */
const LAYOUTS = [
    ['none', () => false],
    ['outer', (line, last) => line === 0 || line === last],
    ['all', () => true],
];

test('new grids with every layout of beams, the dialog filled once', async () => {
    const { page, browser } = seat;
    await fill(ASKED);
    await browser.click('#grid-steel option:nth-child(3)');
    for (const [layout, hasBeam] of LAYOUTS) {
        await browser.click(`#grid-layout option[value="${layout}"]`);
        await browser.click('#grid-make');
        assert.equal(await isOpen(), false);
        assert.equal(await page.bytes(), floorAsked(hasBeam));
        assert.equal(await page.count('g.panel'), 12);
        assert.equal(await page.count('g.line'), 9);
        assert.equal((await page.message()).words, '');
        await browser.click('#undo');
        assert.equal(await page.bytes(), hex(GARAGE));
        await browser.click('#new');
    }
});

/** @type {Record<string, string>} */
const GOOD = { slab: '200', concrete: '30', cx: '500', x: '6000 6000 6000' };

/** @type {[Record<string, string>, number][]} */
const REFUSED = [
    [{ slab: '89' }, 2],
    [{ x: '6000 6010 6000' }, 5],
    [{ concrete: '61' }, 5],
    [{ cx: '1500', x: '2000 2000 2000' }, 6],
];

for (const [values, refusal] of REFUSED) {
    test(`a grid of ${JSON.stringify(values)} is refused ${refusal}, and the dialog stays`, async () => {
        const { page, browser } = seat;
        await fill(values);
        await browser.click('#grid-make');
        assert.equal(await isOpen(), true);
        const words = (await page.texts('#grid')).join('');
        assert.ok(words.includes(`refused ${refusal}: ${wordsOf('refusals').get(refusal)}`), words);
        assert.equal(await page.bytes(), hex(GARAGE));
        await fill(Object.fromEntries(Object.keys(values).map((name) => [name, GOOD[name]])));
        await browser.click('#grid-make');
        assert.equal(await isOpen(), false);
        assert.notEqual(await page.bytes(), hex(GARAGE));
    });
}

for (const [name, typed] of [['x', ''], ['y', '6000 six'], ['slab', '20.5'], ['dead', '-1'], ['x', '6000 '.repeat(13)]]) {
    test(`a grid whose ${name} is “${typed}” is no floor, and the dialog stays`, async () => {
        const { page, browser } = seat;
        await fill({ [name]: typed === '' ? '\uE003' : typed });
        await browser.click('#grid-make');
        assert.equal(await isOpen(), true);
        assert.notEqual((await page.texts('#grid-trouble'))[0], '');
        assert.equal(await page.bytes(), hex(GARAGE));
    });
}

test('cancel and Escape leave the floor as it was', async () => {
    const { page, browser } = seat;
    await browser.click('#grid-cancel');
    assert.equal(await isOpen(), false);
    await browser.click('#new');
    await browser.press('Escape');
    assert.equal(await isOpen(), false);
    assert.equal(await page.bytes(), hex(GARAGE));
});
