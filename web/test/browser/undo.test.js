// The way back to the first floor and forth to the last, step by step.

import assert from 'node:assert/strict';
import { beforeEach, test } from 'node:test';
import { gripOf, pathOf } from './lines.js';
import { morning } from './morning.js';
import { GARAGE, hex, pageOfTests } from './page.js';

const seat = pageOfTests();
beforeEach(() => seat.page.fresh());

/**
 * Whether the button can be pressed.
 * @param {string} selector
 */
function ready(selector) {
    return seat.browser.run((found) => !(/** @type {HTMLButtonElement} */ (document.querySelector(found)).disabled), selector);
}

test('undo to the first floor gives the first bytes, redo the last, each step between them its own', async () => {
    const { page, browser } = seat;
    const seen = [await page.bytes()];
    await browser.type('#dead', '7500\uE007');
    seen.push(await page.bytes());
    await browser.type('#slab', '210\uE007');
    seen.push(await page.bytes());
    const grip = await gripOf(browser, 'y', 2);
    await browser.drag('mouse', pathOf('y', grip, 700));
    await browser.until((/** @type {string} */ old) => document.querySelector('g.span[data-span="1"] text')?.textContent !== old, '7200');
    seen.push(await page.bytes());
    await page.openFile('another.floor', morning(6, 0).floor.bytes);
    seen.push(await page.bytes());
    await browser.click('#example');
    seen.push(await page.bytes());
    assert.equal(new Set(seen.slice(0, 5)).size, 5);
    assert.equal(seen[5], hex(GARAGE));

    for (const bytes of seen.slice(0, -1).reverse()) {
        await browser.click('#undo');
        assert.equal(await page.bytes(), bytes);
    }
    assert.equal(await page.bytes(), hex(GARAGE));
    assert.equal(await ready('#undo'), false);
    for (const bytes of seen.slice(1)) {
        await browser.click('#redo');
        assert.equal(await page.bytes(), bytes);
    }
    assert.equal(await ready('#redo'), false);
});

test('a drag of many moves is one step back', async () => {
    const { page, browser } = seat;
    const grip = await gripOf(browser, 'x', 2);
    await browser.drag('mouse', pathOf('x', grip, 900, 0, 20));
    await browser.until(() => document.querySelector('g.span[data-way="y"][data-span="1"] text')?.textContent !== '7000');
    const dragged = await page.bytes();
    assert.notEqual(dragged, hex(GARAGE));
    await browser.click('#undo');
    assert.equal(await page.bytes(), hex(GARAGE));
    assert.equal(await ready('#undo'), false);
    await browser.click('#redo');
    assert.equal(await page.bytes(), dragged);
});

test('a drag that ends where it began, a value that is refused and one that is none make no step', async () => {
    const { page, browser } = seat;
    const grip = await gripOf(browser, 'y', 2);
    await browser.drag('mouse', [...pathOf('y', grip, 700), ...pathOf('y', grip, 0, 700)]);
    await browser.type('#live', '50001\uE007');
    assert.equal((await page.message()).refusal, '5');
    await browser.type('#slab', '89\uE007');
    assert.equal((await page.message()).refusal, '2');
    await browser.type('#dead', 'much\uE007');
    assert.notEqual((await page.message()).words, '');
    assert.equal(await page.bytes(), hex(GARAGE));
    assert.equal(await ready('#undo'), false);
});

test('a change after undo leaves nothing to redo', async () => {
    const { page, browser } = seat;
    await browser.type('#dead', '7500\uE007');
    await browser.click('#undo');
    assert.equal(await ready('#redo'), true);
    await browser.type('#dead', '7600\uE007');
    assert.equal(await ready('#redo'), false);
    const last = await page.bytes();
    await browser.press(['Control', 'y']);
    assert.equal(await page.bytes(), last);
});

test('every change that is taken is a step back, however many there are', async () => {
    const { page, browser } = seat;
    const { floor, changes, left } = morning(3, 120);
    await page.lay(floor.bytes);
    const taken = await browser.run((list) => {
        const { slab } = /** @type {any} */ (window);
        return list.filter((/** @type {number[]} */ bytes) => !('refusal' in slab.take([Uint8Array.from(bytes)]))).length;
    }, changes.map(({ bytes }) => Array.from(bytes)));
    assert.equal(taken, changes.filter(({ refusal }) => refusal === 0).length);
    assert.equal(await page.bytes(), hex(left));
    await browser.run((count) => {
        for (let step = 0; step < count; step += 1) {
            /** @type {any} */ (window).slab.undo();
        }
    }, taken);
    assert.equal(await page.bytes(), hex(floor.bytes));
    await browser.run((count) => {
        for (let step = 0; step < count; step += 1) {
            /** @type {any} */ (window).slab.redo();
        }
    }, taken);
    assert.equal(await page.bytes(), hex(left));
});
