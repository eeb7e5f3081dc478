// A column line dragged with the mouse and with a finger: limit 4 broken and mended on the way, and what the rules refuse.

import assert from 'node:assert/strict';
import { beforeEach, test } from 'node:test';
import { floorOf } from '../../src/floor.js';
import { gripOf, pathOf } from './lines.js';
import { GARAGE, hex, pageOfTests, wordsOf } from './page.js';

const seat = pageOfTests();
beforeEach(() => seat.page.fresh());

/** Spans 2 and 3, with the line between them so far to the east that they differ by more than a third of the longer, and clear of any other limit. */
const FAR = 1500;
const MARKED = 'g.span[data-way="x"][data-span="2"].broken, g.span[data-way="x"][data-span="3"].broken';

async function moments() {
    return seat.page.texts('td.moment, td.mo');
}

/** The page's floor is as a drag leaves it: its spans 2 and 3 add up to what they were. */
async function spans() {
    const floor = floorOf(Uint8Array.from(Buffer.from(await seat.page.bytes(), 'hex')));
    return floor?.spans.x ?? [];
}

/**
 * The line is picked first, so that its frame is the one shown before and after.
 * @param {import('./driver.js').Browser} browser
 */
async function pickedLine(browser) {
    await browser.drag('mouse', [await gripOf(browser, 'y', 3)]);
    await browser.until(() => /** @type {HTMLSelectElement} */ (document.querySelector('#frame-pick')).value === 'y3');
    return gripOf(browser, 'y', 3);
}

/**
 * Limit 4 in words, with its place in the list and in the plan, and no moment.
 * @param {{factor: number}} grip
 */
async function assertBroken({ factor }) {
    const { page, browser } = seat;
    await browser.until(() => document.querySelector('#limits > li[data-limit="4"]'));
    const words = await page.texts('#limits > li[data-limit="4"]');
    assert.ok(words[0].includes(wordsOf('limits').get(4) ?? 'no such limit'), words[0]);
    assert.equal(await page.count('#limits li.place[data-limit="4"][data-way="x"][data-i="2"][data-j="0"]'), 1);
    assert.equal(await page.count(MARKED), 2);
    assert.equal(await page.count('#plan g.broken'), 2);
    assert.equal(await page.verdict(), 4);
    assert.deepEqual(await moments(), []);
    assert.equal(await page.count('svg#diagram'), 0);
    const [, , low, high] = await spans();
    assert.ok(low + high === 14700 && Math.abs(low - 7500 - FAR) <= 1 / factor, `${low} ${high}`);
}

/**
 * The garage as it was, with the moments that it had.
 * @param {string[]} before
 */
async function assertMended(before) {
    const { page, browser } = seat;
    await browser.until(() => document.querySelector('#limits > li') === null && document.querySelector('svg#diagram'));
    assert.equal(await page.bytes(), hex(GARAGE));
    assert.equal(await page.count('#plan .broken'), 0);
    assert.deepEqual(await moments(), before);
    assert.equal(await page.verdict(), 0);
}

test('a y line dragged by the mouse until limit 4 breaks and, still held, back', async () => {
    const { browser } = seat;
    const grip = await pickedLine(browser);
    const before = await moments();
    assert.ok(before.length > 0);
    await browser.drag('mouse', pathOf('y', grip, FAR), { up: false });
    await assertBroken(grip);
    await browser.drag('mouse', pathOf('y', grip, 0, FAR), { down: false });
    await assertMended(before);
});

test('a y line dragged by a finger until limit 4 breaks, and dragged back', async () => {
    const { browser } = seat;
    const grip = await pickedLine(browser);
    const before = await moments();
    await browser.drag('touch', pathOf('y', grip, FAR));
    await assertBroken(grip);
    const moved = await gripOf(browser, 'y', 3);
    const [, , low] = await spans();
    await browser.drag('touch', pathOf('y', moved, 7500 - low));
    await assertMended(before);
});

test('an x line dragged to the north makes the span below it longer', async () => {
    const { page, browser } = seat;
    const grip = await gripOf(browser, 'x', 2);
    await browser.drag('mouse', pathOf('x', grip, 600));
    await browser.until(() => document.querySelector('g.span[data-way="y"][data-span="1"] text:not(.bay)')?.textContent !== '7000');
    const floor = floorOf(Uint8Array.from(Buffer.from(await page.bytes(), 'hex')));
    const [, low, high] = floor?.spans.y ?? [];
    assert.ok(low + high === 14000 && Math.abs(low - 7600) <= 1 / grip.factor, `${low} ${high}`);
    assert.deepEqual(await page.texts('g.span[data-way="y"] text:not(.bay)'), [6000, low, high, 6400].map(String));
});

/** The east edge so far to the west that its span is too short for its columns, and below what any span may be. */
for (const [mm, refusal] of [[-5500, 6], [-5800, 5], [9000, 5]]) {
    test(`an edge dragged by ${mm} mm is refused ${refusal}`, async () => {
        const { page, browser } = seat;
        const grip = await gripOf(browser, 'y', 5);
        await browser.drag('mouse', pathOf('y', grip, mm, 0, 1), { up: false });
        await browser.until(() => document.querySelector('#message')?.textContent);
        const message = await page.message();
        assert.equal(message.refusal, String(refusal));
        assert.ok(message.words.includes(wordsOf('refusals').get(refusal) ?? 'no such refusal'), message.words);
        assert.ok(message.words.includes(String(refusal)), message.words);
        assert.equal(await page.bytes(), hex(GARAGE));

        await browser.drag('mouse', pathOf('y', grip, -200, mm, 1), { down: false });
        await browser.until(() => document.querySelector('#message')?.textContent === '');
        assert.equal((await page.message()).refusal, '');
        const [, , , , last] = await spans();
        assert.ok(Math.abs(last - 6400) <= 1 / grip.factor, `${last}`);
    });
}

test('an inner line dragged past its neighbour is refused, and the last that was accepted stays', async () => {
    const { page, browser } = seat;
    const grip = await gripOf(browser, 'y', 3);
    await browser.drag('mouse', pathOf('y', grip, 400, 0, 1), { up: false });
    await browser.until(() => document.querySelector('g.span[data-way="x"][data-span="2"] text:not(.bay)')?.textContent !== '7500');
    const accepted = await page.bytes();
    await browser.drag('mouse', pathOf('y', grip, 9000, 400, 1), { down: false });
    await browser.until(() => document.querySelector('#message')?.textContent);
    assert.equal((await page.message()).refusal, '5');
    assert.equal(await page.bytes(), accepted);
});

test('a second finger beside the one that drags moves nothing', async () => {
    const { page, browser } = seat;
    const grip = await gripOf(browser, 'y', 2);
    await browser.run(({ x, y }) => {
        const plan = /** @type {SVGSVGElement} */ (document.querySelector('#plan'));
        plan.setPointerCapture = () => {};
        /** @param {string} type @param {number} pointerId @param {number} by */
        const touch = (type, pointerId, by) => {
            const touched = { pointerId, pointerType: 'touch', isPrimary: pointerId === 1, button: type === 'pointermove' ? -1 : 0 };
            const event = new PointerEvent(type, { bubbles: true, clientX: x + by, clientY: y, ...touched });
            /** @type {Element} */ (document.elementFromPoint(x, y)).dispatchEvent(event);
        };
        touch('pointerdown', 1, 0);
        touch('pointermove', 1, 5);
        touch('pointerdown', 2, 60);
        touch('pointermove', 2, 40);
        touch('pointerup', 2, 40);
        touch('pointermove', 1, 0);
        touch('pointerup', 1, 0);
    }, grip);
    assert.equal(await page.bytes(), hex(GARAGE));
    assert.equal(await browser.run(() => /** @type {HTMLButtonElement} */ (document.querySelector('#undo')).disabled), true);
});

test('the plan stays where it is when a line is picked and when the floor is broken', async () => {
    const { page, browser } = seat;
    const first = await gripOf(browser, 'y', 1);
    await pickedLine(browser);
    assert.deepEqual(await gripOf(browser, 'y', 1), first);
    await browser.type('#live', '14401\uE007');
    assert.equal(await page.verdict(), 16);
    assert.deepEqual(await gripOf(browser, 'y', 1), first);
});
