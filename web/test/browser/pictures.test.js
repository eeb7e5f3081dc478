// Pictures of the page: clear, with two limits broken, and the sheet. With PICTURES=1 they are those of docs/, else they lie below target/.

import assert from 'node:assert/strict';
import { readFileSync } from 'node:fs';
import { join } from 'node:path';
import { test } from 'node:test';
import { largest } from './floors.js';
import { gripOf, pathOf } from './lines.js';
import { lookedAt, pageOfTests, ROOT } from './page.js';

const seat = pageOfTests();
const FOLDER = process.env.PICTURES === '1' ? join(ROOT, 'docs') : lookedAt();

/** @param {string} name @param {number} width @param {number} height */
async function picture(name, width, height) {
    const file = join(FOLDER, name);
    await seat.browser.picture(file);
    const png = readFileSync(file);
    assert.deepEqual([png.readUInt32BE(16), png.readUInt32BE(20)], [width, height]);
}

/**
 * Nothing is cut off at the right, and the plan is whole in the window.
 * @param {number} width @param {number} height
 */
async function assertFits(width, height) {
    const { wide, plan } = await seat.browser.run(() => ({
        wide: document.documentElement.scrollWidth,
        plan: /** @type {Element} */ (document.querySelector('#plan')).getBoundingClientRect().toJSON(),
    }));
    assert.ok(wide <= width, `${wide} pixels wide`);
    assert.ok(plan.left >= 0 && plan.right <= width && plan.top >= 0 && plan.bottom <= height, JSON.stringify(plan));
}

test('the page clear, broken and as a sheet, at 1280 by 800', async () => {
    const { page, browser } = seat;
    await picture('page-clear.png', 1280, 800);
    await assertFits(1280, 800);
    const grip = await gripOf(browser, 'y', 3);
    await browser.drag('mouse', pathOf('y', grip, 2400));
    await browser.until(() => document.querySelectorAll('#limits > li').length === 2);
    assert.equal(await page.verdict(), 68);
    await picture('page-broken.png', 1280, 800);
    await browser.click('#undo');
    await browser.click('#show-sheet');
    await browser.until(() => document.querySelector('#sheet article.sheet.clear') !== null);
    await picture('page-sheet.png', 1280, 800);
    await browser.click('#show-sheet');
});

/**
 * In the page: the words of the plan and of the diagram that lie on one another, two and two.
 * @returns {string[]}
 */
function overlaps() {
    const shown = Array.from(document.querySelectorAll('#plan text, #diagram text')).filter((text) => {
        const { display, visibility } = getComputedStyle(text);
        return display !== 'none' && visibility !== 'hidden' && text.textContent !== '';
    });
    const boxes = shown.map((text) => ({ words: text.textContent, box: text.getBoundingClientRect() }));
    /** @param {DOMRect} one @param {DOMRect} other */
    const depth = (one, other) => Math.min(
        Math.min(one.right, other.right) - Math.max(one.left, other.left),
        Math.min(one.bottom, other.bottom) - Math.max(one.top, other.top),
    );
    // The box of a word is higher than its letters: so much of two boxes may lie on one another.
    const most = 3;
    return boxes.flatMap(({ words, box }, place) => {
        const others = boxes.slice(place + 1).filter((other) => depth(box, other.box) > most);
        return others.map((other) => `${words} on ${other.words}`);
    });
}

for (const [width, height] of [[1280, 800], [1024, 768]]) {
    test(`no words lie on one another at ${width} by ${height}, in the garage and at 12 by 12 bays`, async () => {
        const { page, browser } = seat;
        await browser.size(width, height);
        await page.fresh();
        await assertFits(width, height);
        assert.ok(await page.count('#plan text, #diagram text') > 50);
        assert.deepEqual(await browser.run(overlaps), [], 'in the garage');
        const [frame, shown] = await browser.run(() => {
            const { scrollWidth, clientWidth } = /** @type {Element} */ (document.querySelector('#frame'));
            return [scrollWidth, clientWidth];
        });
        assert.ok(frame <= shown, `the numbers of a frame are ${frame} pixels wide, and ${shown} are shown`);
        const rows = await browser.run(() => Array.from(document.querySelectorAll('header button'), (button) => button.getBoundingClientRect().top));
        assert.equal(new Set(rows).size, 1, 'the buttons stand in one row');
        await browser.picture(join(lookedAt(), `garage-${width}.png`));
        await page.lay(largest());
        await browser.until(() => document.querySelectorAll('#plan g.panel').length === 144);
        await browser.picture(join(lookedAt(), `largest-${width}.png`));
        assert.deepEqual(await browser.run(overlaps), [], 'at 12 by 12 bays');
    });
}
