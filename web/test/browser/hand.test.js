// A hand that does two things at once, lines that lie close, floors and names that are large: nothing is lost, taken wrongly or pushed out of sight.

import assert from 'node:assert/strict';
import { beforeEach, test } from 'node:test';
import { bytesOf, floorOf } from '../../src/floor.js';
import { garageWith } from './floors.js';
import { gripOf, pathOf } from './lines.js';
import { GARAGE, hex, pageOfTests } from './page.js';

/** @typedef {import('../../src/floor.js').Pair} Pair */

const seat = pageOfTests();
beforeEach(() => seat.page.fresh());

const HEAVY = garageWith((floor) => {
    floor.live = 9000;
});

test('a number that is typed and not sent yet is sent when a line is pressed', async () => {
    const { page, browser } = seat;
    const grip = await gripOf(browser, 'y', 2);
    await browser.type('#live', '9000');
    await browser.drag('mouse', [grip]);
    assert.equal(await page.bytes(), HEAVY);
});

test('a number that is typed and not sent yet is in what is saved by the keyboard', async () => {
    const { page, browser } = seat;
    await browser.type('#live', '9000');
    await browser.press(['Control', 's']);
    assert.equal(hex(await page.saved('garage.floor')), HEAVY);
});

test('a floor that is opened while a line is in hand is not moved by it', async () => {
    const { page, browser } = seat;
    const grip = await gripOf(browser, 'y', 2);
    await browser.drag('mouse', pathOf('y', grip, 400, 0, 1), { up: false });
    await browser.until((/** @type {string} */ first) => /** @type {any} */ (window).slab.bytes().join() !== first, GARAGE.join());
    await page.lay(Uint8Array.from(Buffer.from(HEAVY, 'hex')));
    await browser.drag('mouse', pathOf('y', grip, 1200, 400, 2), { down: false });
    assert.equal(await page.bytes(), HEAVY);
});

test('a drag that ends where it began leaves what could be done again', async () => {
    const { page, browser } = seat;
    await browser.type('#live', '9000\uE007');
    await browser.click('#undo');
    const grip = await gripOf(browser, 'y', 2);
    await browser.drag('mouse', pathOf('y', grip, 400, 0, 2), { up: false });
    await browser.until((/** @type {string} */ first) => /** @type {any} */ (window).slab.bytes().join() !== first, GARAGE.join());
    await browser.drag('mouse', pathOf('y', grip, 0, 400, 2), { down: false });
    assert.equal(await page.bytes(), hex(GARAGE));
    await browser.click('#redo');
    assert.equal(await page.bytes(), HEAVY);
});

/**
 * A floor without beams, of these spans both ways.
 * @param {number[]} x @param {number[]} y
 */
function plain(x, y, t = 200, live = 2000) {
    /** @param {number} length @returns {Pair[]} */
    const zeros = (length) => Array.from({ length }, () => [0, 0]);
    return bytesOf({
        t, fc: 30, fy: 420, dead: 5000, live, cx: 300, cy: 300, sides: 0, spans: { x, y },
        beams: { x: zeros(y.length + 1), y: zeros(x.length + 1) }, offsets: zeros((x.length + 1) * (y.length + 1)),
    });
}

test('where lines lie close each is taken hold of by its own name', async () => {
    const { page, browser } = seat;
    const spans = [1000, 8000, 1000, 1000, 8000, 1000, 1000, 8000];
    await page.lay(plain(spans, spans));
    for (const [width, height] of [[1280, 800], [1024, 768]]) {
        await browser.size(width, height);
        await browser.until((/** @type {number} */ wide) => window.innerWidth === wide, width);
        const wrong = await browser.run(() => Array.from(document.querySelectorAll('g.line'), (line) => {
            const { x, y, width, height } = /** @type {Element} */ (line.querySelector('.bubble')).getBoundingClientRect();
            const found = document.elementFromPoint(x + width / 2, y + height / 2)?.closest('g.line');
            return found === line ? '' : `${line.getAttribute('aria-label')} is ${found?.getAttribute('aria-label')}`;
        }).filter((words) => words !== ''));
        assert.deepEqual(wrong, []);
    }
    await browser.size(1280, 800);
});

test('a long name pushes nothing out of the window', async () => {
    const { page, browser } = seat;
    await page.lay(GARAGE, 'W'.repeat(300));
    const [wide, window_] = await browser.run(() => [document.documentElement.scrollWidth, window.innerWidth]);
    assert.ok(wide <= window_, `${wide} of ${window_}`);
});

test('the sentence of every broken limit is in sight at once, and so is a refusal', async () => {
    const { page, browser } = seat;
    await page.lay(plain([12000, 1000], [12000, 1000, 1000], 90, 50000));
    const limits = await page.count('#limits > li');
    assert.ok(limits >= 5, `${limits} limits`);
    const hidden = await browser.run(() => (
        Array.from(document.querySelectorAll('#limits summary')).filter((node) => node.getBoundingClientRect().bottom > window.innerHeight).length));
    assert.equal(hidden, 0);
    await browser.type('#dead', '10\uE007');
    const { top, bottom, height } = await browser.run(() => {
        const box = /** @type {Element} */ (document.querySelector('#message')).getBoundingClientRect();
        return { top: box.top, bottom: window.innerHeight - box.bottom, height: box.height };
    });
    assert.equal((await page.message()).refusal, '5');
    assert.match((await page.message()).words, /dead 10, live 50000: expected dead 1000 to 30000/);
    assert.ok(top >= 0 && bottom >= 0 && height > 0, `${top} ${bottom} ${height}`);
});

test('a column is come to and moved off its line by the keyboard alone', async () => {
    const { page, browser } = seat;
    await browser.run(() => /** @type {SVGElement} */ (document.querySelector('g.column[tabindex="0"]')).focus());
    await browser.press('Right', 'Up', 'Up', 'Enter', '5', '0', 'Enter');
    assert.equal(await page.bytes(), garageWith((floor) => {
        floor.offsets[2 * 6 + 1] = [50, 0];
    }));
});

test('a refusal of what was typed stays in sight when something else is picked', async () => {
    const { page, browser } = seat;
    await browser.type('#live', '60000');
    await browser.click('g.panel[data-i="1"][data-j="1"] rect');
    assert.equal((await page.message()).refusal, '5');
    assert.equal(await page.bytes(), hex(GARAGE));
});

test('a number that is typed and not sent yet is sent, and the line that is dragged then moves', async () => {
    const { page, browser } = seat;
    const grip = await gripOf(browser, 'y', 2);
    await browser.type('#live', '9000');
    await browser.drag('mouse', pathOf('y', grip, 400, 0, 4));
    await browser.until((/** @type {string} */ heavy) => {
        const bytes = Array.from(/** @type {any} */ (window).slab.bytes(), (/** @type {number} */ byte) => byte.toString(16).padStart(2, '0')).join('');
        return bytes !== heavy;
    }, HEAVY);
    const { live, spans } = floorOf(Uint8Array.from(Buffer.from(await page.bytes(), 'hex'))) ?? assert.fail('no floor');
    assert.deepEqual([live, spans.x[1] + spans.x[2]], [9000, 14700]);
    assert.ok(Math.abs(spans.x[1] - 7600) <= 1 / grip.factor, `${spans.x}`);
});

test('the arrow keys do not leave the floor', async () => {
    const { page, browser } = seat;
    for (const [sort, heading] of [['panel', 'Panel of x bay 0, y bay 0'], ['column', 'Column on y line 0, x line 0']]) {
        await browser.run((found) => /** @type {SVGElement} */ (document.querySelector(found)).focus(), `g.${sort}[tabindex="0"]`);
        await browser.press('Enter');
        await browser.run((found) => /** @type {SVGElement} */ (document.querySelector(found)).focus(), `g.${sort}[tabindex="0"]`);
        await browser.press('Left', 'Down', 'Left');
        assert.deepEqual(await page.texts('#picked h2'), [heading]);
        assert.equal(await page.count(`g.${sort}[tabindex="0"]`), 1);
    }
});

test('a refusal is gone when the floor is another', async () => {
    const { page, browser } = seat;
    await browser.type('#live', '60000\uE007');
    assert.equal((await page.message()).refusal, '5');
    await browser.click('#new');
    await browser.click('#grid-make');
    assert.deepEqual(await page.message(), { refusal: '', words: '' });
});
