// The keyboard alone: lines moved by arrows, the way back and forth.

import assert from 'node:assert/strict';
import { beforeEach, test } from 'node:test';
import { garageWith } from './floors.js';
import { GARAGE, hex, pageOfTests } from './page.js';

const seat = pageOfTests();
beforeEach(() => seat.page.fresh());

/** @param {string} way @param {number} line */
function lineOf(way, line) {
    return `g.line[data-way="${way}"][data-line="${line}"]`;
}

/**
 * The focus, as the Tab key would give it.
 * @param {string} selector
 */
async function focus(selector) {
    await seat.browser.run((found) => /** @type {SVGElement} */ (document.querySelector(found)).focus(), selector);
}

test('Tab comes to every line of the plan, to the list of frames and to every field', async () => {
    const { browser } = seat;
    await browser.run(() => {
        /** @type {any} */ (window).visited = [];
        document.addEventListener('focusin', ({ target }) => /** @type {any} */ (window).visited.push(target));
    });
    await browser.press(...Array(100).fill('Tab'));
    const missed = await browser.run(() => {
        const wanted = 'g.line, #frame-pick, #exact, #picked input, #whole input, #whole select, header button:enabled';
        const { visited } = /** @type {any} */ (window);
        return Array.from(document.querySelectorAll(wanted)).filter((node) => !visited.includes(node)).map((node) => node.outerHTML.slice(0, 120));
    });
    assert.deepEqual(missed, []);
});

/** Spans 7500 and 7200 differ by a third of the longer after 66 steps of 20 mm, which passes, and by more after 67. */
test('a y line by arrow keys until limit 4 breaks and back', async () => {
    const { page, browser } = seat;
    await focus(lineOf('y', 3));
    await browser.press('Enter');
    await browser.until(() => /** @type {HTMLSelectElement} */ (document.querySelector('#frame-pick')).value === 'y3');
    const before = await page.texts('td.moment, td.mo');
    await focus(lineOf('y', 3));
    await browser.press(...Array(66).fill('Right'));
    assert.equal(await page.bytes(), garageWith(({ spans }) => spans.x.splice(2, 2, 8820, 5880)));
    assert.equal(await page.verdict(), 0);
    assert.equal(await page.count('#limits > li'), 0);
    await browser.press('Right');
    assert.equal(await page.verdict(), 4);
    assert.equal(await page.count('#limits > li[data-limit="4"] li.place[data-i="2"]'), 1);
    assert.equal(await page.count('g.span[data-way="x"].broken'), 2);
    assert.equal(await page.count('td, svg#diagram'), 0);
    await browser.press('Left');
    assert.equal(await page.count('#limits > li'), 0);
    assert.ok(await page.count('td.moment') > 0 && await page.count('svg#diagram') === 1);
    await browser.press(...Array(66).fill('Left'));
    assert.equal(await page.bytes(), hex(GARAGE));
    assert.deepEqual(await page.texts('td.moment, td.mo'), before);
});

test('arrows across a line move it, arrows along it do not', async () => {
    const { page, browser } = seat;
    await focus(lineOf('x', 1));
    await browser.press('Left', 'Right', 'Right');
    assert.equal(await page.bytes(), hex(GARAGE));
    await browser.press('Up', 'Up', 'Down');
    assert.equal(await page.bytes(), garageWith(({ spans }) => spans.y.splice(0, 2, 6020, 6980)));
    await focus(lineOf('y', 0));
    await browser.press('Up', 'Down', 'Right');
    assert.equal(await page.bytes(), garageWith(({ spans }) => {
        spans.y.splice(0, 2, 6020, 6980);
        spans.x[0] = 6580;
    }));
});

test('control with z goes back, with y forth, and with shift and z forth too', async () => {
    const { page, browser } = seat;
    await focus(lineOf('y', 2));
    await browser.press('Right', 'Right');
    const moved = garageWith(({ spans }) => spans.x.splice(1, 2, 7240, 7460));
    assert.equal(await page.bytes(), moved);
    await browser.press(['Control', 'z'], ['Control', 'z']);
    assert.equal(await page.bytes(), hex(GARAGE));
    await browser.press(['Control', 'y'], ['Control', 'y']);
    assert.equal(await page.bytes(), moved);
    await browser.press(['Control', 'z']);
    assert.equal(await page.bytes(), garageWith(({ spans }) => spans.x.splice(1, 2, 7220, 7480)));
    await browser.press(['Control', 'Shift', 'z']);
    assert.equal(await page.bytes(), moved);
});

test('the frame is picked by arrow keys in the list', async () => {
    const { page, browser } = seat;
    await focus('#frame-pick');
    const first = await page.texts('td.moment');
    await browser.press('Down');
    await browser.until((old) => Array.from(document.querySelectorAll('td.moment'), (cell) => cell.textContent).join() !== old, first.join());
    assert.equal(await browser.run(() => /** @type {HTMLSelectElement} */ (document.querySelector('#frame-pick')).value), 'x1');
});
