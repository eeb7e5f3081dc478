// The page's sheet and the one that `slab sheet --html` writes: the same words and the same elements, opened in the same browser.

import assert from 'node:assert/strict';
import { test } from 'node:test';
import { pathToFileURL } from 'node:url';
import { changedGarage, HEAVY_FLOOR, largest, WIDE_BEAMS } from './floors.js';
import { morning } from './morning.js';
import { GARAGE, pageOfTests } from './page.js';
import { slab } from '../slab.js';

const seat = pageOfTests();

/** In a page: the sheet's words, and each of its elements with its class and the rows that it spans. */
function sheetShown() {
    const sheet = /** @type {HTMLElement} */ (document.querySelector('article.sheet'));
    const elements = [sheet, ...sheet.querySelectorAll('*')];
    return {
        words: sheet.innerText,
        elements: elements.map((node) => `${node.localName} ${node.className} ${node.getAttribute('rowspan') ?? ''}`.trim()),
        name: sheet.querySelector('h1')?.textContent ?? '',
        date: sheet.querySelector('p.date')?.textContent ?? '',
    };
}

const FLOORS = [
    { name: 'garage', bytes: GARAGE },
    { name: 'not clear', bytes: changedGarage(({ spans }) => spans.x.splice(2, 2, 9900, 4800)) },
    { name: 'thin & <b>bold</b> "quoted" \'it\'', bytes: changedGarage((floor) => { floor.t = 150; }) },
    { name: 'no beams, <i>é</i> — Deck 2', bytes: morning(2, 0).floor.bytes },
    { name: 'outer beams', bytes: morning(4, 0).floor.bytes },
    { name: 'no bars for these loads', bytes: HEAVY_FLOOR },
    { name: 'no width for bars', bytes: WIDE_BEAMS },
    { name: '12 by 12 bays', bytes: largest() },
];

for (const { name, bytes } of FLOORS) {
    test(`the sheet of a floor named ${name}`, async () => {
        const { page, browser } = seat;
        await page.fresh();
        await page.lay(bytes, name);
        await browser.click('#show-sheet');
        await browser.until(() => document.querySelector('#sheet article.sheet') !== null);
        const shown = await browser.run(sheetShown);
        assert.equal(shown.name, name);
        assert.match(shown.date, /^\d{4}-\d\d-\d\d$/);
        const floor = page.file('sheet.floor', bytes);
        const { stdout, stderr, status } = slab(['sheet', '--html', '--name', name, '--date', shown.date, floor]);
        assert.equal(status, await page.verdict() === 0 ? 0 : 1, stderr);
        await browser.open(pathToFileURL(page.file('sheet.html', stdout)).href);
        const written = await browser.run(sheetShown);
        assert.equal(shown.words, written.words);
        assert.deepEqual(shown.elements, written.elements);
    });
}

test('the bars of the sheet are those of the schedule, two for each row of moments', async () => {
    const { page, browser } = seat;
    await page.fresh();
    await browser.click('#show-sheet');
    const file = Buffer.from(await browser.run(() => Array.from(/** @type {any} */ (window).slab.schedule())));
    const said = Array.from({ length: file.length / 32 }, (_, entry) => {
        const [diameter, spacing] = [24, 28].map((byte) => file.readUInt32LE(32 * entry + byte));
        return `${diameter} @ ${spacing}`;
    });
    assert.equal(said.length, 294);
    assert.deepEqual(await page.texts('#sheet td.bars'), said);
    const inRows = await browser.run(() => (
        Array.from(document.querySelectorAll('#sheet .spans tbody tr'), (row) => row.querySelectorAll('td.bars').length)));
    assert.deepEqual(inRows, Array(147).fill(2));
    await browser.click('#show-sheet');
});

/**
 * In the page: the words of the sheet's cells that are wider than their cell.
 * @returns {string[]}
 */
function cellsTooNarrow() {
    return Array.from(document.querySelectorAll('#sheet :is(td, th)')).filter((cell) => {
        const words = document.createRange();
        words.selectNodeContents(cell);
        const [inner, outer] = [words.getBoundingClientRect(), cell.getBoundingClientRect()];
        return inner.left < outer.left - 0.5 || inner.right > outer.right + 0.5;
    }).map((cell) => cell.textContent ?? '');
}

for (const { name, bytes } of [
    { name: 'the garage', bytes: GARAGE },
    { name: '12 by 12 bays', bytes: largest() },
    { name: 'a heavy floor', bytes: HEAVY_FLOOR },
]) {
    test(`no word of the sheet of ${name} runs over its neighbour`, async () => {
        const { page, browser } = seat;
        await page.fresh();
        await page.lay(bytes);
        await browser.click('#show-sheet');
        assert.ok(await page.count('#sheet td.moment') > 500);
        assert.deepEqual(await browser.run(cellsTooNarrow), []);
        await browser.click('#show-sheet');
    });
}
