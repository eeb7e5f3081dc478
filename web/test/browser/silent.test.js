// On a floor that is not clear there is no moment and no bar anywhere in the document, nor on the paper that is printed of it.

import assert from 'node:assert/strict';
import { spawnSync } from 'node:child_process';
import { beforeEach, test } from 'node:test';
import { onPath } from './driver.js';
import { garageWith } from './floors.js';
import { GARAGE, hex, pageOfTests, wordsOf } from './page.js';

const seat = pageOfTests();
beforeEach(() => seat.page.fresh());

/** Another way to break the garage for each limit that it can break as it stands, and two at once. */
const BROKEN = [
    { limit: 2, hex: garageWith(({ spans }) => spans.x.fill(12000) && spans.y.fill(5980)) },
    { limit: 4, hex: garageWith(({ spans }) => spans.x.splice(2, 2, 9000, 5700)) },
    { limit: 8, hex: garageWith(({ offsets }) => offsets.splice(8, 1, [1200, 0])) },
    { limit: 16, hex: garageWith((floor) => { floor.live = 14401; }) },
    { limit: 64, hex: garageWith((floor) => { floor.t = 150; }) },
    { limit: 68, hex: garageWith(({ spans }) => spans.x.splice(2, 2, 9900, 4800)) },
];

/**
 * In the page: every number that stands in the document, in text and in attributes that are spoken or kept, but for the inlined files.
 * What an SVG is drawn with is no number that anyone reads.
 */
function numbersInDocument() {
    const numbers = new Set();
    const add = (/** @type {string | null} */ text) => (text ?? '').match(/\d+(\.\d+)?/g)?.forEach((number) => numbers.add(number));
    const walker = document.createTreeWalker(document.documentElement, NodeFilter.SHOW_ALL);
    for (let node = walker.nextNode(); node !== null; node = walker.nextNode()) {
        if (node.parentElement?.closest('script, style')) {
            continue;
        }
        if (node instanceof Element) {
            const kept = Array.from(node.attributes).filter(({ name }) => !(node instanceof SVGElement) || /^(aria-|data-|title)/.test(name));
            kept.forEach(({ value }) => add(value));
            if (node instanceof HTMLInputElement) {
                add(node.value);
            }
        } else {
            add(node.nodeValue);
        }
    }
    return Array.from(numbers);
}

/** In the page: every moment of every frame as it is shown, in kN·m and exact. */
function momentsOfAllFrames() {
    const moments = new Set();
    const frames = Array.from(/** @type {NodeListOf<HTMLOptionElement>} */ (document.querySelectorAll('#frame-pick option')), ({ value }) => value);
    const change = (/** @type {HTMLElement} */ field) => field.dispatchEvent(new Event('change', { bubbles: true }));
    for (const exact of [false, true]) {
        const box = /** @type {HTMLInputElement} */ (document.querySelector('#exact'));
        box.checked = exact;
        change(box);
        for (const frame of frames) {
            const pick = /** @type {HTMLSelectElement} */ (document.querySelector('#frame-pick'));
            pick.value = frame;
            change(pick);
            document.querySelectorAll('td.moment, td.mo').forEach((cell) => moments.add((cell.textContent ?? '').replace(/\s/g, '')));
        }
    }
    return Array.from(moments).filter((moment) => !/^0(\.00)?$/.test(moment));
}

/** What the sheet says besides name and date. */
function sheetWithoutNameAndDate() {
    const sheet = /** @type {HTMLElement} */ (document.querySelector('#sheet article.sheet'));
    const rest = /** @type {HTMLElement} */ (sheet.cloneNode(true));
    rest.querySelectorAll('h1, p.date').forEach((node) => node.remove());
    return rest.textContent ?? '';
}

/** In the page: every text that is said as bars are, shown or not. */
function barsInDocument() {
    const bars = [];
    const walker = document.createTreeWalker(document.body, NodeFilter.SHOW_TEXT);
    for (let node = walker.nextNode(); node !== null; node = walker.nextNode()) {
        if (!node.parentElement?.closest('script') && /\d+ @ \d+/.test(node.nodeValue ?? '')) {
            bars.push(node.nodeValue);
        }
    }
    return bars;
}

async function assertNoMoment(/** @type {string[]} */ moments) {
    const { page, browser } = seat;
    assert.equal(await page.count('td, svg#diagram, #frame-pick, #frame table'), 0);
    assert.deepEqual(await browser.run(barsInDocument), []);
    const there = new Set(await browser.run(numbersInDocument));
    assert.deepEqual(moments.filter((moment) => there.has(moment)), []);
}

/** @param {Buffer} pdf */
function pagesOf(pdf) {
    return (pdf.toString('latin1').match(/\/Type\s*\/Page[^s]/g) ?? []).length;
}

/**
 * The words of a PDF, or null without pdftotext.
 * @param {Buffer} pdf
 */
function wordsOfPdf(pdf) {
    return onPath('pdftotext') === null ? null : String(spawnSync('pdftotext', ['-', '-'], { input: pdf }).stdout);
}

for (const { limit, hex: broken } of BROKEN) {
    test(`no moment with verdict ${limit}, on the screen and in the print view`, async () => {
        const { page, browser } = seat;
        const moments = await browser.run(momentsOfAllFrames);
        assert.ok(moments.length > 500, `${moments.length} moments`);
        const first = await browser.run(numbersInDocument);
        assert.ok(moments.some((moment) => first.includes(moment)), 'moments are found where there are some');
        assert.equal((await browser.run(barsInDocument)).length, 24, 'and bars are, of a frame of four spans');
        await page.lay(Uint8Array.from(Buffer.from(broken, 'hex')));
        const verdict = await page.verdict();
        assert.equal(verdict & limit, limit);
        await assertNoMoment(moments);

        await browser.run(() => window.dispatchEvent(new Event('beforeprint')));
        await assertNoMoment(moments);
        assert.doesNotMatch(await browser.run(sheetWithoutNameAndDate), /\d/);
        await browser.run(() => window.dispatchEvent(new Event('afterprint')));
        assert.equal(await page.count('#sheet *'), 0);

        await browser.click('#show-sheet');
        await assertNoMoment(moments);
        const said = await page.texts('#sheet article.sheet.broken li');
        assert.deepEqual(said, Array.from(wordsOf('limits')).filter(([bit]) => verdict & bit).map(([, sentence]) => sentence));
        await browser.click('#show-sheet');
        assert.equal(await page.count('#sheet *'), 0);
    });
}

test('a floor that is not clear is printed on one page without a figure', async () => {
    const { page, browser } = seat;
    await page.lay(Uint8Array.from(Buffer.from(BROKEN[5].hex, 'hex')), 'Deck of Block A');
    const pdf = await browser.print();
    assert.equal(pagesOf(pdf), 1);
    const words = wordsOfPdf(pdf);
    if (words !== null) {
        assert.match(words, /Deck of Block A/);
        assert.match(words, /not clear/);
        assert.doesNotMatch(words.replace(/\d{4}-\d\d-\d\d/, ''), /\d/);
    }
    assert.equal(await page.count('#sheet *'), 0);
});

test('a clear floor is printed with its moments and without the page around them', async () => {
    const { page, browser } = seat;
    const pdf = await browser.print();
    assert.ok(pagesOf(pdf) > 1);
    const words = wordsOfPdf(pdf);
    if (words !== null) {
        assert.match(words, /38\.94/);
        assert.match(words, /y line 5, east edge/);
        assert.doesNotMatch(words, /Undo|New grid/);
    }
    assert.equal(await page.count('#sheet *'), 0);
});

test('the button prints the sheet', async () => {
    const { page, browser } = seat;
    await browser.run(() => {
        window.print = () => {
            window.dispatchEvent(new Event('beforeprint'));
            /** @type {any} */ (window).printed = document.querySelectorAll('#sheet article.sheet.clear section.frame').length;
            window.dispatchEvent(new Event('afterprint'));
        };
    });
    await browser.click('#print');
    assert.equal(await browser.until(() => /** @type {any} */ (window).printed), 11);
    assert.equal(await page.count('#sheet *'), 0);
});

test('moments that were there do not come back by undo of anything but a clear floor', async () => {
    const { page, browser } = seat;
    const moments = await browser.run(momentsOfAllFrames);
    await page.lay(Uint8Array.from(Buffer.from(BROKEN[1].hex, 'hex')));
    await page.lay(Uint8Array.from(Buffer.from(BROKEN[4].hex, 'hex')));
    await browser.click('#undo');
    assert.equal(await page.bytes(), BROKEN[1].hex);
    await assertNoMoment(moments);
    await browser.click('#undo');
    assert.equal(await page.bytes(), hex(GARAGE));
    assert.ok(await page.count('td.moment') > 0);
});
