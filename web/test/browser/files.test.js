// Files opened and saved: what is damaged is refused in words and what was open stays, what is right is saved as it was opened.

import assert from 'node:assert/strict';
import { readFileSync } from 'node:fs';
import { join } from 'node:path';
import { beforeEach, test } from 'node:test';
import { garageWith } from './floors.js';
import { morning } from './morning.js';
import { GARAGE, hex, kept, pageOfTests, wordsOf } from './page.js';
import { slab } from '../slab.js';

const seat = pageOfTests();
beforeEach(() => seat.page.fresh());

const MB = 1000000;
const MARKUP = '<img src=x onerror=alert(1)>';

/** @param {string} digits */
function bytesOf(digits) {
    return Uint8Array.from(Buffer.from(digits, 'hex'));
}

/**
 * The garage with one byte another.
 * @param {number} at @param {number} byte
 */
function damaged(at, byte) {
    const bytes = GARAGE.slice();
    bytes[at] = byte;
    return bytes;
}

/** @param {Uint8Array} bytes @param {number} length */
function lengthened(bytes, length) {
    const longer = new Uint8Array(length);
    longer.set(bytes);
    return longer;
}

/** @type {{what: string, refusal: number, bytes: Uint8Array}[]} */
const DAMAGED = [
    { what: 'an empty file', refusal: 1, bytes: new Uint8Array(0) },
    { what: 'the garage without its last byte', refusal: 1, bytes: GARAGE.slice(0, -1) },
    { what: 'a slab of 89 mm', refusal: 2, bytes: bytesOf(garageWith((floor) => { floor.t = 89; })) },
    { what: 'a record too many', refusal: 3, bytes: lengthened(GARAGE, GARAGE.length + 16) },
    { what: 'another kind in a record', refusal: 4, bytes: damaged(16 * 5, 6) },
    { what: 'a span of 6610 mm', refusal: 5, bytes: bytesOf(garageWith(({ spans }) => { spans.x[0] = 6610; })) },
    { what: 'a span shorter than two columns', refusal: 6, bytes: bytesOf(garageWith(({ spans }) => { spans.x[0] = 1100; })) },
    { what: 'a line without its beam', refusal: 7, bytes: bytesOf(garageWith(({ beams }) => { beams.x[2] = [0, 0]; })) },
    { what: '10 MB of zeros', refusal: 2, bytes: new Uint8Array(10 * MB) },
    { what: 'the garage and zeros up to 10 MB', refusal: 3, bytes: lengthened(GARAGE, 10 * MB) },
    { what: 'the garage and zeros up to 10 MB and a byte', refusal: 1, bytes: lengthened(GARAGE, 10 * MB + 1) },
];

/** Nothing was opened: floor, name, and nothing to go back to. */
async function assertStays() {
    const { page, browser } = seat;
    assert.equal(await page.bytes(), hex(GARAGE));
    assert.deepEqual(await page.texts('#name'), ['garage']);
    assert.equal(await browser.run(() => /** @type {HTMLButtonElement} */ (document.querySelector('#undo')).disabled), true);
    assert.equal(await page.count('td.moment') > 0, true);
}

for (const { what, refusal, bytes } of DAMAGED) {
    test(`${what} is refused ${refusal}, and what was open stays`, async () => {
        const { page } = seat;
        await page.openFile('damaged.floor', bytes);
        const message = await page.message();
        assert.equal(message.refusal, String(refusal));
        const sentence = wordsOf('refusals').get(refusal) ?? 'no such refusal';
        assert.ok(message.words.includes(`refused ${refusal}: ${sentence}`), message.words);
        await assertStays();
    });
}

test('a text with faults is answered with each of them, in the words of slab make', async () => {
    const { page } = seat;
    const text = `slab 200\nslab 210\n${MARKUP} 5\nconcrete thirty\n`;
    await page.openFile('faults.txt', text);
    const { stderr, status } = slab(['make', page.file('faults.txt', text), '-o', page.file('none.floor', '')]);
    assert.equal(status, 3);
    const faults = Array.from(stderr.matchAll(/line \d+: .*/g), ([fault]) => fault);
    assert.ok(faults.length >= 8, stderr);
    const { words } = await page.message();
    faults.forEach((fault) => assert.ok(words.includes(fault), `${fault}\nnot in\n${words}`));
    assert.equal(await page.count('img'), 0);
    await assertStays();
});

test('a text of 10 MB is answered in words, and what was open stays', async () => {
    const { page } = seat;
    await page.openFile('long.txt', 'slab 200\n'.repeat((10 * MB) / 9));
    assert.notEqual((await page.message()).words, '');
    await assertStays();
});

test('a text of 1 MB, every line of it a fault, is answered in words that can be read', async () => {
    const { page, browser } = seat;
    await page.openFile('faulty.txt', 'floor\n'.repeat(MB / 6));
    assert.notEqual((await page.message()).words, '');
    assert.ok(await browser.run(() => document.querySelectorAll('*').length) < 5000, 'a page of that many elements is not read');
    await assertStays();
});

test('a text that is right is opened, as slab make makes it', async () => {
    const { page } = seat;
    const text = String(Buffer.from(kept('example/garage.txt'))).replace('6600 7200 7500', '6800 7000 7500');
    await page.openFile('moved deck.txt', text);
    const made = slab(['make', page.file('moved deck.txt', text), '-o', page.file('made.floor', '')]);
    assert.equal(made.status, 0, made.stderr);
    assert.equal(await page.bytes(), hex(readFileSync(join(page.folder, 'made.floor'))));
    assert.deepEqual(await page.texts('#name'), ['moved deck']);
    assert.equal((await page.message()).words, '');
});

test('a floor that was opened is saved with the same bytes, and its text is that of slab text', async () => {
    const { page, browser } = seat;
    for (const seed of [5, 6, 7]) {
        const { bytes } = morning(seed, 0).floor;
        await page.openFile(`drawn ${seed}.floor`, bytes);
        await browser.click('#save');
        assert.equal(hex(await page.saved(`drawn ${seed}.floor`)), hex(bytes));
        await browser.click('#save-text');
        const { stdout } = slab(['text', page.file('drawn.floor', bytes)]);
        assert.equal(String(await page.saved(`drawn ${seed}.txt`)), String(stdout));
    }
});

test('a saved text is opened again as the same floor', async () => {
    const { page, browser } = seat;
    const { bytes } = morning(8, 0).floor;
    await page.openFile('round.floor', bytes);
    await browser.click('#save-text');
    const text = await page.saved('round.txt');
    await browser.click('#example');
    assert.equal(await page.bytes(), hex(GARAGE));
    await page.openFile('again.txt', text);
    assert.equal(await page.bytes(), hex(bytes));
});

test('a file that is opened twice is opened twice', async () => {
    const { page, browser } = seat;
    const { bytes } = morning(9, 0).floor;
    await page.openFile('twice.floor', bytes);
    await browser.click('#example');
    await page.openFile('twice.floor', bytes);
    assert.equal(await page.bytes(), hex(bytes));
});

test('a file named as markup shows its name and makes no element', async () => {
    const { page, browser } = seat;
    await page.openFile(`${MARKUP}.floor`, morning(9, 0).floor.bytes);
    assert.deepEqual(await page.texts('#name'), [MARKUP]);
    await browser.click('#show-sheet');
    assert.deepEqual(await page.texts('#sheet h1'), [MARKUP]);
    await browser.click('#show-sheet');
    await page.openFile(`${MARKUP}${MARKUP}.floor`, GARAGE.slice(1));
    const { words } = await page.message();
    assert.ok(words.includes(`${MARKUP}${MARKUP}.floor`) && words.includes('refused 1'), words);
    assert.equal(await page.count('img, [onerror]'), 0);
    await assert.rejects(browser.ask('GET', '/alert/text'), /no such alert/);
});
