// The floor edited as a text in the page: what no single change makes, such as beams on other lines.

import assert from 'node:assert/strict';
import { readFileSync } from 'node:fs';
import { join } from 'node:path';
import { beforeEach, test } from 'node:test';
import { morning } from './morning.js';
import { GARAGE, hex, pageOfTests, wordsOf } from './page.js';
import { slab } from '../slab.js';

const seat = pageOfTests();
beforeEach(() => seat.page.fresh());

function isOpen() {
    return seat.browser.run(() => /** @type {HTMLDialogElement} */ (document.querySelector('#writing')).open);
}

/** @returns {Promise<string>} */
function written() {
    return seat.browser.run(() => /** @type {HTMLTextAreaElement} */ (document.querySelector('#writing-text')).value);
}

/**
 * As pasted in the place of what stands there.
 * @param {string} text
 */
async function write(text) {
    await seat.browser.run((all) => {
        const area = /** @type {HTMLTextAreaElement} */ (document.querySelector('#writing-text'));
        area.focus();
        area.select();
        document.execCommand('insertText', false, all);
    }, text);
}

/**
 * The floor that slab makes of the text.
 * @param {string} text
 */
function madeBySlab(text) {
    const { page } = seat;
    const { status, stderr } = slab(['make', page.file('written.txt', text), '-o', join(page.folder, 'made.floor')]);
    assert.equal(status, 0, stderr);
    return hex(readFileSync(join(page.folder, 'made.floor')));
}

test('the dialog begins with the text that slab writes of the floor', async () => {
    const { page, browser } = seat;
    await browser.click('#edit');
    assert.equal(await isOpen(), true);
    assert.equal(await written(), String(slab(['text', page.file('garage.floor', GARAGE)]).stdout));
    await browser.click('#writing-cancel');
    const { bytes } = morning(2, 0).floor;
    await page.lay(bytes);
    await browser.click('#edit');
    assert.equal(await written(), String(slab(['text', page.file('drawn.floor', bytes)]).stdout));
});

test('a text that puts beams on every line is taken, and is one step back', async () => {
    const { page, browser } = seat;
    const { bytes } = morning(2, 0).floor;
    await page.lay(bytes);
    await browser.click('#edit');
    const text = `${await written()}all lines beam 300 900\n`;
    await write(text);
    await browser.click('#writing-make');
    assert.equal(await isOpen(), false);
    const made = madeBySlab(text);
    assert.notEqual(made, hex(bytes));
    assert.equal(await page.bytes(), made);
    assert.deepEqual(await page.texts('#name'), ['laid']);
    await browser.click('#undo');
    assert.equal(await page.bytes(), hex(bytes));
});

test('a fault is said with its line and keeps the dialog open, with what was written', async () => {
    const { page, browser } = seat;
    await browser.click('#edit');
    const lines = (await written()).split('\n');
    lines.splice(2, 0, 'slab <img src=x onerror=alert(1)>');
    await write(lines.join('\n'));
    await browser.click('#writing-make');
    assert.equal(await isOpen(), true);
    const [words] = await page.texts('#writing-trouble');
    const { stderr, status } = slab(['make', page.file('fault.txt', lines.join('\n'))]);
    assert.equal(status, 3);
    const faults = Array.from(stderr.matchAll(/line \d+: .*/g), ([fault]) => fault);
    assert.ok(faults.length > 0 && faults[0].startsWith('line 3:'), stderr);
    faults.forEach((fault) => assert.ok(words.includes(fault), `${fault}\nnot in\n${words}`));
    assert.equal(await page.count('img'), 0);
    assert.equal(await written(), lines.join('\n'));
    assert.equal(await page.bytes(), hex(GARAGE));
});

test('a floor that is refused keeps the dialog open, and the mended text is taken', async () => {
    const { page, browser } = seat;
    await browser.click('#edit');
    const text = await written();
    assert.match(text, /^slab 200 /m);
    await write(text.replace(/^slab 200 /m, 'slab 89 '));
    await browser.click('#writing-make');
    assert.equal(await isOpen(), true);
    const [words] = await page.texts('#writing-trouble');
    assert.ok(words.includes(`refused 2: ${wordsOf('refusals').get(2)}`), words);
    assert.equal(await page.bytes(), hex(GARAGE));
    const mended = text.replace(/^slab 200 /m, 'slab 205 ');
    await write(mended);
    await browser.click('#writing-make');
    assert.equal(await isOpen(), false);
    assert.equal(await page.bytes(), madeBySlab(mended));
});

test('control with z in the text takes back what was typed, and not the floor behind it', async () => {
    const { page, browser } = seat;
    await browser.type('#dead', '8000\uE007');
    const changed = await page.bytes();
    await browser.click('#edit');
    const text = await written();
    await browser.click('#writing-text');
    await browser.press('7', '7');
    assert.notEqual(await written(), text);
    await browser.press(['Control', 'z'], ['Control', 'z']);
    assert.equal(await page.bytes(), changed);
    assert.equal(await written(), text);
});

test('cancel and Escape leave all as it was, and what was written is not kept', async () => {
    const { page, browser } = seat;
    for (const leave of [() => browser.click('#writing-cancel'), () => browser.press('Escape')]) {
        await browser.click('#edit');
        const text = await written();
        await write('slab 300\n');
        await leave();
        assert.equal(await isOpen(), false);
        assert.equal(await page.bytes(), hex(GARAGE));
        assert.equal(await browser.run(() => /** @type {HTMLButtonElement} */ (document.querySelector('#undo')).disabled), true);
        await browser.click('#edit');
        assert.equal(await written(), text);
        await browser.click('#writing-cancel');
    }
});
