// The bar schedule in the page: bars beside the moments of each frame, how deep they lie, the file for the yard, what is said where there is none.

import assert from 'node:assert/strict';
import { existsSync, readdirSync, readFileSync } from 'node:fs';
import { join } from 'node:path';
import { beforeEach, test } from 'node:test';
import { floorOf } from '../../src/floor.js';
import { slab } from '../slab.js';
import { changedGarage, HEAVY_FLOOR, WIDE_BEAMS } from './floors.js';
import { morning } from './morning.js';
import { GARAGE, hex, pageOfTests, wordsOf } from './page.js';

const seat = pageOfTests();
beforeEach(() => seat.page.fresh());

const DRAWN_FLOORS = 10;

const BROKEN = changedGarage((floor) => {
    floor.t = 150;
});

const THICKER = changedGarage((floor) => {
    floor.t = 240;
});

/**
 * The file that `slab schedule` writes of the floor.
 * @param {Uint8Array} bytes
 */
function scheduleOfSlab(bytes) {
    const file = join(seat.page.folder, 'slab.schedule');
    const { status, stderr } = slab(['schedule', seat.page.file('scheduled.floor', bytes), '--out', file]);
    assert.equal(status, 0, stderr);
    return readFileSync(file);
}

/** In the page: picks each frame of the list, and reads the bars of its rows. */
function barsOfAllFrames() {
    const frames = Array.from(/** @type {NodeListOf<HTMLOptionElement>} */ (document.querySelectorAll('#frame-pick option')), ({ value }) => value);
    return frames.flatMap((value) => {
        const pick = /** @type {HTMLSelectElement} */ (document.querySelector('#frame-pick'));
        pick.value = value;
        pick.dispatchEvent(new Event('change', { bubbles: true }));
        const cells = /** @type {NodeListOf<HTMLElement>} */ (document.querySelectorAll('#frame-table td.bars'));
        return Array.from(cells, ({ dataset: { span, section, strip }, textContent }) => `${value} ${span} ${section} ${strip}: ${textContent}`);
    });
}

/**
 * The same lines of a file's records.
 * @param {Uint8Array} bytes of the floor @param {Buffer} file
 */
function barsOfFile(bytes, file) {
    const { spans } = floorOf(bytes) ?? assert.fail('no floor');
    const along = [...spans.y, 0].flatMap((_, line) => spans.x.map((_, span) => `x${line} ${span}`));
    const across = [...spans.x, 0].flatMap((_, line) => spans.y.map((_, span) => `y${line} ${span}`));
    assert.equal(file.length, 32 * 6 * (along.length + across.length));
    const places = ['low', 'between', 'high'].flatMap((section) => ['column', 'middle'].map((strip) => `${section} ${strip}`));
    return [...along, ...across].flatMap((span, record) => places.map((place, which) => {
        const at = 32 * (6 * record + which);
        assert.equal(file.readUInt32LE(at), record);
        return `${span} ${place}: ${file.readUInt32LE(at + 24)} @ ${file.readUInt32LE(at + 28)}`;
    }));
}

test('every frame of the garage, and of drawn floors, shows the bars of slab schedule', async () => {
    const { page, browser } = seat;
    const drawn = Array.from({ length: DRAWN_FLOORS }, (_, seed) => morning(seed + 1, 0).floor.bytes);
    let barred = 0;
    for (const bytes of [GARAGE, ...drawn]) {
        await page.lay(bytes);
        const shown = await browser.run(barsOfAllFrames);
        if (shown.length === 0) {
            assert.equal(slab(['schedule', page.file('refused.floor', bytes)]).status, 2);
        } else {
            assert.deepEqual(shown, barsOfFile(bytes, scheduleOfSlab(bytes)));
            barred += 1;
        }
    }
    assert.ok(barred >= 4, `${barred} floors with bars`);
});

test('bars are those of the floor as it is after a change, an undo and a redo', async () => {
    const { page, browser } = seat;
    const heavier = changedGarage((floor) => {
        floor.live = 14000;
    });
    const [before, changed] = [GARAGE, heavier].map((bytes) => barsOfFile(bytes, scheduleOfSlab(bytes)));
    assert.notDeepEqual(before, changed);
    await browser.type('#live', '14000\uE007');
    assert.equal(await page.bytes(), hex(heavier));
    assert.deepEqual(await browser.run(barsOfAllFrames), changed);
    await browser.click('#undo');
    assert.deepEqual(await browser.run(barsOfAllFrames), before);
    await browser.click('#redo');
    assert.deepEqual(await browser.run(barsOfAllFrames), changed);
});

/** What was saved up to now, and what is still being saved. */
function downloads() {
    return existsSync(seat.page.downloads) ? readdirSync(seat.page.downloads).sort() : [];
}

test('the file for the yard is the one of slab schedule, also of what was typed last', async () => {
    const { page, browser } = seat;
    await browser.click('#save-schedule');
    assert.equal(hex(await page.saved('garage.schedule')), hex(scheduleOfSlab(GARAGE)));
    await page.lay(GARAGE, 'deck 2');
    await browser.type('#live', '9000');
    await browser.click('#save-schedule');
    const typed = changedGarage((floor) => {
        floor.live = 9000;
    });
    assert.equal(hex(await page.saved('deck 2.schedule')), hex(scheduleOfSlab(typed)));
    assert.equal((await page.message()).words, '');
});

for (const { what, bytes, refusal } of [
    { what: 'is not clear', bytes: BROKEN, refusal: 16 },
    { what: 'asks for more steel than bars give', bytes: HEAVY_FLOOR, refusal: 17 },
    { what: 'has beams as wide as its column strips', bytes: WIDE_BEAMS, refusal: 17 },
]) {
    test(`of a floor that ${what} no schedule is saved, and refusal ${refusal} is said`, async () => {
        const { page, browser } = seat;
        await page.lay(bytes, `refused ${what}`);
        assert.equal((await page.message()).words, '');
        const before = downloads();
        await browser.click('#save-schedule');
        const message = await page.message();
        assert.equal(message.refusal, String(refusal));
        assert.ok(message.words.includes(`refused ${refusal}: ${wordsOf('refusals').get(refusal) ?? 'no such refusal'}`), message.words);
        // A floor that is saved afterwards is there before a schedule that would have been saved first.
        await browser.click('#save');
        assert.equal(hex(await page.saved(`refused ${what}.floor`)), hex(bytes));
        assert.deepEqual(downloads(), [...before, `refused ${what}.floor`].sort());
        assert.equal(await page.bytes(), hex(bytes));
    });
}

/** In the page: the sentence, where the whole of it is in sight. */
function unbarredInSight() {
    const node = /** @type {HTMLElement} */ (document.querySelector('#unbarred'));
    const { top, bottom, height } = node.getBoundingClientRect();
    return top >= 0 && bottom <= window.innerHeight && height > 0 ? node.innerText : '';
}

test('that a clear floor cannot be barred is in sight as long as it is so, and there are no bars', async () => {
    const { page, browser } = seat;
    const sentence = `No bars are shown. Refused 17: ${wordsOf('refusals').get(17)}.`;
    assert.equal(await browser.run(unbarredInSight), '');
    assert.equal(await page.count('#frame-table td.bars'), 30);
    for (const bytes of [HEAVY_FLOOR, WIDE_BEAMS]) {
        await page.lay(bytes);
        assert.equal(await page.verdict(), 0);
        assert.equal(await browser.run(unbarredInSight), sentence);
        assert.equal(await page.count('.bars'), 0);
        assert.ok(await page.count('#frame-table td.moment') > 0);
        await browser.click('#show-sheet');
        assert.deepEqual(await page.texts('#sheet p.unbarred'), [sentence]);
        assert.equal(await page.count('.bars'), 0);
        assert.ok(await page.count('#sheet td.moment') > 0);
        await browser.click('#show-sheet');
    }
    await page.lay(BROKEN);
    assert.deepEqual(await page.texts('#unbarred'), ['']);
    await browser.click('#example');
    assert.deepEqual(await page.texts('#unbarred'), ['']);
    assert.equal(await page.count('#frame-table td.bars'), 30);
});

test('a load that is typed takes the bars away, and another brings them back', async () => {
    const { page, browser } = seat;
    await browser.type('#dead', '30000\uE007');
    await browser.type('#live', '50000\uE007');
    assert.equal(await page.bytes(), hex(HEAVY_FLOOR));
    assert.notEqual(await browser.run(unbarredInSight), '');
    assert.equal(await page.count('.bars'), 0);
    await browser.type('#live', '5000\uE007');
    await browser.type('#dead', '7200\uE007');
    assert.equal(await browser.run(unbarredInSight), '');
    assert.deepEqual((await browser.run(barsOfAllFrames)).slice(0, 6), ['x0 0 low column: 10 @ 210', 'x0 0 low middle: 10 @ 210',
        'x0 0 between column: 10 @ 210', 'x0 0 between middle: 10 @ 210', 'x0 0 high column: 10 @ 210', 'x0 0 high middle: 10 @ 200']);
});

/**
 * In the page: picks each frame of the list, scrolls to its first bars, and reads what is said of their depth where the whole of it is then in sight.
 */
function layersInSight() {
    const frames = Array.from(/** @type {NodeListOf<HTMLOptionElement>} */ (document.querySelectorAll('#frame-pick option')), ({ value }) => value);
    return frames.map((value) => {
        const pick = /** @type {HTMLSelectElement} */ (document.querySelector('#frame-pick'));
        pick.value = value;
        pick.dispatchEvent(new Event('change', { bubbles: true }));
        document.querySelector('#frame-table td.bars')?.scrollIntoView({ block: 'center' });
        const notes = Array.from(document.querySelectorAll('#frame-table .layer')).filter((note) => {
            const { left, right, top, bottom } = note.getBoundingClientRect();
            const corners = [[left + 1, top + 1], [right - 1, top + 1], [left + 1, bottom - 1], [right - 1, bottom - 1]];
            return corners.every(([x, y]) => document.elementFromPoint(x, y) === note);
        });
        return `${value}: ${notes.map((note) => note.textContent).join(' ')}`;
    });
}

/**
 * What is to be said of the garage's frames.
 * @param {number} x the depth along x @param {number} y along y
 */
function layersOfGarage(x, y) {
    const along = Array.from({ length: 5 }, (_, line) => `x${line}: Bars at an effective depth of ${x} mm, next to the face of the slab.`);
    const across = Array.from({ length: 6 }, (_, line) => `y${line}: Bars at an effective depth of ${y} mm, inside the bars along x.`);
    return [...along, ...across];
}

test('over the bars of every frame stands how deep they lie, also after another slab is typed and after an undo', async () => {
    const { page, browser } = seat;
    assert.deepEqual(await browser.run(layersInSight), layersOfGarage(174, 162));
    await browser.type('#slab', '240\uE007');
    assert.equal(await page.bytes(), hex(THICKER));
    assert.deepEqual(await page.texts('#frame-table .layer'), ['Bars at an effective depth of 202 mm, inside the bars along x.'], 'of the frame that was picked');
    assert.deepEqual(await browser.run(layersInSight), layersOfGarage(214, 202));
    await browser.click('#undo');
    assert.deepEqual(await browser.run(layersInSight), layersOfGarage(174, 162));
    await browser.size(1024, 768);
    assert.deepEqual(await browser.run(layersInSight), layersOfGarage(174, 162));
    await browser.size(1280, 800);
});

/** In the page: every text that says how deep bars lie, shown or not. */
function depthsInDocument() {
    const said = [];
    const walker = document.createTreeWalker(document.body, NodeFilter.SHOW_TEXT);
    for (let node = walker.nextNode(); node !== null; node = walker.nextNode()) {
        if (!node.parentElement?.closest('script') && /depth of \d+ mm/.test(node.nodeValue ?? '')) {
            said.push(node.nodeValue ?? '');
        }
    }
    return said;
}

test('the notes of the sheet say which bars lie next to the face and which on them, with the depths of the slab as it is', async () => {
    const { page, browser } = seat;
    await browser.click('#show-sheet');
    for (const { bytes, x, y } of [{ bytes: GARAGE, x: 174, y: 162 }, { bytes: THICKER, x: 214, y: 202 }]) {
        await page.lay(bytes);
        const sentence = `At top and bottom, bars along x lie next to the face of the slab, at an effective depth of ${x} mm, and bars along y inside them, at ${y} mm.`;
        const [notes, ...more] = await page.texts('#sheet p.notes');
        assert.deepEqual(more, []);
        assert.ok(notes.endsWith(` ${sentence}`), notes);
        assert.equal((await browser.run(depthsInDocument)).length, 2, 'on the sheet, and over the bars of the frame');
    }
    await browser.click('#show-sheet');
});

for (const { what, bytes } of [
    { what: 'is not clear', bytes: BROKEN },
    { what: 'asks for more steel than bars give', bytes: HEAVY_FLOOR },
    { what: 'has beams as wide as its column strips', bytes: WIDE_BEAMS },
]) {
    test(`no depth is said of a floor that ${what}, on the screen or on the sheet, until there are bars again`, async () => {
        const { page, browser } = seat;
        const before = await browser.run(depthsInDocument);
        assert.equal(before.length, 1);
        await page.lay(bytes);
        assert.deepEqual(await browser.run(depthsInDocument), []);
        await browser.click('#show-sheet');
        assert.equal(await page.count('#sheet article.sheet'), 1);
        assert.deepEqual(await browser.run(depthsInDocument), []);
        await browser.click('#show-sheet');
        await browser.click('#undo');
        assert.deepEqual(await browser.run(depthsInDocument), before);
    });
}
