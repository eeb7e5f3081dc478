// A thousand changes drawn from a seed: after each the verdict or the refusal, the table and the governing moments are the reference's.

import assert from 'node:assert/strict';
import { test } from 'node:test';
import { morning } from './morning.js';
import { hex, pageOfTests } from './page.js';

const seat = pageOfTests();

/** As many changes as one message to the browser holds with ease. */
const BATCH = 100;

/**
 * Takes each change, and answers what stands after it.
 * @param {number[][]} changes @param {number} tableLength @param {number} governingLength
 */
function takeAll(changes, tableLength, governingLength) {
    const { slab } = /** @type {any} */ (window);
    return changes.map((change) => {
        const answer = slab.take([Uint8Array.from(change)]);
        return {
            refusal: answer.refusal ?? 0,
            verdict: slab.verdict(),
            said: answer.verdict ?? 255,
            standing: Number(/** @type {HTMLElement} */ (document.querySelector('#standing')).dataset.verdict),
            cells: document.querySelectorAll('td').length,
            table: slab.table().slice(0, tableLength).join(' '),
            governing: slab.governing().slice(0, governingLength).join(' '),
        };
    });
}

/** Beams on the outer lines, everywhere and none. */
for (const [seed, count] of [[19, 1000], [3, 200], [20, 200]]) {
    test(`${count} changes from seed ${seed}`, async () => {
        const { page, browser } = seat;
        await page.fresh();
        const { floor, changes, left } = morning(seed, count);
        await page.lay(floor.bytes);
        const lengths = [floor.table, floor.governing].map((numbers) => numbers.split(' ').length);
        let verdict = floor.verdict;
        for (let start = 0; start < count; start += BATCH) {
            const batch = changes.slice(start, start + BATCH);
            const found = await browser.run(takeAll, batch.map(({ bytes }) => Array.from(bytes)), ...lengths);
            batch.forEach((right, place) => {
                verdict = right.refusal === 0 ? right.verdict : verdict;
                const { refusal, table, governing } = right;
                const wanted = { refusal, verdict, said: right.verdict, standing: verdict, table, governing };
                const { cells, ...rest } = found[place];
                assert.deepEqual(rest, wanted, `change ${start + place}, ${hex(right.bytes)}`);
                assert.equal(cells > 0, verdict === 0, `change ${start + place}`);
            });
        }
        assert.equal(await page.bytes(), hex(left));
    });
}
