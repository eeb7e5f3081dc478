// How long a step of a drag takes at 12 by 12 bays, with all that is drawn of it.

import assert from 'node:assert/strict';
import { test } from 'node:test';
import { largest } from './floors.js';
import { pageOfTests } from './page.js';

const seat = pageOfTests();

/** On a free machine a step takes less than 16 ms; this much it may take where others work beside it. */
const MOST_MS = 50;
const STEPS = 40;

/**
 * In the page: moves y line 6 by one step at each frame of the screen. A step is what a drag sends: the two spans beside the line, judged, and
 * all that is drawn of them, with the layout that the browser has to make of it.
 * @param {number} steps @param {number} far in steps of 20 mm from where the line stands
 */
async function timesOfSteps(steps, far) {
    const { slab } = /** @type {any} */ (window);
    const frame = () => new Promise((resolve) => requestAnimationFrame(resolve));
    /** @param {number} index @param {number} length */
    const span = (index, length) => {
        const bytes = new Uint8Array(16);
        new DataView(bytes.buffer).setUint16(0, 5, true);
        new DataView(bytes.buffer).setUint16(2, index, true);
        new DataView(bytes.buffer).setUint32(4, length, true);
        return bytes;
    };
    const took = [];
    const frames = [];
    for (let step = 0; step < steps; step += 1) {
        const shift = 20 * (far + (step % 10));
        await frame();
        const start = performance.now();
        const answer = slab.take([span(5, 6000 + shift), span(6, 6000 - shift)]);
        document.body.getBoundingClientRect();
        /** @type {SVGSVGElement} */ (document.querySelector('#plan g.panel text')).getBBox();
        took.push(performance.now() - start);
        await frame();
        frames.push(performance.now() - start);
        if ('refusal' in answer) {
            throw new Error(`refused ${answer.refusal}`);
        }
    }
    return { took, frames, verdict: slab.verdict() };
}

/** @param {number[]} numbers */
function median(numbers) {
    return [...numbers].sort((a, b) => a - b)[Math.floor(numbers.length / 2)];
}

for (const { what, far, verdict } of [{ what: 'a clear floor', far: 1, verdict: 0 }, { what: 'a floor that breaks limit 4', far: 65, verdict: 4 }]) {
    test(`a step of a drag at 12 by 12 bays, ${what}`, async (context) => {
        const { page, browser } = seat;
        await page.lay(largest());
        const times = await browser.run(timesOfSteps, STEPS, far);
        assert.equal(times.verdict, verdict);
        assert.equal(await page.count('#frame-table td.bars'), verdict === 0 ? 72 : 0, 'the bars of twelve spans are part of a step');
        const [step, frame] = [times.took, times.frames].map(median);
        context.diagnostic(`${what}: a step takes ${step.toFixed(1)} ms in the median, and ${Math.max(...times.took).toFixed(1)} at most; `
            + `until the next frame ${frame.toFixed(1)} ms`);
        assert.ok(step < MOST_MS, `${step} ms`);
    });
}
