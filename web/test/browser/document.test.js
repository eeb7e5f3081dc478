// The document itself: one file that asks for nothing else, with every id once and a name for every field.

import assert from 'node:assert/strict';
import { join } from 'node:path';
import { test } from 'node:test';
import { BUILT, kept, pageOfTests } from './page.js';

const seat = pageOfTests();

test('every id stands once', async () => {
    const ids = await seat.browser.run(() => Array.from(document.querySelectorAll('[id]'), ({ id }) => id));
    assert.deepEqual(ids.filter((id, place) => ids.indexOf(id) !== place), []);
});

test('nothing is asked for beside the file', async () => {
    const asked = await seat.browser.run(() => performance.getEntriesByType('resource').map(({ name }) => name));
    assert.deepEqual(asked, []);
    const text = Buffer.from(kept(join(BUILT, 'slab.html'))).toString('utf8');
    assert.doesNotMatch(text, /(src|href)\s*=\s*["']?(https?:|\/\/|\.)/);
    assert.doesNotMatch(text, /innerHTML|outerHTML|insertAdjacentHTML|document\.write|\beval\(|new Function/);
});

test('no line of the page is left to be filled by the build', async () => {
    const text = Buffer.from(kept(join(BUILT, 'slab.html'))).toString('utf8');
    assert.doesNotMatch(text, /<!-- (policy|styles|script|library|garage|words)/);
});

test('the policy allows one script and the styles, by their digests, and nothing else', () => {
    const text = Buffer.from(kept(join(BUILT, 'slab.html'))).toString('utf8');
    const digest = "'sha256-[A-Za-z0-9+/]{43}='";
    assert.match(text, new RegExp(`Content-Security-Policy" content="default-src 'none'; style-src ${digest}; script-src ${digest} 'wasm-unsafe-eval'">`));
});

test('every field and every button has a name', async () => {
    const nameless = await seat.browser.run(() => {
        const fields = /** @type {NodeListOf<HTMLInputElement>} */ (document.querySelectorAll('input:not([hidden]), select, button'));
        return Array.from(fields).filter((field) => {
            const names = [field.getAttribute('aria-label'), field.labels?.[0]?.textContent, field.textContent];
            return names.every((name) => (name ?? '').trim() === '');
        }).map(({ outerHTML }) => outerHTML);
    });
    assert.deepEqual(nameless, []);
});

test('the units stand beside the fields of lengths, loads and strengths', async () => {
    const units = { dead: 'N/m²', live: 'N/m²', slab: 'mm', concrete: 'MPa', cx: 'mm', cy: 'mm' };
    for (const [id, unit] of Object.entries(units)) {
        const words = await seat.browser.run((field) => document.querySelector(`#${field}`)?.closest('label')?.textContent ?? '', id);
        assert.ok(words.includes(unit), `${id}: ${words}`);
    }
});
