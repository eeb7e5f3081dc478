// Moments in kN·m are never below the exact ones, and never as much as 0.01 above.

import assert from 'node:assert/strict';
import { test } from 'node:test';
import { kNm, kNmOfNm } from '../src/units.js';

const ENDS = [0, 1, 999, 1000, 1001, 4294967295];

test('N·cm are written as kN·m to two places, never rounded down', () => {
    assert.deepEqual(ENDS.map(kNm), ['0.00', '0.01', '0.01', '0.01', '0.02', '42949.68']);
});

test('N·m are written as kN·m to two places, never rounded down', () => {
    assert.deepEqual(ENDS.map(kNmOfNm), ['0.00', '0.01', '1.00', '1.00', '1.01', '4294967.30']);
});

test('what is written is the least hundredth that is not below the exact number', () => {
    for (const [written, exactOfHundredth] of /** @type {const} */ ([[kNm, 1000n], [kNmOfNm, 10n]])) {
        for (let step = 0; step < 20000; step++) {
            const exact = (step * 2654435761) % 2 ** 32;
            const words = written(exact);
            assert.match(words, /^\d+\.\d\d$/);
            const above = BigInt(words.replace('.', '')) * exactOfHundredth - BigInt(exact);
            assert.ok(above >= 0n && above < exactOfHundredth, `${exact} is written ${words}`);
        }
    }
});
