// The words of places, limits, refusals and records, beside those of `slab check`.

import assert from 'node:assert/strict';
import { readFileSync } from 'node:fs';
import test from 'node:test';
import { RECORD_BYTES, bytesOf, recordOf } from '../src/floor.js';
import { opened } from '../src/judge.js';
import { Library } from '../src/library.js';
import { sayWhy } from '../src/say/culprits.js';
import { brokenLimits } from '../src/say/limits.js';
import { sayPlace } from '../src/say/places.js';
import { sayRange, sayRecord, sayRefusal } from '../src/say/refusals.js';
import { readWords } from '../src/say/words.js';
import { Draw, drawAccepted, drawAny } from './draw.js';
import { slab } from './slab.js';

/** @typedef {import('../src/judge.js').Judged} Judged */

/** @param {string} path from the repository's root */
function fileAt(path) {
    return readFileSync(new URL(`../../${path}`, import.meta.url));
}

/** The module that ./page compiles. */
function moduleBytes() {
    try {
        return fileAt('target/page/gandhrumil.wasm');
    } catch (cause) {
        throw new Error('run ./page first', { cause });
    }
}

const library = await Library.of(moduleBytes());
const texts = { limits: `${fileAt('words/limits.txt')}`, refusals: `${fileAt('words/refusals.txt')}`, ranges: `${fileAt('words/ranges.txt')}` };
const words = readWords(texts);

/**
 * What `slab check --all` says of a floor below its first line, without the panels.
 * @param {Uint8Array} bytes
 */
function checked(bytes) {
    const { status, stdout } = slab(['check', '--all', '-'], bytes);
    return { status, said: stdout.toString().replace(/^standard input: (accepted.*\n)?/, '').split('\n\n')[0].trimEnd() };
}

/**
 * The verdict as `slab check --all` has it, from what is said here.
 * @param {Judged} judged
 */
function verdictPage(judged) {
    const limits = brokenLimits(words, judged).map(({ limit, sentence, places }) => [
        `  ${String(limit).padStart(2)}  ${sentence}`,
        ...places.map((place) => `        ${sayPlace(judged, place)}`),
    ]);
    return [`not clear, verdict ${judged.verdict}:`, ...limits.flat(), 'moments stand only on a floor that is clear'].join('\n');
}

/** Each must have been said of some place. */
const PLACES_SAID = [
    /^1 bay along x$/, /^2 bays along y$/, /^panel of x bay \d+, y bay \d+: \d+ by \d+ mm, of which/,
    /^x spans \d+ and \d+: \d+ and \d+ mm, which differ/, /^y spans 10 and 11: /, /off along x, beside x span 0 of \d+ mm$/,
    /off along x, beside x spans \d+ and \d+ of \d+ and \d+ mm$/, /off along y, beside y span \d+ of \d+ mm$/,
    /off along y, beside y spans \d+ and \d+ of \d+ and \d+ mm$/, /^live load \d+ N\/m², dead load \d+$/,
    /mm, beams \d+ by \d+ on x lines \d+ and \d+, \d+ by \d+ on y lines/,
    /mm, beams \d+ by \d+ and \d+ by \d+ on x lines \d+ and \d+, \d+ by \d+ on y/,
    /on x lines \d+ and \d+, \d+ by \d+ and \d+ by \d+ on y lines \d+ and \d+$/, /: \d+ mm needed, slab \d+$/,
];

test('every broken limit and every place, as `slab check --all` says them', () => {
    const draw = new Draw(5);
    const said = new Set();
    let clear = 0;
    for (let left = 300; left > 0; left -= 1) {
        const bytes = bytesOf(drawAccepted(draw));
        const judged = opened(library, bytes);
        assert.ok(!('refusal' in judged));
        const page = checked(bytes);
        assert.equal(page.status, judged.verdict === 0 ? 0 : 1);
        if (judged.verdict === 0) {
            assert.deepEqual(brokenLimits(words, judged), []);
            clear += 1;
            continue;
        }
        assert.equal(verdictPage(judged), page.said);
        judged.places.forEach((place) => said.add(sayPlace(judged, place)));
    }
    assert.ok(clear > 0);
    for (const sentence of PLACES_SAID) {
        assert.ok([...said].some((place) => sentence.test(place)), `${sentence} was not said`);
    }
});

test('there is no place of no limit', () => {
    const judged = opened(library, bytesOf(drawAccepted(new Draw(6))));
    assert.ok(!('refusal' in judged));
    assert.throws(() => sayPlace(judged, { limit: 3, way: 'x', i: 0, j: 0 }), RangeError);
});

test('refusals 1 to 7 and what they are about, as `slab check` says them', () => {
    const draw = new Draw(7);
    const seen = new Set();
    let culprits = 0;
    const files = draw.list(150, () => bytesOf(drawAny(draw)));
    const whole = bytesOf(drawAccepted(draw, 3));
    const otherKind = Uint8Array.from(whole).fill(9, RECORD_BYTES, RECORD_BYTES + 2);
    files.push(whole.subarray(1), whole.subarray(RECORD_BYTES), whole.subarray(0, -RECORD_BYTES), otherKind);
    for (const bytes of files) {
        const answer = opened(library, bytes);
        if ('refusal' in answer) {
            const { status, said } = checked(bytes);
            assert.equal(status, 2);
            const lines = said.split('\n').map((line) => line.trim());
            const why = sayWhy(library, words, bytes, answer.refusal);
            assert.equal(lines[0], sayRefusal(words, answer.refusal));
            // Of 1 to 3 `slab` shows the file's length and its first record, which are no judgement.
            assert.deepEqual(why, answer.refusal < 5 ? [lines[0]] : lines.length <= 13 ? lines : [...lines.slice(0, 13), `and ${lines.length - 13} more`]);
            seen.add(answer.refusal);
            culprits += why.length - 1;
        }
    }
    assert.deepEqual([...seen].sort(), [1, 2, 3, 4, 5, 6, 7]);
    assert.ok(culprits > 100, `${culprits} culprits`);
});

test('a number without a sentence stands alone', () => {
    const none = readWords({ limits: '', refusals: '', ranges: '' });
    const judged = opened(library, bytesOf(drawAccepted(new Draw(8), 1)));
    assert.ok(!('refusal' in judged));
    assert.equal(sayRefusal(none, 12), 'refused 12');
    assert.equal(brokenLimits(none, judged)[0].sentence, 'limit 1');
    assert.equal(sayRange(none, judged.floor, recordOf(5, 2, 990)), 'x span 2 of 990 mm');
});

test('the sentences are those of words/, each by its number', () => {
    assert.deepEqual([...words.limits.keys()], [1, 2, 4, 8, 16, 32, 64]);
    assert.deepEqual([...words.ranges.keys()], [2, 3, 4, 5, 6, 7, 8, 9]);
    for (const number of [1, 2, 3, 4, 5, 6, 7, 9]) {
        assert.ok(texts.refusals.includes(`${number} ${words.refusals.get(number)}\n`));
    }
    assert.deepEqual(readWords({ ...texts, ranges: '\r\n5 from 1 to 2, α\r\n\r\n16 b\r\n' }).ranges, new Map([[5, 'from 1 to 2, α'], [16, 'b']]));
});

/**
 * Values out of range, by kind.
 * @type {Record<number, number[][]>}
 */
const OUT_OF_RANGE = {
    2: [[19, 420], [61, 280], [30, 300], [0xffff_ffff, 0]],
    3: [[999, 0], [30001, 1], [1000, 50001]],
    4: [[190, 200, 0], [205, 300, 170], [1510, 200, 1], [200, 200, 3], [200, 200, 256], [200, 300, 0xffff_ffff]],
    5: [[980], [1010], [12020], [0]],
    6: [[999], [12001], [0xffff_ffff]],
    7: [[149, 600], [0, 600], [300, 0], [300, 1501]],
    8: [[1001, 600], [300, 90], [0, 1]],
    9: [[12001, 0], [0, 12001], [0xffff_ffff, 5]],
};

/**
 * The floor's records with some of them put out of range.
 * @param {Draw} draw @param {Uint8Array} bytes
 */
function putOutOfRange(draw, bytes) {
    /** @type {Uint8Array[]} */
    const spoiled = [];
    for (let at = RECORD_BYTES; at < bytes.length; at += RECORD_BYTES) {
        if (draw.once(4)) {
            const record = recordOf(bytes[at], bytes[at + 2], ...draw.among(OUT_OF_RANGE[bytes[at]]));
            bytes.set(record, at);
            spoiled.push(record);
        }
    }
    return spoiled;
}

test('records out of range, as `slab check` says them', () => {
    const draw = new Draw(9);
    const kinds = new Set();
    for (let left = 60; left > 0; left -= 1) {
        const floor = drawAccepted(draw, 4);
        const bytes = bytesOf(floor);
        const spoiled = putOutOfRange(draw, bytes);
        spoiled.forEach((record) => kinds.add(record[0]));
        const expected = spoiled.map((record) => `  ${sayRange(words, floor, record)}`);
        if (spoiled.length > 0) {
            assert.equal(checked(bytes).said, [sayRefusal(words, 5), ...expected].join('\n'));
        }
    }
    assert.equal(kinds.size, 8);
});

test('spans and beams that are too short for columns and slab, and the first record', () => {
    const draw = new Draw(10);
    const floor = { ...drawAccepted(draw, 3), cx: 1500, cy: 1500, spans: { x: [3000, 2980, 1000], y: [2000, 6000] } };
    floor.beams = { x: [[300, 600], [300, 600], [300, 600]], y: [[300, 600], [300, 200], [310, 199], [300, 600]] };
    floor.offsets = draw.list(12, () => [0, 0]);
    const short = [recordOf(5, 1, 2980), recordOf(5, 2, 1000), recordOf(6, 0, 2000)];
    const tooShort = short.map((record) => `  ${sayRecord(floor, record)}: columns 1500 1500`);
    assert.equal(checked(bytesOf(floor)).said, [sayRefusal(words, 6), ...tooShort].join('\n'));
    const shallow = [recordOf(8, 1, 300, 200), recordOf(8, 2, 310, 199)];
    const tooShallow = shallow.map((record) => `  ${sayRecord(floor, record)}: slab 200`);
    assert.equal(checked(bytesOf({ ...floor, t: 200, cx: 300, cy: 300 })).said, [sayRefusal(words, 7), ...tooShallow].join('\n'));
    assert.equal(sayRecord(floor, recordOf(1, 0, 5, 4, 200)), '5 by 4 bays, slab 200');
    assert.equal(sayRange(words, floor, recordOf(1, 0, 5, 4, 200)), '5 by 4 bays, slab 200');
});
