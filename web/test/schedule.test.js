// The bar schedule: a span of the garage in each direction worked out by hand, whole files against `slab schedule`, each frame's bars read from their
// places, and the depths that are said beside the areas.

import assert from 'node:assert/strict';
import { existsSync, mkdtempSync, readFileSync, rmSync } from 'node:fs';
import { tmpdir } from 'node:os';
import { join } from 'node:path';
import { after, test } from 'node:test';
import { across, bytesOf, floorOf, WAYS } from '../src/floor.js';
import { opened } from '../src/judge.js';
import { Library } from '../src/library.js';
import { barDepth, sayLayer, sayLayers } from '../src/say/depths.js';
import { frameBars, sayBars, STRIPS } from '../src/schedule.js';
import { sumOfSides } from '../src/sides.js';
import { linesOf, SECTIONS } from '../src/table.js';
import { Draw } from './draw.js';
import { slab } from './slab.js';

/** @typedef {import('../src/floor.js').Floor} Floor */
/** @typedef {import('../src/judge.js').Judged} Judged */

const DRAWN_FLOORS = 400;
const MEASURED_FLOORS = 150;

const root = new URL('../../', import.meta.url);
const module = new URL('target/page/gandhrumil.wasm', root);
assert.ok(existsSync(module), 'run ./page first');
const library = await Library.of(readFileSync(module));
const GARAGE = readFileSync(new URL('example/garage.floor', root));
const folder = mkdtempSync(join(tmpdir(), 'slab-schedule-'));
after(() => rmSync(folder, { recursive: true }));

/** @param {Uint8Array} bytes @returns {Judged} */
function judgedFloor(bytes) {
    const judged = opened(library, bytes);
    assert.ok('verdict' in judged);
    return judged;
}

/**
 * The garage with other numbers.
 * @param {(floor: Floor) => void} change
 */
function garageWith(change) {
    const floor = floorOf(GARAGE);
    assert.ok(floor !== null);
    change(floor);
    return bytesOf(floor);
}

/**
 * Eight numbers for each record.
 * @param {Uint8Array} bytes
 */
function entriesOf(bytes) {
    const numbers = Array.from(new Uint32Array(bytes.slice().buffer));
    return Array.from({ length: numbers.length / 8 }, (_, entry) => numbers.slice(8 * entry, 8 * entry + 8));
}

/**
 * The file that `slab schedule` writes, or null, and the command's status.
 * @param {Uint8Array} bytes
 */
function slabSchedule(bytes) {
    const file = join(folder, 'out.schedule');
    rmSync(file, { force: true });
    const { status } = slab(['schedule', '-', '--out', file], bytes);
    return { status, file: existsSync(file) ? readFileSync(file) : null };
}

/*
 * x line 0, x span 0 of the garage. docs/RULES.md, section 14, has W 3,250, wc 1,750 and the moments; the beam on that outer line is 400 wide, so
 * that the strips are 1750 − 200 = 1,550 and 3250 − 1750 = 1,500 wide. The least areas are 756·1550·200/420000 = 558 and
 * 756·1500·200/420000 = 540, which carry every moment but the last: for 3,793,740 N·cm, 9·As·420·(17·30·1500·174 − 4200·As) must reach
 * 1700·30·1500·3793740 = 290,221,110,000,000; As 587 gives 289,882,077,156,000 and As 588 gives 290,366,578,656,000. With bars of 79 mm²,
 * 79·1550/558 = 219.4, 79·1500/540 = 219.4 and 79·1500/588 = 201.5.
 */
const FIRST_SPAN = [
    [0, 0, 0, 1550, 515378, 558, 10, 210],
    [0, 0, 1, 1500, 457907, 540, 10, 210],
    [0, 1, 0, 1550, 1617350, 558, 10, 210],
    [0, 1, 1, 1500, 3089188, 540, 10, 210],
    [0, 2, 0, 1550, 1986219, 558, 10, 210],
    [0, 2, 1, 1500, 3793740, 588, 10, 200],
];

/*
 * y line 0, y span 0, record 25 after the 25 of the x lines; example/garage.sheet has its moments. W is (6600 + 600)/2 = 3,600 and wc
 * 6000/4 + 600/2 = 1,800; the beam on that outer line too is 400 wide, so that the strips are 1,600 and 1,800 wide. The least areas are
 * 756·1600·200/420000 = 576 and 756·1800·200/420000 = 648. These bars lie at 200 − 38 = 162, where the least areas carry every moment but the
 * last: for 4,439,636 N·cm, 9·As·420·(17·30·1800·162 − 4200·As) must reach 1700·30·1800·4439636 = 407,558,584,800,000; As 740 gives
 * 407,294,697,600,000 and As 741 gives 407,833,331,724,000. With bars of 79 mm², 79·1600/576 = 219.4, 79·1800/648 = 219.4 and
 * 79·1800/741 = 191.9. At 174 the last would be 688 mm², 10 @ 200.
 */
const FIRST_SPAN_ALONG_Y = [
    [25, 0, 0, 1600, 470565, 576, 10, 210],
    [25, 0, 1, 1800, 487092, 648, 10, 210],
    [25, 1, 0, 1600, 1394408, 576, 10, 210],
    [25, 1, 1, 1800, 3615132, 648, 10, 210],
    [25, 2, 0, 1600, 1712431, 576, 10, 210],
    [25, 2, 1, 1800, 4439636, 741, 10, 190],
];

test('the first span of the garage in each direction has the bars that are worked out by hand', () => {
    const { schedule } = judgedFloor(GARAGE);
    assert.equal(schedule.refusal, 0);
    const entries = entriesOf(schedule.bytes);
    assert.deepEqual(entries.slice(0, 6), FIRST_SPAN);
    assert.deepEqual(entries.slice(150, 156), FIRST_SPAN_ALONG_Y);
});

test('the garage has six records for each of the sheet\'s, with its moments, in order', () => {
    const sheet = readFileSync(new URL('example/garage.sheet', root), 'utf8').trim().split('\n').slice(1);
    const asked = sheet.flatMap((line, record) => {
        const numbers = line.split(' ').map(Number);
        return [0, 1, 2].flatMap((section) => [5, 3].map((part, strip) => [record, section, strip, numbers[5 * section + part]]));
    });
    const entries = entriesOf(judgedFloor(GARAGE).schedule.bytes);
    assert.deepEqual(entries.map(([record, section, strip, , moment]) => [record, section, strip, moment]), asked);
});

test('a floor that is not clear is refused 16, and one that cannot be barred 17, and neither has a byte of a schedule', () => {
    const thin = judgedFloor(garageWith((floor) => { floor.t = 150; }));
    assert.equal(thin.verdict, 64);
    assert.deepEqual(thin.schedule, { refusal: 16, bytes: new Uint8Array(0) });
    // 1750 − ⌈b/2⌉ is above 0 for every beam: the middle strip has no bar for seven times its load.
    const heavy = judgedFloor(garageWith((floor) => Object.assign(floor, { dead: 30000, live: 50000 })));
    assert.equal(heavy.verdict, 0);
    assert.deepEqual(heavy.schedule, { refusal: 17, bytes: new Uint8Array(0) });
    assert.deepEqual(WAYS.map((way) => frameBars(heavy, way, 0)), [null, null]);
});

/**
 * Alike bays with beams on every line or none, under any load: one in some that can be barred, that cannot, and that is not clear.
 * @param {Draw} draw @returns {Floor}
 */
function drawAlike(draw) {
    const [nx, ny] = [draw.between(3, 5), draw.between(3, 5)];
    const span = draw.between(2400, 8000, 20);
    const columns = draw.between(200, 1200, 10);
    const beam = /** @type {import('../src/floor.js').Pair} */ (draw.among([[0, 0], [draw.between(150, 1000), 1000]]));
    return {
        t: draw.between(180, draw.among([240, 500])),
        fc: draw.between(20, 60),
        fy: draw.among([280, 420, 520]),
        dead: draw.between(1000, draw.among([8000, 30000])),
        live: draw.between(0, draw.among([10000, 50000])),
        cx: columns,
        cy: columns,
        sides: sumOfSides(draw.list(4, () => draw.below(3))),
        spans: { x: Array(nx).fill(span), y: Array(ny).fill(span) },
        beams: { x: Array(ny + 1).fill(beam), y: Array(nx + 1).fill(beam) },
        offsets: Array((nx + 1) * (ny + 1)).fill([0, 0]),
    };
}

test(`${DRAWN_FLOORS} drawn floors have the file that slab schedule writes, or its refusal`, () => {
    const draw = new Draw(5);
    /** @type {Record<number, number>} */
    const met = { 0: 0, 16: 0, 17: 0 };
    for (let floor = 0; floor < DRAWN_FLOORS; floor += 1) {
        const bytes = bytesOf(drawAlike(draw));
        const { schedule } = judgedFloor(bytes);
        const { status, file } = slabSchedule(bytes);
        met[schedule.refusal] += 1;
        assert.equal(status, { 0: 0, 16: 1, 17: 2 }[schedule.refusal]);
        assert.deepEqual(file === null ? new Uint8Array(0) : Uint8Array.from(file), schedule.bytes);
    }
    assert.ok(Object.values(met).every((count) => count >= 15), JSON.stringify(met));
});

test('the frames, one after the other, have the bars of the records in their order', () => {
    const largest = garageWith((floor) => {
        floor.spans = { x: Array(12).fill(6600), y: Array.from({ length: 12 }, (_, bay) => 6000 + 200 * (bay % 3)) };
        floor.beams = { x: Array(13).fill([400, 700]), y: Array(13).fill([450, 700]) };
        floor.offsets = Array(169).fill([0, 0]);
    });
    for (const judged of [GARAGE, largest].map(judgedFloor)) {
        const frames = WAYS.flatMap((way) => Array.from({ length: linesOf(judged.floor, way) }, (_, line) => (
            frameBars(judged, way, line) ?? assert.fail('no bars'))));
        const read = frames.flat().flatMap((span) => SECTIONS.flatMap((section) => STRIPS.map((strip) => span[section][strip])));
        const entries = entriesOf(judged.schedule.bytes).map(([, , , width, , area, diameter, spacing]) => ({ width, area, diameter, spacing }));
        assert.deepEqual(read, entries);
        assert.ok(new Set(read.map(sayBars)).size > 1, 'bars that differ');
    }
});

test('what is said of the layers has the depths of the slab, the thinnest and the thickest too', () => {
    const said = 'At top and bottom, bars along x lie next to the face of the slab, at an effective depth of 174 mm, and bars along y inside them, at 162 mm.';
    assert.equal(sayLayers({ t: 200 }), said);
    assert.equal(sayLayers({ t: 90 }), said.replace('174', '64').replace('162', '52'));
    assert.equal(sayLayers({ t: 500 }), said.replace('174', '474').replace('162', '462'));
    assert.equal(sayLayer('x', 174), 'Bars at an effective depth of 174 mm, next to the face of the slab.');
    assert.equal(sayLayer('y', 162), 'Bars at an effective depth of 162 mm, inside the bars along x.');
});

test('every area is the steel answer at the depth that is said of its direction', () => {
    const draw = new Draw(6);
    // Areas that would be others at the depth of the other direction.
    const telling = { x: 0, y: 0 };
    for (let left = MEASURED_FLOORS; left > 0; left -= 1) {
        const { floor, schedule } = judgedFloor(bytesOf(drawAlike(draw)));
        const { t, fc, fy, spans } = floor;
        for (const [record, , , b, m, area] of entriesOf(schedule.bytes)) {
            const way = record < (spans.y.length + 1) * spans.x.length ? 'x' : 'y';
            const [here, there] = [way, across(way)].map((along) => library.steel({ m, b, t, d: barDepth(floor, along), fc, fy }));
            assert.deepEqual(here, { refusal: 0, value: area });
            telling[way] += Number(there.value !== area);
        }
    }
    assert.ok(telling.x > 200 && telling.y > 200, JSON.stringify(telling));
});

test('a steel query at d = 0 is one at the depth of the bars along y', () => {
    const query = { m: 2195000, b: 1000, t: 150, fc: 30, fy: 420 };
    // 9·As·420·(17·30·1000·112 − 4200·As) reaches 1700·30·1000·2195000 = 111,945,000,000,000 with As 540, and not with 539.
    assert.deepEqual([0, barDepth({ t: 150 }, 'y')].map((d) => library.steel({ ...query, d }).value), [540, 540]);
    assert.equal(library.steel({ ...query, d: barDepth({ t: 150 }, 'x') }).value, 484);
});
