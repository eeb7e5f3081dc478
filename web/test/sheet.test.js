// The numbers of a frame as screen and sheet read them, against the sheet of the example garage; and how a frame's diagram is laid out.

import assert from 'node:assert/strict';
import { existsSync, readFileSync } from 'node:fs';
import { test } from 'node:test';
import { bytesOf, WAYS } from '../src/floor.js';
import { opened } from '../src/judge.js';
import { Library } from '../src/library.js';
import { frameOf } from '../src/moments/frame.js';
import { fittingLabels, valueLabels } from '../src/moments/labels.js';
import { layoutOf, pointsOf, ticksOf } from '../src/moments/layout.js';
import { courseOf, frameName, sectionName, supportName } from '../src/moments/names.js';
import { curvePaths } from '../src/moments/paths.js';
import { linesOf, PARTS, SECTIONS, spanRecord, supportAt } from '../src/table.js';
import { floorFacts } from '../src/sheet/sheet.js';
import { kNm } from '../src/units.js';

/** @typedef {import('../src/judge.js').Judged} Judged */
/** @typedef {import('../src/moments/frame.js').Frame} Frame */
/** @typedef {import('../src/moments/layout.js').Layout} Layout */
/** @typedef {import('../src/table.js').Section} Section */
/** @typedef {import('../src/table.js').SpanRecord} SpanRecord */

const root = new URL('../../', import.meta.url);
const module = new URL('target/page/gandhrumil.wasm', root);
assert.ok(existsSync(module), 'run ./page first');
const library = await Library.of(readFileSync(module));
const garage = judgedFloor(readFileSync(new URL('example/garage.floor', root)));
const [standing, ...records] = readFileSync(new URL('example/garage.sheet', root), 'utf8').trim().split('\n');

/** Twelve bays each way with beams everywhere, which is as many as a floor has. */
const largest = judgedFloor(bytesOf({
    t: 250, fc: 30, fy: 420, dead: 8200, live: 5000, cx: 600, cy: 500, sides: 0,
    spans: { x: Array.from({ length: 12 }, (_, bay) => 7000 + 200 * (bay % 4)), y: Array(12).fill(6600) },
    beams: { x: Array(13).fill([400, 700]), y: Array(13).fill([400, 700]) },
    offsets: Array(169).fill([0, 0]),
}));

/** @param {Uint8Array} bytes @returns {Judged} */
function judgedFloor(bytes) {
    const judged = opened(library, bytes);
    assert.ok('verdict' in judged && judged.verdict === 0);
    return judged;
}

/**
 * Every frame of the floor, x frames first.
 * @param {Judged} judged
 */
function framesOf(judged) {
    return WAYS.flatMap((way) => Array.from({ length: linesOf(judged.floor, way) }, (_, line) => frameOf(judged, way, line)));
}

/** @param {SpanRecord} record */
function numbersOf(record) {
    return [record.mo, ...SECTIONS.flatMap((section) => PARTS.map((part) => record[section][part]))];
}

test('every record of the garage has the numbers of its sheet', () => {
    assert.equal(standing, '0 0');
    const read = WAYS.flatMap((way) => Array.from({ length: linesOf(garage.floor, way) }, (_, line) => (
        garage.floor.spans[way].map((_, span) => numbersOf(spanRecord(garage, way, line, span)).join(' ')))).flat());
    assert.deepEqual(read, records);
});

test('at every support of the garage the face with the larger total counts', () => {
    const spans = framesOf(garage).flatMap((frame) => frame.spans);
    assert.deepEqual(spans.map((record) => numbersOf(record).join(' ')), records);
    for (const { way, line, lengths, spans: faces } of framesOf(garage)) {
        for (let support = 0; support <= lengths.length; support++) {
            const [first, second] = [faces[support - 1]?.high, faces[support]?.low].filter((face) => face !== undefined);
            const larger = second !== undefined && second.total > first.total ? second : first;
            assert.deepEqual(supportAt(garage, way, line, support), larger);
        }
    }
});

test('frames, ends and supports have the names that the sheet gives them', () => {
    const names = framesOf(garage).map(({ way, line }) => frameName(garage.floor, way, line));
    assert.deepEqual(names, ['x line 0, south edge', 'x line 1', 'x line 2', 'x line 3', 'x line 4, north edge',
        'y line 0, west edge', 'y line 1', 'y line 2', 'y line 3', 'y line 4', 'y line 5, east edge']);
    assert.deepEqual(WAYS.map((way) => SECTIONS.map((section) => sectionName(way, section))),
        [['west end', 'between', 'east end'], ['south end', 'between', 'north end']]);
    assert.deepEqual(WAYS.map(courseOf), ['from west to east', 'from south to north']);
    assert.deepEqual([supportName('x', 3), supportName('y', 0)], ['y line 3', 'x line 0']);
});

test('the head of the sheet has the garage\'s facts with their units', () => {
    assert.equal(floorFacts(garage.floor),
        'slab 200 mm, concrete fc 30 MPa, steel fy 420 MPa, dead load 7200 N/m² (slab included), live load 5000 N/m²');
});

test('no two values of a diagram touch, and those of every support and span of twelve are there in 800 pixels', () => {
    for (const frame of framesOf(largest)) {
        const labels = valueLabels(frame, layoutOf(frame, 800));
        assert.deepEqual(fittingLabels(labels), labels);
        const governing = frame.supports.map(({ total }) => kNm(total));
        const between = frame.spans.map((record) => kNm(record.between.total));
        assert.deepEqual(labels.map(({ words }) => words), [...governing, ...between]);
    }
    for (const frame of framesOf(garage)) {
        for (let width = 320; width <= 1600; width += 10) {
            const labels = valueLabels(frame, layoutOf(frame, width));
            assert.deepEqual(fittingLabels(labels), labels);
        }
    }
});

test('where there is room both faces of a support are written, the lower span\'s at the left', () => {
    const frame = frameOf(garage, 'x', 0);
    for (let width = 780; width <= 1600; width++) {
        const layout = layoutOf(frame, width);
        const atSupport = valueLabels(frame, layout).filter(({ x, y }) => Math.abs(x - layout.supports[1]) < 50 && y < layout.axis);
        assert.deepEqual(atSupport.map(({ words }) => words), ['170.36', '191.41']);
        assert.ok(atSupport[0].x < layout.supports[1] && atSupport[1].x > layout.supports[1]);
    }
});

test('negatives lie above the axis, positives below, all of them inside the drawing', () => {
    for (const frame of [...framesOf(garage), ...framesOf(largest)]) {
        const layout = layoutOf(frame, 800);
        for (const { low, between, high } of PARTS.flatMap((part) => pointsOf(frame, layout, part))) {
            assert.ok(low.y <= layout.axis && high.y <= layout.axis && between.y >= layout.axis);
            assert.ok(Math.min(low.y, high.y) >= layout.top - 0.001 && between.y <= layout.bottom + 0.001);
            assert.ok(layout.left < low.x && low.x < between.x && between.x < high.x && high.x < layout.right);
        }
    }
});

/**
 * The points of each span's curve: its start, then a control point and an end of each half.
 * @param {Frame} frame @param {Layout} layout @param {keyof Section} part
 */
function curvesOf(frame, layout, part) {
    const [[, d]] = curvePaths(frame, layout, [part]);
    return d.split('M').slice(1).map((curve) => {
        const numbers = curve.split(/[ Q]/).map(Number);
        return [0, 2, 4, 6, 8].map((at) => ({ x: numbers[at], y: numbers[at + 1] }));
    });
}

test('a curve goes through all three sections of its span', () => {
    const frame = frameOf(garage, 'y', 2);
    const layout = layoutOf(frame, 800);
    for (const part of PARTS) {
        const curves = curvesOf(frame, layout, part);
        pointsOf(frame, layout, part).forEach(({ low, between, high }, span) => {
            const [start, , middle, , end] = curves[span];
            [[start, low], [middle, between], [end, high]].forEach(([drawn, asked]) => (
                assert.ok(Math.abs(drawn.x - asked.x) <= 0.1 && Math.abs(drawn.y - asked.y) <= 0.1)));
        });
    }
});

test('no curve goes beyond the moments that stand', () => {
    for (const frame of [...framesOf(garage), ...framesOf(largest)]) {
        const layout = layoutOf(frame, 800);
        for (const [start, before, middle, after, end] of curvesOf(frame, layout, 'total')) {
            // A curve of this kind stays among its points.
            const heights = [start, before, middle, after, end].map(({ y }) => y);
            assert.ok(Math.max(...heights) <= middle.y && Math.min(...heights) >= Math.min(start.y, end.y));
        }
        assert.ok(Math.abs(Math.max(...pointsOf(frame, layout, 'total').map(({ between }) => between.y)) - layout.bottom) < 0.2);
    }
});

test('the scale counts in even steps from the axis, and its numbers are the moments\' heights', () => {
    for (const frame of [...framesOf(garage), ...framesOf(largest)]) {
        const layout = layoutOf(frame, 800);
        const ticks = ticksOf(layout);
        assert.ok(ticks.length >= 4 && ticks.some(({ words }) => words === '0'));
        for (const { y, words } of ticks) {
            assert.ok(y >= layout.top - 0.001 && y <= layout.bottom + 0.001);
            assert.ok(Math.abs(Math.abs(y - layout.axis) - Number(words) * 100000 * layout.unit) < 0.001);
        }
    }
});
