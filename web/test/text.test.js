// The text of a floor, beside what `slab text`, `slab make` and `slab check` make of the same bytes.

import assert from 'node:assert/strict';
import test from 'node:test';
import { bytesOf } from '../src/floor.js';
import { sayFaults } from '../src/text/faults.js';
import { isText } from '../src/text/input.js';
import { readText } from '../src/text/read.js';
import { writeText } from '../src/text/write.js';
import { LINES, ODD_WORDS, SPACES, damaged } from './damage.js';
import { Draw, drawAccepted, drawAny } from './draw.js';
import { slab } from './slab.js';

const MOST_TEXT = 8 << 20;

const PLAIN = [
    'slab 200', 'concrete 30', 'steel 420', 'dead 7200', 'live 5000', 'columns 600 500', 'sides columns', 'x spans 6600 7200', 'y spans 6000',
    'column 2 1 offset 250 0',
];

/** @param {string | Uint8Array} text */
function bytesFrom(text) {
    return typeof text === 'string' ? new TextEncoder().encode(text) : text;
}

/**
 * The words that a line begins with.
 * @param {string} line
 */
function keyOf(line) {
    return line.match(/^([xy] )?\w+/)?.[0] ?? 'none';
}

/**
 * The plain text and a line more, in the place of the one with a key.
 * @param {string} added @param {string} key
 */
function plainWith(added, key = 'none') {
    return `${[...PLAIN.filter((line) => keyOf(line) !== key), added].join('\n')}\n`;
}

/**
 * What `slab make` makes of the text, which must be what is read of it here: the floor's bytes, or the faults as they are said.
 * @param {string | Uint8Array} text
 * @returns {string[]} the faults that it says
 */
function readAsMade(text) {
    const bytes = bytesFrom(text);
    const made = slab(['make', '-'], bytes);
    const read = readText(bytes);
    const which = JSON.stringify(Buffer.from(bytes.subarray(0, 4000)).toString('latin1'));
    if ('floor' in read) {
        assert.equal(made.status, 0, `${which}\n${made.stderr}`);
        assert.deepEqual(Buffer.from(bytesOf(read.floor)), made.stdout, which);
        return [];
    }
    const said = sayFaults('standard input', read.faults);
    assert.equal(`slab: ${said.join('\n      ')}\n`, made.stderr, which);
    assert.equal(made.status, 3, which);
    return said;
}

test('a floor is written as `slab text` writes it, and read back', () => {
    const draw = new Draw(1);
    let refused = 0;
    for (let left = 150; left > 0; left -= 1) {
        const floor = left % 5 === 0 ? drawAccepted(draw) : drawAny(draw);
        const bytes = bytesOf(floor);
        const text = slab(['text', '-'], bytes).stdout;
        const made = slab(['make', '-'], text);
        assert.equal(writeText(floor), text.toString());
        assert.deepEqual(readText(text), { floor });
        assert.deepEqual(made.stdout, Buffer.from(bytes));
        refused += made.stderr.includes('refused') ? 1 : 0;
    }
    assert.ok(refused > 60 && refused < 120, `${refused} of 150 are refused`);
});

test('every sum of the sides', () => {
    const floor = drawAccepted(new Draw(2), 1);
    for (const sides of [0, 1, 2, 3, 4, 8, 12, 27, 85, 128, 170, 171, 191, 192, 255, 256, 257, 0x8000_0000, 0xffff_ffff]) {
        const { stdout } = slab(['text', '-'], bytesOf({ ...floor, sides }));
        assert.equal(writeText({ ...floor, sides }), stdout.toString());
        assert.deepEqual(readText(stdout), { floor: { ...floor, sides } });
    }
});

/** Each must have been said of some damaged text, or the damages show too little. */
const SENTENCES = [
    /bytes that are no text$/, /a line that begins with slab, concrete/, /digits alone, found `/, /at most 4294967295, found `/,
    /found the end of the line/, /nothing more on the line, found `/, /once, and line \d+ has it already/,
    /once, and line \d+ gives it already/, /before the text ends; for example/, /expected the \w+ side, found/,
    /expected the \w+ side once/, /columns, unrestrained or restrained, found/, /that the spans make, found \d+/,
    /which the spans make, found column/, /expected `beam`, found/, /expected `offset`, found/,
];

test('damaged texts have the faults that `slab make` names, or are read as it reads them', () => {
    const draw = new Draw(3);
    const texts = draw.list(500, () => damaged(draw, writeText(drawAccepted(draw, draw.among([1, 3, 3, 12])))));
    const faults = texts.map(readAsMade);
    const faulty = faults.filter((said) => said.length > 0).length;
    assert.ok(faulty > 300 && faulty < 450, `${faulty} of 500 have faults`);
    const said = [...faults.flat(), ...LINES.flatMap((line) => [...readAsMade(plainWith(line)), ...readAsMade(plainWith(line, keyOf(line)))])];
    for (const sentence of SENTENCES) {
        assert.ok(said.some((words) => sentence.test(words)), `${sentence} was not said`);
    }
});

test('what is missing', () => {
    for (const line of PLAIN.slice(0, 9)) {
        assert.equal(readAsMade(plainWith('', keyOf(line))).length, 1);
    }
    assert.equal(readAsMade('').length, 9);
});

test('each odd word as a number, as a key and after the end of a line', () => {
    for (const word of ODD_WORDS) {
        readAsMade(plainWith(`dead ${word}\n${word}\nlive 5000 ${word}\nsides ${word} ${word}\nx line ${word} beam 1 1`, 'dead'));
    }
});

test('each white space between, before and after words', () => {
    for (const space of [...SPACES, ...Array.from({ length: 33 }, (_, code) => String.fromCodePoint(code))]) {
        readAsMade(plainWith(`${space}dead${space}7200${space}`, 'dead'));
    }
});

test('a byte order mark, line ends, comments, and the order of lines', () => {
    const text = plainWith('all lines beam 400 700');
    const read = readText(bytesFrom(text));
    assert.ok('floor' in read);
    const noisy = text.replaceAll('\n', '  # B\xfcro, \0 \n\n\t\n# slab 90\r\n').replace('slab 200', '\t SLAB:   200,');
    const reversed = text.trimEnd().split('\n').reverse().join('\n');
    const dressed = [`\ufeff${text}`, text.replaceAll('\n', '\r\n'), `\n\n${text}\n\n`, noisy, Buffer.from(noisy, 'latin1')];
    for (const same of [text.trimEnd(), reversed, ...dressed]) {
        assert.deepEqual(readAsMade(same), []);
        assert.deepEqual(readText(bytesFrom(same)), read);
    }
    assert.equal(readAsMade(`\ufeff\ufeff${text}`).length, 2);
});

test('bytes that are no UTF-8', () => {
    const sequences = [
        [0xc2], [0xc3, 0x28], [0xe0, 0x80, 0x80], [0xe1, 0x80], [0xed, 0x9f, 0xbf], [0xed, 0xbf, 0xbf], [0xef, 0xbf, 0xbe],
        [0xf0, 0x8f, 0x80, 0x80], [0xf4, 0x8f, 0xbf, 0xbf], [0xf5, 0x80, 0x80, 0x80], [0x7f], [0x80], [0xa0], [0xff],
    ];
    for (const sequence of sequences) {
        readAsMade(Buffer.concat([Buffer.from('dead 1 '), Buffer.from(sequence), Buffer.from(` 1\n${PLAIN.join('\n')}`)]));
        assert.deepEqual(readAsMade(Buffer.concat([Buffer.from(`${PLAIN.join('\n')} # `), Buffer.from(sequence)])), []);
    }
});

test('groups of lines, and lines that have a beam already', () => {
    const groups = ['x line 0', 'y line 1', 'x line 2', 'x lines', 'y lines', 'outer lines', 'inner lines', 'all lines'];
    for (const [nx, ny] of [[2, 1], [0, 0], [0, 3], [1, 1], [4, 3]]) {
        const spans = `x spans${' 6000'.repeat(nx)}\ny spans${' 6000'.repeat(ny)}`;
        const text = `${PLAIN.slice(0, 7).join('\n')}\n${spans}\n`;
        groups.forEach((one, at) => readAsMade(`${text}${one} beam 300 600\n${groups[(3 * at + nx) % groups.length]} beam 400 700\n`));
    }
    // The third is told of the second.
    const thrice = plainWith(`${'x line 0 beam 300 600\n'.repeat(3)}${'column 0 0 offset 1 1\n'.repeat(3)}`);
    assert.match(readAsMade(thrice)[1], /once, and line 12 gives it already$/);
});

/** Bays along x and along y, and the line with the fault: the last, or the spans that are too many. */
const CROWDS = [
    [255, 255, 12], [255, 256, 1], [256, 255, 10], [32767, 1, 12], [32768, 1, 10], [65535, 0, 12], [65536, 0, 10], [0, 65536, 1], [400, 400, 1],
];

/** @param {number} nx @param {number} ny */
function crowdedText(nx, ny) {
    const spans = (/** @type {string} */ way, /** @type {number} */ count) => `${way} spans${' 6000'.repeat(count)}`;
    return [spans('y', ny), ...PLAIN.slice(0, 7), '', spans('x', nx), `column ${nx} ${ny} offset 1 1`, 'x line 99999 beam 1 1'].join('\n');
}

test('no more columns than a floor file has room for', () => {
    for (const [nx, ny, line] of CROWDS) {
        const faults = readAsMade(crowdedText(nx, ny));
        const expected = line === 12 ? 'one of the x lines' : 'at most 65536 columns';
        assert.equal(faults.length, 1);
        assert.ok(faults[0].startsWith(`standard input, line ${line}: expected ${expected}`), faults[0]);
    }
    assert.deepEqual(readAsMade(crowdedText(255, 255).replace('x line 99999', 'x line 255')), []);
});

test('faults beyond the twentieth are counted, and none is lost', () => {
    const many = 'walls\n'.repeat(30);
    const read = readText(bytesFrom(many));
    assert.ok('faults' in read && read.faults.length === 39);
    const said = readAsMade(many);
    assert.equal(said.length, 21);
    assert.equal(said[20], 'and 19 more');
    assert.equal(readAsMade('walls\n'.repeat(11)).length, 20);
});

test('a text of the most bytes, and one more', () => {
    const long = Buffer.alloc(MOST_TEXT + 1, '#');
    Buffer.from(plainWith('')).copy(long);
    assert.deepEqual(readAsMade(long.subarray(0, MOST_TEXT)), []);
    assert.deepEqual(readAsMade(long), [`standard input has ${MOST_TEXT + 1} bytes: expected a text of at most ${MOST_TEXT}`]);
});

test('what is taken for a text', () => {
    const odd = [...Array(0x30).keys(), 0x7e, 0x7f, 0x80, 0x85, 0xa0, 0xff];
    const inputs = [Buffer.alloc(0), Buffer.from('slab'), Buffer.from([1, 0, 0, 0]), ...odd.map((byte) => Buffer.from([0x20, byte]))];
    const spaces = () => Buffer.alloc(MOST_TEXT + 16, ' ');
    inputs.push(spaces(), spaces().fill(0, MOST_TEXT), spaces().fill(0, MOST_TEXT - 1));
    // `slab check` of a text ends with 3, for its faults, and of what is no text with 2, as a floor file that is refused.
    const taken = inputs.map((input) => slab(['check', '-'], input).status);
    assert.deepEqual(inputs.map((input) => (isText(input) ? 3 : 2)), taken);
    assert.equal(taken.filter((status) => status === 2).length, 29 + 3);
});
