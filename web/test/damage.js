// Texts damaged as people, editors and disks damage them.

/** @typedef {import('./draw.js').Draw} Draw */

export const ODD_WORDS = [
    ',', ':', ',,', '::', '-', '-1', '+5', '1e3', '7,200', '7.2', '7200kg', '0x10', '1_000', 'NaN', 'Infinity', '4294967295', '4294967295,',
    '4294967296', '18446744073709551616', '00000000000000000000042', '99999999999999999999999', '9'.repeat(400), '٧', '１２', 'SLAB', 'Slab:',
    'slab,,', 'ſlab', 'beam', 'offset', 'x', 'y', 'line', 'lines', 'column', 'columns', 'Columns,', 'unrestrained', 'restrained', 'west',
    'north', 'outer', 'inner', 'all', 'spans', 'free', '\u212a', '\u0130', '__proto__', 'constructor', 'toString', '$&', '`', '\\', '<b>',
    '\u{1f600}'.repeat(45), `a${'\u{1f600}'.repeat(45)}`, 'a'.repeat(40), 'a'.repeat(41), `${'é'.repeat(39)}\u{1f600}\u{1f600}`,
    'e\u0301'.repeat(30), '\ufeffslab', 'slab\u200b', '\x7f', '\x80', '\uffff', '\u{10ffff}',
];

/** White space to some, and to others not. */
export const SPACES = [
    '\t', '\v', '\f', '\r', '\x1c', '\x1f', ' ', '\x85', '\xa0', '\u1680', '\u180e', '\u2000', '\u2003', '\u200a', '\u200b', '\u2028',
    '\u2029', '\u202f', '\u205f', '\u2060', '\u3000', '\ufeff', '   ', '',
];

export const LINES = [
    'x line 0 beam 300 600', 'y line 1 beam 300 600', 'x line 99 beam 1 1', 'y line 4294967295 beam 1 1', 'x line 4294967296 beam 1 1',
    'x line beam 1 1', 'x line 0 300 600', 'x line 0 beam', 'y line 0 beam 300', 'x line 0 beam 300 600 1', 'x lines beam 300 600',
    'y lines beam 300 600', 'outer lines beam 300 600', 'inner lines beam 300 600', 'all lines beam 300 600', 'all lines 300 600',
    'outer line 0 beam 1 1', 'inner lines beam 1', 'x lines 0 beam 1 1', 'column 0 0 offset 10 20', 'column 1 0 offset 10 20',
    'column 99 0 offset 1 1', 'column 0 99 offset 1 1', 'column offset 1 1', 'column 0 offset 1 1', 'column 0 0 1 1', 'column 0 0 offset 1',
    'column 0 0 offset -1 1', 'column 0 0 offset 1 1 1', 'sides columns', 'sides', 'sides west', 'sides west free', 'sides top columns',
    'sides west columns', 'sides west columns west columns', 'sides columns columns', 'sides 85', 'sides 85 85', 'sides 4294967296',
    'sides north restrained, south columns, east unrestrained, west columns', 'slab', 'slab 200 mm', 'slab two hundred', 'columns 600',
    'x spans', 'y spans', 'x spans 6000 - 7000', 'y spans 6000 7000 4294967296', 'x 3', 'walls 3', 'slabs 3', 'x', 'lines', '#',
    '# slab 90', 'dead 1 # 2', '#dead', 'live#5',
];

const BYTES_OF_NO_UTF8 = [
    [0xfc], [0x80], [0xc0, 0x80], [0xe2, 0x82], [0xed, 0xa0, 0x80], [0xf4, 0x90, 0x80, 0x80], [0xf8, 0x88, 0x80, 0x80, 0x80], [0xff, 0xfe],
];

/** @param {string} text */
function bytesOfText(text) {
    return new TextEncoder().encode(text);
}

/**
 * The bytes with those from one place to another replaced.
 * @param {Uint8Array} bytes @param {number} from @param {number} to @param {ArrayLike<number>} by
 */
function spliced(bytes, from, to, by) {
    return Uint8Array.from([...bytes.subarray(0, from), ...Array.from(by), ...bytes.subarray(to)]);
}

/**
 * What is done to a list of lines or words.
 * @type {((draw: Draw, list: string[], odd: string[]) => void)[]}
 */
const EDITS = [
    (draw, list) => list.splice(draw.below(list.length), 1),
    (draw, list) => list.splice(draw.below(list.length), 0, draw.among(list)),
    (draw, list) => list.push(...list.splice(draw.below(list.length), 1)),
    (draw, list, odd) => list.splice(draw.below(list.length), 1, draw.among(odd)),
    (draw, list, odd) => list.splice(draw.below(list.length + 1), 0, draw.among(odd)),
];

/** @param {Draw} draw @param {string} text */
function editLines(draw, text) {
    const lines = text.split('\n');
    draw.among(EDITS)(draw, lines, LINES);
    return lines.join('\n');
}

/** @param {Draw} draw @param {string} text @param {(line: string) => string} edit */
function editLine(draw, text, edit) {
    const lines = text.split('\n');
    const said = lines.flatMap((line, at) => (/^[^#]/.test(line) ? [at] : []));
    if (said.length > 0) {
        const at = draw.among(said);
        lines[at] = edit(lines[at]);
    }
    return lines.join('\n');
}

/** @param {Draw} draw @param {string} text */
function editWords(draw, text) {
    return editLine(draw, text, (line) => {
        const words = line.split(' ');
        draw.among(EDITS)(draw, words, ODD_WORDS);
        return words.join(' ');
    });
}

/** @param {Draw} draw @param {string} text */
function otherSpace(draw, text) {
    return editLine(draw, text, (line) => line.replace(' ', draw.among(SPACES)));
}

/** @type {((draw: Draw, text: string) => string)[]} */
const DAMAGES_OF_LETTERS = [
    editLines,
    editLines,
    editWords,
    editWords,
    editWords,
    otherSpace,
    (draw, text) => editLine(draw, text, (line) => line.toUpperCase()),
    (draw, text) => editLine(draw, text, (line) => line.replaceAll(' ', draw.among([', ', ': ', ',, ', ' , ']))),
    (draw, text) => editLine(draw, text, (line) => draw.among(SPACES) + line + draw.among(SPACES)),
    (draw, text) => editLine(draw, text, (line) => line.replace(/\d+/, draw.among(ODD_WORDS).replaceAll('$', ''))),
    (draw, text) => text.replaceAll('\n', draw.among(['\r\n', '\r', '\n\n', ' \n'])),
    (draw, text) => `${draw.among(['\ufeff', '\ufeff\ufeff', '\n', ' \ufeff', '#'])}${text}`,
    (draw, text) => text + draw.among(['\n', '\n\n', ' ', '\r', '#', '\x1a', '\0', 'slab']),
    (draw, text) => text.trimEnd(),
    (draw, text) => text.replace(/#.*$/gm, ''),
];

/** @type {((draw: Draw, bytes: Uint8Array, at: number) => Uint8Array)[]} */
const DAMAGES_OF_BYTES = [
    (draw, bytes, at) => spliced(bytes, at, at + 1, [draw.below(256)]),
    (draw, bytes, at) => spliced(bytes, at, at, [draw.below(256)]),
    (draw, bytes, at) => spliced(bytes, at, at + 1, []),
    (draw, bytes, at) => spliced(bytes, at, at, draw.among(BYTES_OF_NO_UTF8)),
    (draw, bytes, at) => spliced(bytes, at, at, bytesOfText(draw.among(['#', '\n', ' ', ',', '0']))),
    (draw, bytes, at) => bytes.subarray(0, at),
    (draw, bytes, at) => bytes.subarray(at),
    (draw, bytes, at) => spliced(bytes, at, at + draw.below(40), []),
];

/**
 * The text with one to three damages.
 * @param {Draw} draw @param {string} text
 * @returns {Uint8Array}
 */
export function damaged(draw, text) {
    let letters = text;
    for (let left = draw.between(0, 2); left > 0; left -= 1) {
        letters = draw.among(DAMAGES_OF_LETTERS)(draw, letters);
    }
    const bytes = bytesOfText(letters);
    return letters !== text && draw.once(2) ? bytes : draw.among(DAMAGES_OF_BYTES)(draw, bytes, draw.below(bytes.length + 1));
}
