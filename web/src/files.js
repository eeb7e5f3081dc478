// Floor files and texts from the designer's disk and back to it.

import { element } from './dom.js';
import { bytesOf, RECORD_BYTES } from './floor.js';
import { sayFaults } from './text/faults.js';
import { isText, MOST_TEXT_BYTES } from './text/input.js';
import { readText } from './text/read.js';

/** @typedef {{bytes: Uint8Array} | {faults: string[]}} Given */

/**
 * The floor's name: the file's without its ending, as `slab sheet` has it.
 * @param {string} file
 */
export function nameOfFile(file) {
    return file.replace(/(?<=.)\.[^.]*$/s, '');
}

/**
 * The bytes of the floor that a text says, or its faults.
 * @param {string} name @param {Uint8Array} text @returns {Given}
 */
export function givenText(name, text) {
    const read = readText(text);
    return 'floor' in read ? { bytes: bytesOf(read.floor) } : { faults: sayFaults(name, read.faults) };
}

/**
 * The bytes of the floor that a file holds, itself a floor file or a text. Of a file longer than any floor only a piece is read, which is refused as
 * the whole would be: by its first record, and its length modulo 16 (`crates/print/proofs`: `long_alike`).
 * @param {File} file @returns {Promise<Given>}
 */
export async function givenFile(file) {
    const long = file.size > MOST_TEXT_BYTES;
    const kept = long ? file.slice(0, MOST_TEXT_BYTES - RECORD_BYTES + (file.size % RECORD_BYTES)) : file;
    const bytes = new Uint8Array(await kept.arrayBuffer());
    if (!isText(bytes)) {
        return { bytes };
    }
    return long ? { faults: [`${file.name} has ${file.size} bytes: expected a text of at most ${MOST_TEXT_BYTES}`] } : givenText(file.name, bytes);
}

/**
 * Hands the bytes to the browser to be saved under this name.
 * @param {string} name @param {Uint8Array | string} contents @param {string} type
 */
export function saveAs(name, contents, type) {
    const url = URL.createObjectURL(new Blob([contents], { type }));
    element('a', { href: url, download: name }).click();
    // The browser may still be reading it.
    setTimeout(() => URL.revokeObjectURL(url), 60000);
}
