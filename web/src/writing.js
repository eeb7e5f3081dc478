// The floor edited as the text that `slab text` writes of it: for what no single change makes.

import { holdDialog } from './dialogs.js';
import { byId } from './dom.js';
import { givenText } from './files.js';
import { writeText } from './text/write.js';

/** @typedef {import('./floor.js').Floor} Floor */

/** @param {() => Floor} floor @param {(bytes: Uint8Array) => string[]} open what is wrong with the floor, or nothing where it is open now */
export function editAsText(floor, open) {
    const text = /** @type {HTMLTextAreaElement} */ (byId('writing-text'));
    holdDialog({
        button: 'edit',
        dialog: 'writing',
        begin: () => {
            text.value = writeText(floor());
        },
        make: () => {
            const given = givenText('the text', new TextEncoder().encode(text.value));
            return 'faults' in given ? given.faults : open(given.bytes);
        },
    });
}
