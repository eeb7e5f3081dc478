// A dialog that makes a floor: it stays open, and says what is wrong, until there is one.

import { byId, element } from './dom.js';

/**
 * @param {{button: string, dialog: string, begin: () => void, make: () => string[]}} asked `button` opens it; `make` says what is wrong, or nothing where
 *     the floor is open now
 */
export function holdDialog({ button, dialog, begin, make }) {
    const box = /** @type {HTMLDialogElement} */ (byId(dialog));
    const trouble = byId(`${dialog}-trouble`);
    byId(button).addEventListener('click', () => {
        trouble.replaceChildren();
        begin();
        box.showModal();
    });
    byId(`${dialog}-cancel`).addEventListener('click', () => box.close());
    byId(`${dialog}-form`).addEventListener('submit', (event) => {
        event.preventDefault();
        const lines = make();
        trouble.replaceChildren(...lines.map((line) => element('span', {}, line)));
        if (lines.length === 0) {
            box.close();
        }
    });
}
