// The sheet as it is previewed and printed. It is in the document only while it is looked at or printed, and always of the floor as it then is.

import { byId } from '../dom.js';
import { leaveField } from '../panel/fields.js';
import { sheetOf } from './sheet.js';

/** @typedef {import('../desk.js').Desk} Desk */
/** @typedef {import('../say/words.js').Words} Words */

/** Today where the page is open, as 2026-11-16. */
function today() {
    const now = new Date();
    const two = (/** @type {number} */ number) => String(number).padStart(2, '0');
    return `${now.getFullYear()}-${two(now.getMonth() + 1)}-${two(now.getDate())}`;
}

export class SheetView {
    /** @param {Desk} desk @param {Words} words */
    constructor(desk, words) {
        this.desk = desk;
        this.words = words;
        this.previewed = false;
        this.printed = false;
        byId('show-sheet').addEventListener('click', () => this.preview(!this.previewed));
        byId('print').addEventListener('click', () => window.print());
        window.addEventListener('beforeprint', () => this.print(true));
        window.addEventListener('afterprint', () => this.print(false));
    }

    /** @param {boolean} previewed */
    preview(previewed) {
        this.previewed = previewed;
        document.body.classList.toggle('shows-sheet', previewed);
        byId('show-sheet').setAttribute('aria-pressed', String(previewed));
        this.show();
    }

    /** @param {boolean} printed */
    print(printed) {
        if (printed) {
            leaveField();
        }
        this.printed = printed;
        this.show();
    }

    show() {
        const { held, name } = this.desk;
        const sheets = this.previewed || this.printed ? [sheetOf(held, name, today(), this.words)] : [];
        byId('sheet').replaceChildren(...sheets);
    }
}
