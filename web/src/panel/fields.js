// Fields for the floor's numbers. What is typed is sent by Enter or by leaving the field; the field then shows what the floor has.

import { element } from '../dom.js';
import { MOST_NUMBER } from '../floor.js';

/** @typedef {import('../floor.js').Floor} Floor */
/**
 * What fields do with the floor.
 * @typedef {{floor: () => Floor, take: (records: Uint8Array[]) => void, reopen: (bytes: Uint8Array) => void, complain: (words: string) => void}} Hand
 */
/** @typedef {{node: HTMLElement, refresh: (floor: Floor) => void}} Field */

/**
 * A whole number in digits, or null.
 * @param {string} typed
 */
export function wholeNumber(typed) {
    const digits = typed.trim();
    return /^\d+$/.test(digits) && Number(digits) <= MOST_NUMBER ? Number(digits) : null;
}

/**
 * What to say of what is no such number.
 * @param {string} typed
 */
export function notWhole(typed) {
    return `expected a whole number, digits alone and at most ${MOST_NUMBER}, found “${typed}”`;
}

/**
 * @param {Hand} hand
 * @param {{label: string, unit: string, attributes: import('../dom.js').Attributes, read: (floor: Floor) => number,
 *     send: (value: number) => void}} what
 * @returns {Field}
 */
export function numberField(hand, { label, unit, attributes, read, send }) {
    const input = element('input', { ...attributes, type: 'text', inputmode: 'numeric', autocomplete: 'off', size: 6 });
    const refresh = (/** @type {Floor} */ floor) => {
        input.value = String(read(floor));
    };
    input.addEventListener('change', () => {
        const typed = wholeNumber(input.value);
        if (typed === null) {
            hand.complain(`${label}: ${notWhole(input.value)}`);
        } else if (typed !== read(hand.floor())) {
            send(typed);
        }
        refresh(hand.floor());
    });
    input.addEventListener('focus', () => input.select());
    const words = element('span', { class: 'label' }, label);
    return { node: element('label', { class: 'field' }, words, input, element('span', { class: 'unit' }, unit)), refresh };
}

/**
 * `read` and `send` go by the number of the choice in the list.
 * @param {Hand} hand
 * @param {{label: string, id: string, choices: (string | number)[], read: (floor: Floor) => number, send: (choice: number) => void}} what
 * @returns {Field}
 */
export function choiceField(hand, { label, id, choices, read, send }) {
    const select = element('select', { id }, ...choices.map((choice) => element('option', {}, String(choice))));
    const refresh = (/** @type {Floor} */ floor) => {
        select.selectedIndex = read(floor);
    };
    select.addEventListener('change', () => {
        send(select.selectedIndex);
        refresh(hand.floor());
    });
    return { node: element('label', { class: 'field' }, element('span', { class: 'label' }, label), select), refresh };
}

/** What is typed in a field and not sent yet is sent, as if the field were left. */
export function leaveField() {
    if (document.activeElement instanceof HTMLInputElement) {
        document.activeElement.blur();
    }
}

/**
 * A heading over fields.
 * @param {string} words @returns {Field}
 */
export function headingField(words) {
    return { node: element('h2', {}, words), refresh: () => {} };
}
