// One line of a text, word by word.

import { MOST_NUMBER } from '../floor.js';

// 40 letters have at most 80 units.
const LETTERS_SHOWN = 40;

// Those of Unicode, which Rust splits by. \s has U+FEFF too, and lacks U+0085.
const WHITE_SPACE = /[\t-\r \x85\xa0\u1680\u2000-\u200a\u2028\u2029\u202f\u205f\u3000]+/;

// A vertical tab is white space to Unicode, but not to ASCII's readers.
const BYTES_OF_NO_TEXT = /[\0-\x08\x0b\x0e-\x1f]/;

const LINE_DECODER = new TextDecoder('utf-8', { fatal: true, ignoreBOM: true });

/**
 * The line as letters, or null where its bytes are no text.
 * @param {Uint8Array} bytes
 */
function lettersOf(bytes) {
    try {
        const letters = LINE_DECODER.decode(bytes);
        return BYTES_OF_NO_TEXT.test(letters) ? null : letters;
    } catch {
        return null;
    }
}

/**
 * Capitals are taken as small letters, and a comma or colon after a word as nothing.
 * @param {string} word
 */
function plainWord(word) {
    return word.replace(/[,:]$/, '').replace(/[A-Z]/g, (letter) => letter.toLowerCase());
}

/** @param {string | undefined} word @returns {word is string} */
function isNumberWord(word) {
    return word !== undefined && /^[0-9]+$/.test(word);
}

/** The first fault of a line is the one that counts, and what is read of a line with a fault is not used. */
export class LineReader {
    /** @param {Uint8Array} code the line without its comment */
    constructor(code) {
        const letters = lettersOf(code);
        /** @type {string[]} */
        this.words = (letters ?? '').split(WHITE_SPACE).filter((word) => word !== '').map(plainWord);
        this.at = 0;
        /** The fault's words, or nothing. */
        this.fault = letters === null ? 'expected words and numbers, found bytes that are no text' : '';
    }

    isOver() {
        return this.at === this.words.length;
    }

    /**
     * Passes over these words, one or two, if they come next.
     * @param {string} words
     */
    pass(words) {
        const one = this.words[this.at];
        const count = one === words ? 1 : `${one} ${this.words[this.at + 1]}` === words ? 2 : 0;
        this.at += count;
        return count > 0;
    }

    /**
     * Which of these words comes next, or -1. It is passed over.
     * @param {string[]} choices
     */
    oneOf(choices) {
        return choices.findIndex((choice) => this.pass(choice));
    }

    isAtNumber() {
        return isNumberWord(this.words[this.at]);
    }

    /** @param {string} what */
    number(what) {
        const word = this.words[this.at];
        if (!isNumberWord(word)) {
            this.expect(word === undefined ? what : `${what}, digits alone`);
            return 0;
        }
        const number = Number(word);
        if (number > MOST_NUMBER) {
            this.expect(`${what}, at most ${MOST_NUMBER}`);
        }
        this.at += 1;
        return number;
    }

    /**
     * All that are left.
     * @param {string} what
     */
    numbers(what) {
        const numbers = [];
        while (!this.isOver() && this.fault === '') {
            numbers.push(this.number(what));
        }
        return numbers;
    }

    end() {
        if (!this.isOver()) {
            this.expect('nothing more on the line');
        }
    }

    /**
     * "expected this, found the next word"
     * @param {string} expected
     */
    expect(expected) {
        const shown = [...(this.words[this.at] ?? '').slice(0, 2 * LETTERS_SHOWN)].slice(0, LETTERS_SHOWN).join('');
        this.fail(`expected ${expected}, found ${this.isOver() ? 'the end of the line' : `\`${shown}\``}`);
    }

    /** @param {string} words */
    fail(words) {
        this.fault ||= words;
    }
}
