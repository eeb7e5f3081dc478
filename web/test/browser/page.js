// The page as it is built, opened from the disk in a browser of its own, and what the tests ask of it again and again.

import assert from 'node:assert/strict';
import { execFileSync } from 'node:child_process';
import { existsSync, mkdirSync, mkdtempSync, readFileSync, rmSync, statSync, writeFileSync } from 'node:fs';
import { tmpdir } from 'node:os';
import { join } from 'node:path';
import { setTimeout } from 'node:timers/promises';
import { fileURLToPath, pathToFileURL } from 'node:url';
import { after, before } from 'node:test';
import { Browser } from './driver.js';

export const ROOT = fileURLToPath(new URL('../../../', import.meta.url));

/** Where ./page puts what it builds. */
export const BUILT = join('target', 'page');

/**
 * A file that is made by the command beside it; without it there is nothing to test.
 * @param {string} path @param {string} command
 */
function made(path, command) {
    const file = join(ROOT, path);
    if (!existsSync(file)) {
        throw new Error(`no ${path}: run ${command} first`);
    }
    return file;
}

const BUILD = 'cargo build --offline --release --manifest-path host/Cargo.toml';

/** @param {string} path from the repository's root */
export function kept(path) {
    return new Uint8Array(readFileSync(join(ROOT, path)));
}

export const GARAGE = kept('example/garage.floor');

/**
 * What the independent implementation prints.
 * @param {string[]} words @param {Uint8Array} [input]
 */
export function cases(words, input) {
    return String(execFileSync(made('target/host/release/cases', `${BUILD} -p cases`), words, { input, maxBuffer: 2 ** 28 }));
}

/**
 * The sentences of words/NAME.txt by number.
 * @param {'limits' | 'refusals' | 'ranges'} name @returns {Map<number, string>}
 */
export function wordsOf(name) {
    const lines = readFileSync(join(ROOT, 'words', `${name}.txt`), 'utf8').trim().split('\n');
    return new Map(lines.map((line) => [parseInt(line, 10), line.replace(/^\d+ /, '')]));
}

/** @param {Uint8Array} bytes */
export function hex(bytes) {
    return Buffer.from(bytes).toString('hex');
}

/** In the page: what it shows of a file that was opened, its name or why it is not opened. */
function answered() {
    const message = document.querySelector('#message');
    return [document.querySelector('#name'), message].map((node) => node?.textContent).join(' ') + message?.getAttribute('data-refusal');
}

/** A page in a browser, for one file of tests. */
export class Page {
    /** @param {Browser} browser @param {string} folder @param {string} url */
    constructor(browser, folder, url) {
        this.browser = browser;
        this.folder = folder;
        this.url = url;
        this.downloads = join(folder, 'downloads');
    }

    static async start() {
        const url = pathToFileURL(made(join(BUILT, 'slab.html'), './page')).href;
        const folder = mkdtempSync(join(tmpdir(), 'slab-page-'));
        const browser = await Browser.start(join(folder, 'downloads'));
        const page = new Page(browser, folder, url);
        await browser.size(1280, 800);
        await page.fresh();
        return page;
    }

    /** The page as it opens, with nothing done yet. */
    async fresh() {
        await this.browser.open(this.url);
        await this.browser.until(() => 'slab' in window && document.querySelector('#plan g.line') !== null);
    }

    async end() {
        const complaints = await this.browser.complaints();
        await this.browser.end();
        rmSync(this.folder, { recursive: true });
        assert.deepEqual(complaints, [], 'the page complained');
    }

    /**
     * A file of this name and content, to be opened.
     * @param {string} name @param {Uint8Array | string} content
     */
    file(name, content) {
        const file = join(this.folder, name);
        writeFileSync(file, content);
        return file;
    }

    /**
     * Opens it as a person does, and waits until the page has answered.
     * @param {string} name @param {Uint8Array | string} content
     */
    async openFile(name, content) {
        const before = await this.browser.run(answered);
        await this.browser.send('#file', this.file(name, content));
        await this.browser.until(`(old) => (${answered})() !== old`, before);
    }

    /**
     * What the browser has saved, once it has: it keeps the name with an empty file, and puts what it wrote in its place as a whole.
     * @param {string} name
     */
    async saved(name) {
        const file = join(this.downloads, name);
        for (let looks = 0; looks < 1000 && !statSync(file, { throwIfNoEntry: false })?.size; looks += 1) {
            await setTimeout(20);
        }
        return readFileSync(file);
    }

    /**
     * Opens it at once, by the function that the buttons call.
     * @param {Uint8Array} bytes
     */
    async lay(bytes, name = 'laid') {
        await this.browser.run((list, name) => {
            /** @type {any} */ (window).slab.open(Uint8Array.from(list), name);
        }, Array.from(bytes), name);
        assert.equal(await this.bytes(), hex(bytes));
    }

    /**
     * The floor's, in hexadecimal digits.
     * @returns {Promise<string>}
     */
    async bytes() {
        return hex(Uint8Array.from(await this.browser.run(() => Array.from(/** @type {any} */ (window).slab.bytes()))));
    }

    /** @returns {Promise<number>} */
    verdict() {
        return this.browser.run(() => /** @type {any} */ (window).slab.verdict());
    }

    /**
     * How many elements there are.
     * @param {string} selector @returns {Promise<number>}
     */
    count(selector) {
        return this.browser.run((found) => document.querySelectorAll(found).length, selector);
    }

    /**
     * The text of each element, shown or not.
     * @param {string} selector @returns {Promise<string[]>}
     */
    texts(selector) {
        return this.browser.run((found) => Array.from(document.querySelectorAll(found), (node) => node.textContent ?? ''), selector);
    }

    /**
     * The refusal's number and words, if one is shown.
     * @returns {Promise<{refusal: string, words: string}>}
     */
    message() {
        return this.browser.run(() => {
            const node = /** @type {HTMLElement} */ (document.querySelector('#message'));
            return { refusal: (node.dataset.refusal ?? '').replace(/^0$/, ''), words: (node.textContent ?? '').trim() };
        });
    }
}

/**
 * The page of a file of tests: started before the first of them and ended after the last.
 * @returns {{page: Page, browser: Browser}}
 */
export function pageOfTests() {
    const seat = /** @type {{page: Page, browser: Browser}} */ ({});
    before(async () => {
        seat.page = await Page.start();
        seat.browser = seat.page.browser;
    });
    after(() => seat.page?.end());
    return seat;
}

/** A folder below target/ for what is only looked at. */
export function lookedAt() {
    const folder = join(ROOT, BUILT, 'seen');
    mkdirSync(folder, { recursive: true });
    return folder;
}
