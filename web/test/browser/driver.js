// Chromium, driven as a person drives it, through chromedriver and the protocol WebDriver (https://www.w3.org/TR/webdriver2/).

import { spawn } from 'node:child_process';
import { accessSync, constants, writeFileSync } from 'node:fs';
import { delimiter, join } from 'node:path';

/** The word under which WebDriver hands out elements. */
const ELEMENT = 'element-6066-11e4-a52e-4f735466cecf';

/** Lets go of the keys that are held while text is sent. */
const LET_GO = '\uE000';

/** How long a condition may take to come true on a busy machine. */
const PATIENCE_MS = 20000;

/** Keys that have no character, as WebDriver numbers them. */
export const KEYS = {
    Backspace: '\uE003', Tab: '\uE004', Enter: '\uE007', Shift: '\uE008', Control: '\uE009', Escape: '\uE00C',
    Left: '\uE012', Up: '\uE013', Right: '\uE014', Down: '\uE015',
};

/**
 * Where the program stands on the path, or null.
 * @param {string} name
 */
export function onPath(name) {
    const found = (process.env.PATH ?? '').split(delimiter).map((folder) => join(folder, name)).find((file) => {
        try {
            accessSync(file, constants.X_OK);
            return true;
        } catch {
            return false;
        }
    });
    return found ?? null;
}

/** A group of processes of its own, which ends as soon as this program lets go of its input, in whatever way it ends itself. */
const DRIVER = 'chromedriver --port=0 & cat > /dev/null; kill 0';

/**
 * chromedriver on a port that it picks itself.
 * @returns {Promise<{child: import('node:child_process').ChildProcess, base: string}>}
 */
function startDriver() {
    const child = spawn('sh', ['-c', DRIVER], { detached: true, stdio: ['pipe', 'pipe', 'ignore'] });
    return new Promise((resolve, reject) => {
        let said = '';
        const late = setTimeout(() => reject(new Error(`chromedriver does not start: ${said}`)), PATIENCE_MS);
        child.on('error', reject);
        child.stdout?.on('data', (chunk) => {
            said += chunk;
            const port = said.match(/started successfully on port (\d+)/);
            if (port) {
                clearTimeout(late);
                resolve({ child, base: `http://127.0.0.1:${port[1]}` });
            }
        });
    });
}

/** @param {string} downloads the folder that saved files go to */
function wanted(downloads) {
    const args = ['headless=new', 'no-sandbox', 'disable-dev-shm-usage', 'disable-gpu', 'disable-extensions', 'disable-background-networking'];
    const prefs = { 'download.default_directory': downloads, 'download.prompt_for_download': false };
    return {
        'browserName': 'chrome',
        'unhandledPromptBehavior': 'ignore',
        'goog:loggingPrefs': { browser: 'ALL' },
        'goog:chromeOptions': { binary: onPath('chromium'), args, prefs },
    };
}

export class Browser {
    /** @param {import('node:child_process').ChildProcess} child @param {string} base */
    constructor(child, base) {
        this.child = child;
        this.base = base;
    }

    /** @param {string} downloads */
    static async start(downloads) {
        const { child, base } = await startDriver();
        const browser = new Browser(child, base);
        const { sessionId } = await browser.ask('POST', '/session', { capabilities: { alwaysMatch: wanted(downloads) } });
        browser.base = `${base}/session/${sessionId}`;
        return browser;
    }

    /** @param {'GET' | 'POST' | 'DELETE'} method @param {string} path @param {object} [body] @returns {Promise<any>} */
    async ask(method, path, body) {
        const response = await fetch(this.base + path, { method, body: body === undefined ? undefined : JSON.stringify(body) });
        const { value } = /** @type {{value: any}} */ (await response.json());
        if (!response.ok) {
            throw new Error(`${method} ${path}: ${value.error}: ${value.message}`);
        }
        return value;
    }

    async end() {
        await this.ask('DELETE', '');
        const ended = new Promise((resolve) => this.child.once('exit', resolve));
        this.child.stdin?.end();
        await ended;
    }

    /** @param {string} url */
    async open(url) {
        await this.ask('POST', '/url', { url });
    }

    /**
     * The room that the page has, to the pixel, whatever the window's frame takes.
     * @param {number} width @param {number} height
     */
    async size(width, height) {
        await this.command('Emulation.setDeviceMetricsOverride', { width, height, deviceScaleFactor: 1, mobile: false });
    }

    /**
     * A command of Chromium's own protocol.
     * @param {string} cmd @param {object} params
     */
    command(cmd, params) {
        return this.ask('POST', '/goog/cdp/execute', { cmd, params });
    }

    /**
     * Calls the function in the page, which sees nothing of this program but the arguments; a promise is awaited.
     * @template T @param {(...args: any[]) => T | Promise<T>} made @param {unknown[]} args
     * @returns {Promise<T>}
     */
    run(made, ...args) {
        return this.ask('POST', '/execute/sync', { script: `return (${made}).apply(null, arguments);`, args });
    }

    /**
     * Until the function, called in the page at each frame, answers something that holds; that is the answer.
     * @template T @param {((...args: any[]) => T) | string} made or its text @param {unknown[]} args
     * @returns {Promise<T>}
     */
    async until(made, ...args) {
        const script = `
            const args = Array.from(arguments), patience = args.shift(), made = ${made}, start = performance.now();
            return new Promise((resolve) => {
                const look = () => {
                    const found = made.apply(null, args);
                    if (found || performance.now() - start > patience) {
                        resolve(found);
                    } else {
                        setTimeout(look, 10);
                    }
                };
                look();
            });`;
        const found = await this.ask('POST', '/execute/sync', { script, args: [PATIENCE_MS, ...args] });
        if (!found) {
            throw new Error(`never came true: ${made} of ${JSON.stringify(args)}`);
        }
        return found;
    }

    /** @param {string} selector of one element that is there @returns {Promise<string>} */
    async find(selector) {
        return (await this.ask('POST', '/element', { using: 'css selector', value: selector }))[ELEMENT];
    }

    /**
     * As it is shown.
     * @param {string} selector @returns {Promise<string>}
     */
    async text(selector) {
        return this.ask('GET', `/element/${await this.find(selector)}/text`);
    }

    /** @param {string} selector */
    async click(selector) {
        await this.ask('POST', `/element/${await this.find(selector)}/click`, {});
    }

    /**
     * Adds to what a field has, or names the file of a file field.
     * @param {string} selector @param {string} text
     */
    async send(selector, text) {
        await this.ask('POST', `/element/${await this.find(selector)}/value`, { text });
    }

    /**
     * In the place of what a field has.
     * @param {string} selector @param {string} text and the keys after it
     */
    async type(selector, text) {
        await this.send(selector, `${KEYS.Control}a${LET_GO}${text}`);
    }

    /**
     * Keys one after another to what has the focus; those of a list are held together.
     * @param {(string | string[])[]} strokes
     */
    async press(...strokes) {
        const key = (/** @type {string} */ name) => /** @type {Record<string, string>} */ (KEYS)[name] ?? name;
        const actions = strokes.flatMap((stroke) => {
            const held = [stroke].flat().map(key);
            const down = held.map((value) => ({ type: 'keyDown', value }));
            return [...down, ...held.reverse().map((value) => ({ type: 'keyUp', value }))];
        });
        await this.act({ type: 'key', id: 'keys', actions });
    }

    /** @param {object} source of input */
    async act(source) {
        await this.ask('POST', '/actions', { actions: [source] });
    }

    /**
     * Puts the pointer down at the first point, or goes on with one that is down, and moves it through the others.
     * @param {'mouse' | 'touch'} pointerType @param {{x: number, y: number}[]} points @param {{down?: boolean, up?: boolean}} how
     */
    async drag(pointerType, points, { down = true, up = true } = {}) {
        const moves = points.map(({ x, y }) => ({ type: 'pointerMove', duration: 0, x: Math.round(x), y: Math.round(y) }));
        /** @type {object[]} */
        const actions = down ? [moves[0], { type: 'pointerDown', button: 0 }, ...moves.slice(1)] : moves;
        if (up) {
            actions.push({ type: 'pointerUp', button: 0 });
        }
        await this.act({ type: 'pointer', id: pointerType, parameters: { pointerType }, actions });
    }

    /** @param {string} file PNG of what the window shows */
    async picture(file) {
        writeFileSync(file, Buffer.from(await this.ask('GET', '/screenshot'), 'base64'));
    }

    /**
     * The page as it is printed on A4, PDF.
     * @returns {Promise<Buffer>}
     */
    async print() {
        const page = { width: 21, height: 29.7 };
        return Buffer.from(await this.ask('POST', '/print', { page }), 'base64');
    }

    /**
     * What the page complained of since this was last asked.
     * @returns {Promise<string[]>}
     */
    async complaints() {
        /** @type {{level: string, message: string}[]} */
        const log = await this.ask('POST', '/se/log', { type: 'browser' });
        return log.filter(({ level }) => level === 'SEVERE').map(({ message }) => message);
    }
}
