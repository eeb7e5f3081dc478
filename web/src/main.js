// Starts the page: the library and the words that stand in it, the example on the desk, and the buttons.

import { App } from './app.js';
import { Desk } from './desk.js';
import { byId } from './dom.js';
import { givenFile, nameOfFile, saveAs } from './files.js';
import { askForGrid } from './grid.js';
import { Library } from './library.js';
import { leaveField } from './panel/fields.js';
import { readWords } from './say/words.js';
import { writeText } from './text/write.js';
import { editAsText } from './writing.js';

/**
 * What the page was built with.
 * @param {string} id
 */
function builtIn(id) {
    return (byId(id).textContent ?? '').trim();
}

/** @param {string} base64 */
function decoded(base64) {
    return Uint8Array.from(atob(base64), (letter) => letter.charCodeAt(0));
}

const EXAMPLE_NAME = 'garage';
const NEW_NAME = 'new floor';

/** @param {App} app @param {File} file */
async function openFile(app, file) {
    const given = await givenFile(file);
    if ('faults' in given) {
        app.say(0, [...given.faults, 'What was open stays.']);
        return;
    }
    const refused = app.desk.open(given.bytes, nameOfFile(file.name));
    if (refused !== null) {
        const [reason, ...culprits] = app.why(given.bytes, refused.refusal);
        app.say(refused.refusal, [`${file.name}: ${reason}`, ...culprits, 'What was open stays.']);
    }
}

/**
 * A folder, or a file that is gone, cannot be read.
 * @param {App} app @param {FileList | null | undefined} files of which the first is opened
 */
async function openFirst(app, files) {
    const [file] = files ?? [];
    if (file === undefined || document.querySelector('dialog[open]') !== null) {
        return;
    }
    leaveField();
    try {
        await openFile(app, file);
    } catch (trouble) {
        if (!(trouble instanceof DOMException)) {
            throw trouble;
        }
        app.say(0, [`${file.name} cannot be read. What was open stays.`]);
    }
}

/** @param {App} app */
function holdFiles(app) {
    const chosen = /** @type {HTMLInputElement} */ (byId('file'));
    byId('open').addEventListener('click', () => chosen.click());
    chosen.addEventListener('change', async () => {
        await openFirst(app, chosen.files);
        // So that the same file can be opened once more.
        chosen.value = '';
    });
    document.addEventListener('dragover', (event) => event.preventDefault());
    document.addEventListener('drop', (event) => {
        event.preventDefault();
        openFirst(app, event.dataTransfer?.files);
    });
    byId('save').addEventListener('click', () => saveAs(`${app.desk.name}.floor`, app.desk.held.bytes, 'application/octet-stream'));
    byId('save-text').addEventListener('click', () => saveAs(`${app.desk.name}.txt`, writeText(app.desk.held.floor), 'text/plain'));
    byId('save-schedule').addEventListener('click', () => saveSchedule(app));
}

/**
 * Where there is no schedule, nothing is saved and the refusal is said.
 * @param {App} app
 */
function saveSchedule(app) {
    const { name, held: { bytes, schedule } } = app.desk;
    if (schedule.refusal === 0) {
        saveAs(`${name}.schedule`, schedule.bytes, 'application/octet-stream');
    } else {
        app.say(schedule.refusal, [...app.why(bytes, schedule.refusal), 'No schedule is saved.']);
    }
}

/** With Ctrl, or with the command key of a Mac, a key presses its button. In a dialog keys are the browser's own. */
function holdKeys() {
    /** @type {Record<string, string>} */
    const buttons = { z: 'undo', y: 'redo', 'shift z': 'redo', o: 'open', s: 'save' };
    document.addEventListener('keydown', (event) => {
        const stroke = (event.shiftKey ? 'shift ' : '') + event.key.toLowerCase();
        const free = document.querySelector('dialog[open]') === null;
        if (free && (event.ctrlKey || event.metaKey) && stroke in buttons) {
            event.preventDefault();
            leaveField();
            byId(buttons[stroke]).click();
        }
    });
}

/** @param {App} app */
function holdButtons(app) {
    byId('undo').addEventListener('click', () => app.desk.undo());
    byId('redo').addEventListener('click', () => app.desk.redo());
    byId('example').addEventListener('click', () => app.desk.open(decoded(builtIn('garage')), EXAMPLE_NAME));
    /** @param {string} [name] */
    const opens = (name) => (/** @type {Uint8Array} */ bytes) => {
        const refused = app.desk.open(bytes, name);
        return refused === null ? [] : app.why(bytes, refused.refusal);
    };
    askForGrid(opens(NEW_NAME));
    editAsText(() => app.desk.held.floor, opens());
}

/**
 * For tests and the curious: the same functions that the buttons and the drags call.
 * @param {App} app
 */
function handles(app) {
    const { desk } = app;
    return {
        bytes: () => desk.held.bytes.slice(),
        verdict: () => desk.held.verdict,
        table: () => desk.held.table.slice(),
        governing: () => desk.held.governing.slice(),
        schedule: () => desk.held.schedule.bytes.slice(),
        take: (/** @type {Uint8Array[]} */ records) => desk.take(records) ?? { verdict: desk.held.verdict },
        open: (/** @type {Uint8Array} */ bytes, /** @type {string} */ name) => desk.open(bytes, name) ?? { verdict: desk.held.verdict },
        undo: () => desk.undo(),
        redo: () => desk.redo(),
    };
}

const library = await Library.of(decoded(builtIn('library')));
const words = readWords({ limits: builtIn('words-limits'), refusals: builtIn('words-refusals'), ranges: builtIn('words-ranges') });
const app = new App(new Desk(library, decoded(builtIn('garage')), EXAMPLE_NAME), words);
holdFiles(app);
holdKeys();
holdButtons(app);
Object.assign(window, { slab: handles(app) });
app.show();
