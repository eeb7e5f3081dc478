// node wrong.js MODULE FAULT: calls.js with a fault, which the Rust tests hold it to notice.

import { readFileSync } from 'node:fs';
import { answerCalls } from './answering.js';
import { Frames } from './frames.js';
import { STACK_BYTES, Watched } from './watched.js';

const [, , module, fault] = process.argv;
const library = await Watched.of(readFileSync(module));
const right = library.exports;
const frames = new Frames();
const answerRightly = frames.answer.bind(frames);

/** @param {number} at */
function flip(at) {
    new Uint8Array(right.memory.buffer)[at] ^= 1;
}

/**
 * What the module does after a right call, told the words of the call.
 * @param {string} name @param {(...words: any[]) => void} wrong
 */
function afterwards(name, wrong) {
    const call = `gandhrumil_${name}`;
    library.exports = {
        ...library.exports,
        [call]: (/** @type {any[]} */ ...words) => {
            const answer = right[call](...words);
            wrong(...words);
            return answer;
        },
    };
}

/** @type {Record<string, () => void>} */
const FAULTS = {
    'before the floor': () => afterwards('clear', (floor) => flip(floor - 1)),
    'after the floor': () => afterwards('clear', (floor, length) => flip(floor + Number(length))),
    'at the end of the memory': () => afterwards('panel', () => flip(right.memory.buffer.byteLength - 1)),
    'in its constants': () => afterwards('steel', () => flip(right.__heap_base.value - 1)),
    'deep in the stack': () => afterwards('steel', () => flip(right.__stack_pointer.value - STACK_BYTES - 1)),
    'in the floor': () => afterwards('open', (floor) => flip(floor)),
    'in the change': () => afterwards('change', (...words) => flip(words[6])),
    'in the table': () => afterwards('open', (floor, bytes, table, numbers) => flip(table + 4 * Number(numbers) - 4)),
    'in the changed floor': () => afterwards('change', (floor, bytes) => flip(floor + Number(bytes) - 1)),
    'in the places': () => afterwards('places', (floor, bytes, places, numbers) => numbers > 0n && flip(places)),
    'in the schedule': () => afterwards('schedule', (floor, bytes, schedule, length) => length > 0n && flip(schedule + Number(length) - 1)),
    'after the schedule': () => afterwards('schedule', (floor, bytes, schedule, length) => flip(schedule + Number(length))),
    'in the scheduled floor': () => afterwards('schedule', (floor) => flip(floor)),
    'a bit of the answer': () => {
        frames.answer = ({ refusal, value }) => answerRightly({ refusal, value: value ^ 1 });
    },
    'a byte too few': () => {
        frames.answer = (answer) => {
            frames.filled -= 1;
            answerRightly(answer);
        };
    },
    'of another frame': () => {
        frames.answer = (answer) => {
            frames.number -= 1;
            answerRightly(answer);
        };
    },
    'no answer': () => {
        frames.answer = () => process.exit();
    },
};

FAULTS[fault]();
answerCalls(library, frames);
