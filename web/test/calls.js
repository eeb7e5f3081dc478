// node calls.js MODULE: the module's calls, made through the page's library and watched, for `cargo differ short page` and the Rust tests.

import { readFileSync } from 'node:fs';
import { answerCalls } from './answering.js';
import { Watched } from './watched.js';

answerCalls(await Watched.of(readFileSync(process.argv[2])));
