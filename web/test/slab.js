// The command `slab`, which says what the page must say.

import { spawnSync } from 'node:child_process';
import { fileURLToPath } from 'node:url';

const SLAB = fileURLToPath(new URL('../../target/host/release/slab', import.meta.url));

/**
 * Its status and what it writes, run with these bytes on its standard input, which `-` names.
 * @param {string[]} words @param {Uint8Array} [input]
 */
export function slab(words, input) {
    const { error, status, stdout, stderr } = spawnSync(SLAB, words, { input, maxBuffer: 1 << 28 });
    if (error !== undefined || status === null) {
        throw new Error(`${SLAB} does not run, which ./slab help builds`, { cause: error });
    }
    return { status, stdout, stderr: stderr.toString() };
}
