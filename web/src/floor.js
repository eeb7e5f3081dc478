// A floor's numbers, and the floor file's records of them (01, "The floor file"). Nothing is judged here: a value may be out of range.

/** @typedef {'x' | 'y'} Way */
/** @typedef {[number, number]} Pair */
/**
 * Spans along each direction; beams, width and depth, on the lines that run along it, zeros for none; of column j(nx+1)+i, on y line i and x line j,
 * the offset along x and along y.
 * @typedef {{t: number, fc: number, fy: number, dead: number, live: number, cx: number, cy: number, sides: number,
 *     spans: Record<Way, number[]>, beams: Record<Way, Pair[]>, offsets: Pair[]}} Floor
 */

export const RECORD_BYTES = 16;

/** The largest number that a field of a record has room for. */
export const MOST_NUMBER = 0xffff_ffff;

/** @type {Way[]} */
export const WAYS = ['x', 'y'];

/** @param {Way} way @returns {Way} */
export function across(way) {
    return way === 'x' ? 'y' : 'x';
}

/** The kinds of record that hold spans and beams of a direction. */
export const SPAN_KIND = { x: 5, y: 6 };
export const BEAM_KIND = { x: 7, y: 8 };
export const LOADS_KIND = 3;
export const OFFSET_KIND = 9;

/**
 * "index j(nx+1)+i for column on y line i, x line j"
 * @param {Pick<Floor, 'spans'>} floor @param {number} i @param {number} j
 */
export function columnIndex({ spans }, i, j) {
    return j * (spans.x.length + 1) + i;
}

/**
 * The y line and the x line of a column.
 * @param {Pick<Floor, 'spans'>} floor @param {number} index
 */
export function columnPlace({ spans }, index) {
    const row = spans.x.length + 1;
    return { i: index % row, j: Math.floor(index / row) };
}

/** Of each kind, how many of a, b and c 01 lists. */
const LISTED = [0, 3, 2, 2, 3, 1, 1, 2, 2, 2];

/** @param {number} kind @param {number} index @param {number[]} fields a, b and c; those left out are 0 */
export function recordOf(kind, index, ...fields) {
    const bytes = new Uint8Array(RECORD_BYTES);
    const view = new DataView(bytes.buffer);
    view.setUint16(0, kind, true);
    view.setUint16(2, index, true);
    fields.forEach((field, which) => view.setUint32(4 + 4 * which, field, true));
    return bytes;
}

/**
 * The record that begins at this byte.
 * @param {Uint8Array} bytes @param {number} at
 */
export function readRecord(bytes, at = 0) {
    const view = new DataView(bytes.buffer, bytes.byteOffset + at, RECORD_BYTES);
    const fields = [4, 8, 12].map((byte) => view.getUint32(byte, true));
    return { kind: view.getUint16(0, true), index: view.getUint16(2, true), fields };
}

/**
 * The floor with these records in the places of those of their kind and index; one that it lacks is left out.
 * @param {Uint8Array} bytes @param {Uint8Array[]} records
 */
export function withRecords(bytes, records) {
    const changed = bytes.slice();
    for (const record of records) {
        for (let at = 0; at < changed.length; at += RECORD_BYTES) {
            if (record.subarray(0, 4).every((byte, which) => byte === changed[at + which])) {
                changed.set(record, at);
            }
        }
    }
    return changed;
}

/**
 * The file.
 * @param {Floor} floor
 */
export function bytesOf(floor) {
    const { t, fc, fy, dead, live, cx, cy, sides, spans, beams, offsets } = floor;
    const single = (/** @type {number} */ span) => [span];
    const kinds = [
        [[spans.x.length, spans.y.length, t]],
        [[fc, fy]],
        [[dead, live]],
        [[cx, cy, sides]],
        spans.x.map(single),
        spans.y.map(single),
        beams.x,
        beams.y,
        offsets,
    ];
    const records = kinds.flatMap((rows, which) => rows.map((fields, index) => recordOf(which + 1, index, ...fields)));
    const bytes = new Uint8Array(RECORD_BYTES * records.length);
    records.forEach((record, place) => bytes.set(record, RECORD_BYTES * place));
    return bytes;
}

/**
 * What the file says, if it is laid out as one: the records that its sizes ask for, in their order.
 * @param {Uint8Array} bytes @returns {Floor | null}
 */
export function floorOf(bytes) {
    let at = 0;
    /** @param {number} kind @param {number} count */
    const take = (kind, count) => {
        if (at + RECORD_BYTES * count > bytes.length) {
            throw new RangeError('the file ends before its records do');
        }
        return Array.from({ length: count }, (_, index) => {
            const record = readRecord(bytes, at);
            at += RECORD_BYTES;
            if (record.kind !== kind || record.index !== index || record.fields.slice(LISTED[kind]).some((field) => field !== 0)) {
                throw new RangeError('a record is not as listed');
            }
            return record.fields;
        });
    };
    try {
        const floor = laidOut(take);
        return at === bytes.length ? floor : null;
    } catch (trouble) {
        if (trouble instanceof RangeError) {
            return null;
        }
        throw trouble;
    }
}

/** @param {(kind: number, count: number) => number[][]} take @returns {Floor} */
function laidOut(take) {
    const first = (/** @type {number[][]} */ rows) => rows.map((fields) => fields[0]);
    const pairs = (/** @type {number[][]} */ rows) => rows.map(([a, b]) => /** @type {Pair} */ ([a, b]));
    const [[nx, ny, t]] = take(1, 1);
    const [[fc, fy]] = take(2, 1);
    const [[dead, live]] = take(LOADS_KIND, 1);
    const [[cx, cy, sides]] = take(4, 1);
    const spans = { x: first(take(SPAN_KIND.x, nx)), y: first(take(SPAN_KIND.y, ny)) };
    const beams = { x: pairs(take(BEAM_KIND.x, ny + 1)), y: pairs(take(BEAM_KIND.y, nx + 1)) };
    const offsets = pairs(take(OFFSET_KIND, (nx + 1) * (ny + 1)));
    return { t, fc, fy, dead, live, cx, cy, sides, spans, beams, offsets };
}
