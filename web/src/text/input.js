// Whether bytes are a text or a floor file, and how long a text may be.

/** No longer text is read, as by `slab make`: it is more than any floor file has that can be laid out. */
export const MOST_TEXT_BYTES = 8 << 20;

const WHITE_BYTES_OF_TEXT = [0x09, 0x0a, 0x0d];

/**
 * Whether these are the bytes of a text: every floor of right form begins with the bytes 1 0 0 0, and no text has such bytes.
 * @param {Uint8Array} bytes
 * @returns {boolean}
 */
export function isText(bytes) {
    const head = bytes.subarray(0, MOST_TEXT_BYTES);
    return head.length > 0 && head.every((byte) => byte >= 0x20 || WHITE_BYTES_OF_TEXT.includes(byte));
}
