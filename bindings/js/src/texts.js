// Texts of UTF-8 in bytes that the module has judged.

const TEXT = new TextDecoder('utf-8', { fatal: true, ignoreBOM: true });
const { fromCharCode } = String;

/** Texts of at most this many bytes are decoded here if they are ASCII, since a call of the decoder costs more. */
const SHORT = 40;

// For each length up to that, an array for the codes of a text.
const CODES = Array.from({ length: SHORT + 1 }, (_, length) => new Array(length).fill(0));

// Short texts of ASCII that were made before, by their length and three of their bytes: in most inputs the same keys come
// again and again.
const KNOWN = 1024;
const known = new Array(KNOWN).fill('');

function isSame(text, bytes, from) {
    for (let i = 0; i < text.length; i++) if (text.charCodeAt(i) !== bytes[from + i]) return false;
    return true;
}

/** The text of the bytes from an offset to another. */
export function textOf(bytes, from, end) {
    const length = end - from;
    if (length > SHORT) return TEXT.decode(bytes.subarray(from, end));
    if (length === 0) return '';
    const index = length + 31 * bytes[from] + 61 * bytes[from + (length >> 1)] + 127 * bytes[end - 1] & KNOWN - 1;
    const text = known[index];
    return text.length === length && isSame(text, bytes, from) ? text : made(bytes, from, length, index);
}

function made(bytes, from, length, index) {
    const codes = CODES[length];
    let bits = 0;
    for (let i = 0; i < length; i++) bits |= codes[i] = bytes[from + i];
    if (bits > 127) return TEXT.decode(bytes.subarray(from, from + length));
    return known[index] = fromCharCode.apply(undefined, codes);
}
