// Bytes as text, and text as bytes.

const HEX = Array.from({ length: 256 }, (_, byte) => byte.toString(16).padStart(2, '0'));

/** Two lower-case digits a byte, with `between` between the bytes. */
export function hexOf(bytes, between = '') {
    const parts = new Array(bytes.length);
    for (let i = 0; i < bytes.length; i++) parts[i] = HEX[bytes[i]];
    return parts.join(between);
}

/** Text that encodes no bytes; the message says which character is wrong. */
export class TextError extends Error {}

const isSpace = code => code === 32 || code >= 9 && code <= 13;
const BETWEEN = /#.*|[\s,:]|0x/gi;
const looksLikeHex = text => /^[0-9a-f]*$/i.test(text.replace(BETWEEN, ''));

/** How SQL writes bytes: PostgreSQL's \x0102, as a literal or alone, and x'0102' of the standard. */
const SQL = /^\s*(?:'?\\x([0-9a-f]*)'?(?:::bytea)?|x'([0-9a-f]*)')\s*(?:;\s*)?$/i;

function digitOf(code) {
    if (code >= 48 && code <= 57) return code - 48;
    const lower = code | 32;
    return lower >= 97 && lower <= 102 ? lower - 87 : -1;
}

/** The bytes of hex digits; white space, commas, colons, 0x, and comments from # to the end of a line are left out. */
function ofHex(text) {
    const bytes = new Uint8Array(text.length >> 1);
    let length = 0, half = -1;
    for (let i = 0; i < text.length; i++) {
        const code = text.charCodeAt(i), digit = digitOf(code), character = text[i];
        if (digit >= 0 && half < 0) {
            half = digit;
        } else if (digit >= 0) {
            bytes[length++] = half << 4 | digit;
            half = -1;
        } else if (character === '#') {
            while (i + 1 < text.length && text[i + 1] !== '\n') i += 1;
        } else if (half === 0 && text[i - 1] === '0' && (character === 'x' || character === 'X')) {
            half = -1;
        } else if (!isSpace(code) && character !== ',' && character !== ':') {
            throw new TextError(`Character ${i + 1} is not a hex digit: ${JSON.stringify(character)}.`);
        }
    }
    if (half >= 0) throw new TextError('The last byte has one hex digit; a byte has two.');
    return bytes.subarray(0, length);
}

const ALPHABET = 'ABCDEFGHIJKLMNOPQRSTUVWXYZabcdefghijklmnopqrstuvwxyz0123456789+/';
const BASE64 = new Map([...ALPHABET].map((character, value) => [character.charCodeAt(0), value]));
BASE64.set(45, 62).set(95, 63); // base64url: - and _
const PADDING = 61;

/** The bytes of base64 or base64url, with or without padding; white space is left out. `begin` begins the message on a character. */
function ofBase64(text, begin) {
    const bytes = new Uint8Array(Math.ceil(text.length * 3 / 4));
    let length = 0, bits = 0, count = 0, isPadded = false;
    for (let i = 0; i < text.length; i++) {
        const code = text.charCodeAt(i), value = BASE64.get(code);
        if (isSpace(code)) continue;
        if (code === PADDING) {
            isPadded = true;
            continue;
        }
        if (value === undefined || isPadded) {
            throw new TextError(`${begin} ${i + 1} is not of base64: ${JSON.stringify(text[i])}.`);
        }
        bits = (bits << 6 | value) & 0xffff;
        count += 6;
        if (count >= 8) {
            count -= 8;
            bytes[length++] = bits >> count;
        }
    }
    if (count >= 6) throw new TextError('The base64 ends within a byte.');
    if (bits & (1 << count) - 1) throw new TextError('The base64 ends with bits that belong to no byte.');
    return bytes.subarray(0, length);
}

const PASTE = 'Paste the bytes of the CBOR, as hex or base64, such as a1616101 for {"a": 1}.';
const DIAGNOSTIC = /^(?:[[{("]|-?\d+\s*\(|(?:h|b64|b32|h32|t|dt|ip|same)'|<<|(?:true|false|null|undefined|simple\(\d+\))$)/;

function isJson(text) {
    try {
        JSON.parse(text);
        return true;
    } catch {
        return false;
    }
}

/** What to do with a text that is JSON or diagnostic notation; undefined for any other. */
function adviceOnText(text) {
    const start = text.trim();
    if (!DIAGNOSTIC.test(start)) return undefined;
    return isJson(start) ? `This is JSON, which is text; CBOR is bytes. ${PASTE}` : `This looks like diagnostic notation. ${PASTE}`;
}

/** The bytes that a text encodes. `format` is 'hex', 'base64', or 'auto': hex if there are hex digits alone, or as SQL has them. */
export function bytesOfText(text, format) {
    const literal = format === 'base64' ? null : SQL.exec(text);
    if (literal) return ofHex(literal[1] ?? literal[2]);
    if (format === 'hex' || format === 'auto' && looksLikeHex(text)) return ofHex(text);
    const advice = format === 'auto' ? adviceOnText(text) : undefined;
    if (advice) throw new TextError(advice);
    return ofBase64(text, format === 'auto' ? 'This is not hex, and character' : 'Character');
}
