// What the page says of an event, and of a refusal.
import { tagName } from './names.js';

const SIMPLE = new Map([[20, 'false'], [21, 'true'], [22, 'null'], [23, 'undefined']]);

const counted = (number, one, many) => `${number} ${Number(number) === 1 ? one : many}`;
const extent = (number, one, many) => (number === undefined ? 'indefinite length' : counted(number, one, many));
const negative = number => (-1n - BigInt(number)).toString();

function tag(number) {
    const name = tagName(number);
    return name ? `tag ${number}: ${name}` : `tag ${number}`;
}

const MEANINGS = {
    unsigned: number => `unsigned integer ${number}`,
    negative: number => `negative integer ${negative(number)}`,
    bytes: number => `byte string, ${extent(number, 'byte', 'bytes')}`,
    text: number => `text string, ${extent(number, 'byte', 'bytes')}`,
    chunk: number => `chunk, ${counted(number, 'byte', 'bytes')}`,
    array: number => `array, ${extent(number, 'member', 'members')}`,
    map: number => `map, ${extent(number, 'pair', 'pairs')}`,
    tag,
    simple: number => SIMPLE.get(number) ?? `simple value ${number}`,
    break: () => 'break',
};

/** What the head of an event means; a piece has its content for it. */
export const meaningOf = ({ kind, number }) => MEANINGS[kind](number);

// Where the page has what the library's advice speaks of.
const SEE_CANONICAL = 'The canonical bytes are below.';
const HINTS = {
    2: 'The limit is in the settings.',
    9: 'The limit is in the settings.',
    12: 'In the settings, the input can be any number of items.',
    13: 'The limit is in the settings.',
    14: SEE_CANONICAL,
    15: SEE_CANONICAL,
    16: `${SEE_CANONICAL} The order of keys is in the settings.`,
    20: 'The kinds of keys are in the settings.',
};

/** What to do about a refusal, by the library's advice and on the page. */
export const adviceOn = ({ reason, advice }) => (HINTS[reason] ? `${advice} ${HINTS[reason]}` : advice);

// ---- floats

const WIDTHS = new Map([[0xf9, ['half', 2]], [0xfa, ['single', 4]], [0xfb, ['double', 8]]]);

function half(bits) {
    const sign = bits >> 15 ? -1 : 1, exponent = bits >> 10 & 31, fraction = bits & 1023;
    if (exponent === 31) return fraction ? NaN : sign * Infinity;
    return sign * (exponent ? (1 + fraction / 1024) * 2 ** (exponent - 15) : fraction / 1024 * 2 ** -14);
}

/** The float at an offset: its description, and where it ends; undefined if there is no float, or only a part of one. */
export function floatAt(bytes, offset) {
    const [precision, width] = WIDTHS.get(bytes[offset]) ?? [], end = offset + 1 + width;
    if (!width || end > bytes.length) return undefined;
    const view = new DataView(bytes.buffer, bytes.byteOffset + offset + 1, width);
    const value = width === 2 ? half(view.getUint16(0)) : width === 4 ? view.getFloat32(0) : view.getFloat64(0);
    return { end, value: Object.is(value, -0) ? '-0' : String(value), precision };
}

/** Why floats are refused. */
export const WHY_NO_FLOATS = 'One number can be several floats, and an integer as well: 1 is also 1.0 in 2, 4 or 8 bytes. Protocols '
    + 'choose among them by different rules, so this library accepts none.';
