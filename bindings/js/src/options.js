// The options of a call.
import { DEPTH_MAX } from './numbers.js';

const BYTES_MAX = 1n << 62n;
const ORDERS = new Map([['bytewise', 0], ['length', 1]]);
const KEYS = new Map([['any', 0], ['basic', 1]]);
const MAPS = new Map([['map', false], ['object', true]]);

const DEFAULTS = Object.freeze({ order: 0, keys: 0, depth: 64, maxBytes: 1n << 20n, canonical: false, asObjects: false });

const wrongType = (name, types, value) => new TypeError(`naltvigo: ${name} is ${types}, and not ${typeof value}`);
const outOfRange = (name, range, value) => new RangeError(`naltvigo: ${name} is ${range}, and not ${String(value)}`);

function choiceOf(choices, name, value) {
    const chosen = choices.get(value);
    if (chosen === undefined) throw outOfRange(name, [...choices.keys()].map(it => `'${it}'`).join(' or '), value);
    return chosen;
}

function depthOf(depth) {
    if (typeof depth !== 'number') throw wrongType('depth', 'a number', depth);
    const isInRange = Number.isInteger(depth) && depth >= 0 && depth <= DEPTH_MAX;
    if (!isInRange) throw outOfRange('depth', `0 to ${DEPTH_MAX}`, depth);
    return depth;
}

function maxBytesOf(limit) {
    if (typeof limit !== 'number' && typeof limit !== 'bigint') throw wrongType('maxBytes', 'a number or a bigint', limit);
    const isInteger = typeof limit === 'bigint' || Number.isInteger(limit);
    if (!(isInteger && limit >= 0 && limit <= BYTES_MAX)) throw outOfRange('maxBytes', '0 to 2 ** 62', limit);
    return BigInt(limit);
}

function requireObject(options) {
    if (options === null || typeof options !== 'object') throw new TypeError('naltvigo: the options are an object');
}

/** The options that every call accepts, as the module needs them. Any other option is a TypeError. */
export function settings(options) {
    if (options === undefined) return DEFAULTS;
    requireObject(options);
    const { order = 'bytewise', keys = 'any', depth = DEFAULTS.depth, maxBytes = DEFAULTS.maxBytes, ...others } = options;
    for (const name of Object.keys(others)) throw new TypeError(`naltvigo: there is no option ${name}`);
    return {
        order: choiceOf(ORDERS, 'order', order),
        keys: choiceOf(KEYS, 'keys', keys),
        depth: depthOf(depth),
        maxBytes: maxBytesOf(maxBytes),
    };
}

/** The same, and `canonical`. */
export function settingsOfReading(options) {
    if (options === undefined) return DEFAULTS;
    requireObject(options);
    const { canonical = false, ...others } = options;
    if (typeof canonical !== 'boolean') throw wrongType('canonical', 'a boolean', canonical);
    return { ...settings(others), canonical };
}

/** The same, and `maps`. */
export function settingsOfDecoding(options) {
    if (options === undefined) return DEFAULTS;
    requireObject(options);
    const { maps = 'map', ...others } = options;
    return { ...settingsOfReading(others), asObjects: choiceOf(MAPS, 'maps', maps) };
}
