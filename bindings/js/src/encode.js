// From values to bytes: the value is written as it is, its heads by the module, which then makes canonical bytes of that.
// No head is made here.
import { canonicalBytes } from './calls.js';
import { typedArrayName } from './input.js';
import { settings } from './options.js';
import { Output } from './output.js';
import { contentStep, keyStep, memberStep, valueStep } from './path.js';
import { SortedMap } from './sorted_map.js';
import { EncodeError, problemOfSimple, problemOfTag, Simple, Tag, withArticle } from './values.js';

export function encode(library, value, options) {
    const given = settings(options), output = Output.lent(library, given.maxBytes);
    try {
        write(value, output, given);
        return canonicalBytes(library, output.written(), given);
    } finally {
        output.giveBack();
    }
}

// ---- what is written

/** An array, map, object or tag that is open: its members, a map's keys and values in turn, and the next one's index. */
class Container {
    constructor(kind, members, count) {
        this.kind = kind;
        this.members = members;
        this.count = count;
        this.at = 0;
    }
}

const ARRAY = 'array';
const MAP = 'map';
const TAG = 'tag';

/** Writes a value, in a loop. Beyond the limits it stops: the module refuses what is written so far as it would the whole. */
function write(value, output, { depth, maxBytes }) {
    const open = [], most = Number(maxBytes);
    let around = new Container(undefined, undefined, 0);
    for (let item = value; ;) {
        const inner = put(item, output, open);
        if (output.length > most) return;
        if (inner !== undefined) {
            open.push(inner);
            if (open.length > depth) return;
            around = inner;
        }
        while (around.at === around.count) {
            open.pop();
            if (open.length === 0) return;
            around = open[open.length - 1];
        }
        item = around.members[around.at++];
        if (item === undefined && isHole(around)) throw problem(open, 'the array has a hole');
    }
}

const isHole = ({ kind, members, at }) => kind === ARRAY && !(at - 1 in members);

const WIDEST = 1n << 64n;

/** Writes the head of an item and a string's bytes; returns what then is open. */
function put(item, output, open) {
    switch (typeof item) {
    case 'number':
        if (!Number.isSafeInteger(item)) throw problem(open, ofNumber(item));
        output.head(item < 0 ? 1 : 0, item < 0 ? -1 - item : item);
        return undefined;
    case 'bigint':
        if (item >= WIDEST || item < -WIDEST) throw problem(open, 'a bigint is -(2 ** 64) to 2 ** 64 - 1');
        output.head(item < 0n ? 1 : 0, item < 0n ? -1n - item : item);
        return undefined;
    case 'string':
        if (!output.text(item)) throw problem(open, 'the string has a lone surrogate, so it has no UTF-8');
        return undefined;
    case 'boolean': output.head(7, item ? 21 : 20); return undefined;
    case 'undefined': output.head(7, 23); return undefined;
    case 'object': return item === null ? output.head(7, 22) : putObject(item, output, open);
    default: throw problem(open, `a ${typeof item} cannot be encoded`);
    }
}

function putObject(item, output, open) {
    if (Array.isArray(item)) return opened(ARRAY, 4, item, item.length, output);
    if (typedArrayName(item) === 'Uint8Array') return byteString(item, output, open);
    if (isPlain(item)) return objectOf(item, output, open);
    if (item instanceof Tag) return tagOf(item, output, open);
    if (item instanceof Simple) return simpleOf(item, output, open);
    if (isMap(item)) return mapOf(item, output);
    if (isPlainElsewhere(item)) return objectOf(item, output, open);
    if (item instanceof Map) throw problem(open, 'the object inherits from Map, but is none; a Proxy of a Map cannot be encoded');
    throw problem(open, `${nameOf(item)} cannot be encoded; ${INSTEAD}`);
}

function opened(kind, major, members, count, output, number = count) {
    output.head(major, number);
    return new Container(kind, members, count);
}

function byteString(bytes, output, open) {
    const { length } = output;
    try {
        return output.byteString(bytes);
    } catch (error) {
        if (!(error instanceof TypeError)) throw error;
        output.length = length;
        throw problem(open, 'the Uint8Array is detached: its memory is gone');
    }
}

function tagOf({ number, content }, output, open) {
    const why = problemOfTag(number);
    if (why) throw problem(open, why);
    return opened(TAG, 6, [content, number], 1, output, number);
}

function simpleOf({ number }, output, open) {
    const why = problemOfSimple(number);
    if (why) throw problem(open, why);
    return output.head(7, number);
}

// All keys and values are read first. So their number is that in the head, even if a getter changes the map later.
// A property that is undefined is left out, as JSON.stringify leaves it out; a Map has each of its pairs.
function mapOf(map, output) {
    const members = [], take = (value, key) => members.push(key, value);
    if (map instanceof SortedMap) map.forEach(take);
    else Map.prototype.forEach.call(map, take);
    return opened(MAP, 5, members, members.length, output, members.length / 2);
}

function objectOf(object, output, open) {
    if (Object.getOwnPropertySymbols(object).length > 0) throw problem(open, 'the object has a symbol for a key');
    const names = Object.keys(object), members = new Array(2 * names.length);
    let end = 0;
    for (const name of names) {
        const value = object[name];
        if (value === undefined) continue;
        insert(members, end, name, value);
        end += 2;
    }
    return opened(MAP, 5, members, end, output, end / 2);
}

const SORTED = 64;

/**
 * Inserts a pair after those of shorter names and, of equal length, of lesser ones. In most objects that is the canonical
 * order, and the module has nothing to move; if it is not, or the object is large, the module sorts the pairs.
 */
function insert(members, end, name, value) {
    let at = end;
    if (end < 2 * SORTED) {
        for (; at > 0 && comesBefore(name, members[at - 2]); at -= 2) {
            members[at] = members[at - 2];
            members[at + 1] = members[at - 1];
        }
    }
    members[at] = name;
    members[at + 1] = value;
}

const comesBefore = (a, b) => (a.length === b.length ? a < b : a.length < b.length);

const mapSize = Object.getOwnPropertyDescriptor(Map.prototype, 'size').get;

/** Whether this is a Map, of any realm: a frame, or a test's sandbox, has its own class Map. A Proxy of a Map is not a Map. */
function isMap(item) {
    try {
        mapSize.call(item);
        return true;
    } catch {
        return false;
    }
}

function isPlain(item) {
    const prototype = Object.getPrototypeOf(item);
    return prototype === Object.prototype || prototype === null;
}

function isPlainElsewhere(item) {
    const prototype = Object.getPrototypeOf(item);
    return Object.getPrototypeOf(prototype) === null && Object.hasOwn(prototype, 'hasOwnProperty');
}

// ---- the messages

const ofNumber = item => (Number.isInteger(item)
    ? `${item} is not a safe integer; write it as a bigint`
    : `${item} is a float; write it as an integer, a text, or a tag that contains integers`);

const INSTEAD = 'make it a Uint8Array, an array, a Map, a plain object, a Tag or a Simple';

const nameOf = item => withArticle(item.constructor?.name || 'object without a constructor');

const problem = (open, text) => new EncodeError(pathOf(open), text);

/** The path to the item that is next. */
function pathOf(open) {
    return open.reduce((path, { kind, members, at }) => {
        const pair = at + 1 >> 1;
        if (kind === ARRAY) return path + memberStep(at - 1);
        if (kind === TAG) return path + contentStep(members[1]);
        return path + (at % 2 ? keyStep(pair) : valueStep(members[at - 2], pair));
    }, '$');
}
