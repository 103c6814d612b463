// From bytes to values. The module makes canonical bytes of the input, and a table of the items in them; no byte is read
// here but the content of strings.
import { canonicalRegion } from './calls.js';
import { inputOf } from './input.js';
import { numberOf, wordsAt } from './instance.js';
import { REFUSED } from './numbers.js';
import { settingsOfDecoding } from './options.js';
import { contentStep, keyStep, memberStep, valueStep } from './path.js';
import { emptyMap, finished } from './sorted_map.js';
import { textOf } from './texts.js';
import { DecodeError, Simple, Tag } from './values.js';

export function decode(library, data, options) {
    const given = settingsOfDecoding(options), bytes = inputOf(data, given), instance = library.instance();
    const input = instance.left.put(bytes);
    // What is judged and read is the module's own copy, and no other call comes in between. Most inputs are canonical.
    let region = { instance, block: instance.left, length: bytes.length }, count = indexOf(region, given);
    if (count < 0 && given.canonical) throw instance.error(REFUSED, given, input);
    if (count < 0) {
        region = canonicalRegion(library, bytes, given);
        count = indexOf(region, given);
    }
    return new Reader(region, count, given.asObjects).value();
}

// struct naltvigo_item in words of 32 bits: number, offset, content, end, kind, entries.
const ITEM = { size: 10, number: 0, content: 4, kind: 8 };
const FIRST = 100; // the entries of the first table; a larger table is reused in the next call

/** How many items there are in canonical bytes, which then are in the instance's table; -1 if they are refused. */
function indexOf({ instance, block, length }, { order, keys, depth, maxBytes }) {
    const { exports, first, refusal, table } = instance, size = BigInt(length);
    return instance.write(table, FIRST, (pointer, space) => exports.naltvigo_index_raw(
        block.pointer, size, order, keys, depth, maxBytes, pointer, space, first, refusal), 4 * ITEM.size);
}

const UNSIGNED = 0;
const NEGATIVE = 1;
const BYTES = 2;
const TEXT = 3;
const ARRAY = 4;
const MAP = 5;
const TAG = 6;
const SIMPLE = [false, true, null, undefined];

/** Reads the values of canonical bytes by the table of their items, in the order of their first bytes. */
class Reader {
    constructor({ instance, block }, count, asObjects) {
        this.bytes = instance.bytes();
        this.offset = block.offset;
        this.words = wordsAt(this.bytes.buffer, instance.table.offset, count * ITEM.size);
        this.asObjects = asObjects;
        // Of each array, map and tag around the one that is open: its kind, what it becomes, how many items are missing, and a
        // key without its value.
        this.around = [];
    }

    value() {
        const { words, around, asObjects } = this;
        let kind = TAG, made = new Tag(0, undefined), missing = 1, key;
        for (let at = 0; ; at += ITEM.size) {
            const low = words[at], high = words[at + 1], argument = high === 0 ? low : numberOf(low, high);
            let value, inner;
            switch (words[at + ITEM.kind]) {
            case UNSIGNED: value = argument; break;
            case NEGATIVE: value = argument < Number.MAX_SAFE_INTEGER ? -1 - argument : -1n - BigInt(argument); break;
            case BYTES: value = this.#bytesAt(at, argument); break;
            case TEXT: value = this.#textAt(at, argument); break;
            case ARRAY: value = new Array(argument); inner = argument; break;
            case MAP: value = asObjects ? {} : emptyMap(argument); inner = 2 * argument; break;
            case TAG: value = new Tag(argument, undefined); inner = 1; break;
            default: value = argument >= 20 && argument < 24 ? SIMPLE[argument - 20] : new Simple(argument);
            }
            if (inner > 0) {
                around.push(kind, made, missing, key);
                kind = words[at + ITEM.kind];
                made = value;
                missing = inner;
                continue;
            }
            for (;;) {
                if (kind === ARRAY) made[made.length - missing] = value;
                else if (kind === TAG) made.content = value;
                else if (missing % 2 === 0) key = asObjects ? this.#propertyName(value, made) : value;
                else if (asObjects) this.#setProperty(made, key, value);
                else made.set(key, value);
                if (--missing > 0) break;
                if (around.length === 0) return made.content;
                value = finished(made);
                key = around.pop();
                missing = around.pop();
                made = around.pop();
                kind = around.pop();
            }
        }
    }

    #contentAt(at) {
        return this.offset + numberOf(this.words[at + ITEM.content], this.words[at + ITEM.content + 1]);
    }

    #bytesAt(at, length) {
        const from = this.#contentAt(at);
        return this.bytes.slice(from, from + length);
    }

    #textAt(at, length) {
        const from = this.#contentAt(at);
        return textOf(this.bytes, from, from + length);
    }

    #propertyName(key, object) {
        if (typeof key === 'string') return key;
        const problem = 'the key is not a text, so the map cannot be an object; decode it as a Map';
        throw new DecodeError(this.#path() + keyStep(Object.keys(object).length + 1), problem);
    }

    /** As JSON.parse does: the property is an own property of the object, also if its name is `__proto__`. */
    #setProperty(object, name, value) {
        if (value === undefined) {
            const problem = 'the value is undefined, and encode leaves out such a property; decode the map as a Map';
            throw new DecodeError(this.#path() + valueStep(name), problem);
        }
        if (name in Object.prototype) Object.defineProperty(object, name, { value, writable: true, enumerable: true, configurable: true });
        else object[name] = value;
    }

    /** The path to the map that is open. */
    #path() {
        let path = '$';
        for (let i = 4; i < this.around.length; i += 4) {
            const [kind, made, missing, key] = this.around.slice(i, i + 4);
            if (kind === ARRAY) path += memberStep(made.length - missing);
            else if (kind === TAG) path += contentStep(made.number);
            else path += valueStep(key);
        }
        return path;
    }
}
