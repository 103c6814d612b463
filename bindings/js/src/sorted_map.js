// A map for many keys that a stranger may have chosen. No look-up depends on how the engine hashes keys.
import { sharedByCopies } from './copies.js';

// What `Map` itself holds of a SortedMap: a key that makes a structured clone fail. Without it a clone would be an empty map.
const NO_CLONE = Symbol('a SortedMap has no structured clone; pass [...map]');

const isSought = key => typeof key === 'number' || typeof key === 'bigint' || typeof key === 'string';

/** Numbers and bigints by value, then texts, by their UTF-16 code units. */
function isBefore(a, b) {
    const isText = typeof a === 'string', isOther = typeof b === 'string';
    return isText === isOther ? a < b : isOther;
}

const cannotChange = () => {
    throw new TypeError('naltvigo: a SortedMap cannot be changed; make a Map of it: new Map(sorted)');
};

/** A Map that cannot be changed, its entries in canonical order. Look-ups are by bisection. */
export class SortedMap extends Map {
    #keys;
    #values;
    #sorted;
    #others;

    /** The keys are those that `decode` makes: numbers, bigints and texts, no two of them equal, and any other values. */
    constructor(keys, values) {
        super();
        Map.prototype.set.call(this, NO_CLONE);
        this.#keys = keys;
        this.#values = values;
    }

    /** Made at the first look-up: the indices of numbers and texts in order, and the index of each other key. */
    #prepare() {
        const keys = this.#keys, sought = [];
        this.#others = new Map();
        for (let i = 0; i < keys.length; i++) {
            if (isSought(keys[i])) sought.push(i);
            else this.#others.set(keys[i], i);
        }
        this.#sorted = Uint32Array.from(sought.sort((i, j) => (isBefore(keys[i], keys[j]) ? -1 : 1)));
    }

    #indexOf(key) {
        if (!this.#sorted) this.#prepare();
        if (!isSought(key)) return this.#others.get(key) ?? -1;
        const keys = this.#keys, sorted = this.#sorted;
        let low = 0, high = sorted.length;
        while (low < high) {
            const middle = low + high >>> 1;
            if (isBefore(keys[sorted[middle]], key)) low = middle + 1;
            else high = middle;
        }
        // as in a Map, 1 is not 1n
        return low < sorted.length && keys[sorted[low]] === key ? sorted[low] : -1;
    }

    get size() {
        return this.#keys.length;
    }

    get(key) {
        return this.#values[this.#indexOf(key)];
    }

    has(key) {
        return this.#indexOf(key) >= 0;
    }

    *keys() {
        yield* this.#keys;
    }

    *values() {
        yield* this.#values;
    }

    *entries() {
        for (let i = 0; i < this.#keys.length; i++) yield [this.#keys[i], this.#values[i]];
    }

    [Symbol.iterator]() {
        return this.entries();
    }

    forEach(call, self) {
        for (let i = 0; i < this.#keys.length; i++) call.call(self, this.#values[i], this.#keys[i], this);
    }

    set() {
        cannotChange();
    }

    delete() {
        cannotChange();
    }

    clear() {
        cannotChange();
    }

    [Symbol.for('nodejs.util.inspect.custom')](depth, options, inspect) {
        const shown = new Map(this.#keys.slice(0, SHOWN).map((key, i) => [key, this.#values[i]]));
        const more = this.size > SHOWN ? ` and ${this.size - SHOWN} more` : '';
        return `SortedMap(${this.size}) of ${inspect(shown, { ...options, depth })}${more}`;
    }
}

const SHOWN = 100;
sharedByCopies(SortedMap, 'SortedMap');

/** More pairs than this, and a key that engines hash by its value alone, make a SortedMap. */
const PAIRS = 255;
const ZERO = 48;
const NINE = 57;

/** Whether V8 may hash the key without a secret: an integer, or a text that looks like one. */
function isHashedByValue(key) {
    if (typeof key !== 'string') return typeof key === 'number' || typeof key === 'bigint';
    const first = key.charCodeAt(0);
    return first >= ZERO && first <= NINE;
}

/** The pairs of a large map, up to the last. */
class Pairs {
    constructor() {
        this.keys = [];
        this.values = [];
    }

    set(key, value) {
        this.keys.push(key);
        this.values.push(value);
    }

    map() {
        const { keys, values } = this;
        if (keys.some(isHashedByValue)) return new SortedMap(keys, values);
        const map = new Map();
        for (let i = 0; i < keys.length; i++) map.set(keys[i], values[i]);
        return map;
    }
}

/** An object with `set`, for this many pairs; `finished` makes the map from it. */
export const emptyMap = count => (count > PAIRS ? new Pairs() : new Map());

export const finished = made => (made instanceof Pairs ? made.map() : made);
