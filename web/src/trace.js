// The events of the input, in columns of numbers: millions of them must fit.
import { NAMES } from './names.js';
import { Nesting } from './nesting.js';

const KINDS = ['unsigned', 'negative', 'bytes', 'text', 'array', 'map', 'tag', 'simple', 'chunk', 'piece', 'break'];
const NUMBER_OF = Object.fromEntries(KINDS.map((kind, number) => [kind, number]));
const SHIFT = 16;
const ROWS = 1 << SHIFT;
const NUMBER_OF_NAME = new Map(NAMES.map((name, number) => [name, number]));

const NONE = 15; // the width if there is no argument
const IS_WIDE = 16;
const IS_KEY = 32;
const IS_TEXT = 64;

/** The columns of this many events. */
class Columns {
    constructor(count) {
        this.offset = new Uint32Array(count);
        this.depth = new Uint16Array(count);
        this.kind = new Uint8Array(count);
        this.flags = new Uint8Array(count);
        this.name = new Uint8Array(count);
        this.number = new Float64Array(count);
        /** The same cells, for the numbers that are not safe integers. */
        this.wide = new BigUint64Array(this.number.buffer);
    }
}

export class Trace {
    /** For at most `most` events. `known` is what is known of each item (names.js). */
    constructor(known, most) {
        this.count = 0;
        this.most = most;
        /** The offset after the last event. */
        this.end = 0;
        this.columns = [];
        this.known = known;
        this.nesting = new Nesting(known);
    }

    /** Adds an event; its offset counts from `start`. */
    add(event, start) {
        const { nesting } = this, { kind, number, width } = event, offset = start + event.offset;
        const end = offset + (kind === 'piece' ? Number(number) : 1 + (width ?? 0));
        const at = this.count & ROWS - 1;
        if (at === 0) this.columns.push(new Columns(Math.min(ROWS, this.most - this.count)));
        const columns = this.columns[this.columns.length - 1];
        columns.offset[at] = offset;
        columns.depth[at] = nesting.depthOf(kind);
        columns.kind[at] = NUMBER_OF[kind];
        columns.flags[at] = this.#flagsOf(kind, number, width);
        columns.name[at] = NUMBER_OF_NAME.get(nesting.nameOf(kind, number));
        if (typeof number === 'bigint') columns.wide[at] = number;
        else columns.number[at] = number ?? 0;
        nesting.take(event);
        this.count += 1;
        this.end = end;
    }

    #flagsOf(kind, number, width) {
        const isInner = kind === 'piece' || kind === 'chunk' || kind === 'break';
        return (width ?? NONE)
            | (typeof number === 'bigint' ? IS_WIDE : 0)
            | (!isInner && this.nesting.isAtKey() ? IS_KEY : 0)
            | (kind === 'piece' && this.nesting.isInText() ? IS_TEXT : 0);
    }

    /** An event as it was added, and where it is. */
    row(index) {
        const columns = this.columns[index >> SHIFT], at = index & ROWS - 1;
        const flags = columns.flags[at], offset = columns.offset[at], kind = KINDS[columns.kind[at]];
        const isWithout = (flags & NONE) === NONE, width = isWithout ? undefined : flags & NONE;
        const number = isWithout ? undefined : flags & IS_WIDE ? columns.wide[at] : columns.number[at];
        const end = offset + (kind === 'piece' ? Number(number) : 1 + (width ?? 0));
        const name = NAMES[columns.name[at]], isKey = !!(flags & IS_KEY), isText = !!(flags & IS_TEXT);
        return { kind, number, offset, end, depth: columns.depth[at], isKey, isText, name };
    }

    /** The last event that begins at this offset or before it; -1 if there is none. */
    indexAt(offset) {
        let low = 0, high = this.count;
        while (low < high) {
            const middle = low + high >> 1;
            if (this.columns[middle >> SHIFT].offset[middle & ROWS - 1] <= offset) low = middle + 1;
            else high = middle;
        }
        return low - 1;
    }

    /** What is known of the item whose first event has this index, in the one whose first event is `from`. */
    knownAt(index, from) {
        const nesting = new Nesting(this.known);
        for (let i = from; i < index; i++) nesting.take(this.row(i));
        return nesting.knownNext();
    }
}
