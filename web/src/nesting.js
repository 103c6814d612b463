// Which containers are open after each event: how deep a row is, and what is known of the next item.
import { keyName, knownContent, knownMember, knownValue, valueName } from './names.js';

/** An array, map, tag or string that is not complete. `left` counts members, a map's keys and values, or bytes. */
class Open {
    constructor(kind, number, left, known) {
        this.kind = kind;
        this.number = number;
        this.left = left;
        this.known = known;
        this.seen = 0;
        /** Of a map, the key that was last, if it is an integer. */
        this.key = undefined;
    }
}

const MEMBERS = { array: 1, map: 2 };

const negative = number => (typeof number === 'number' ? -1 - number : -1n - number);

/** The integer of an event, or undefined. */
const integerOf = (kind, number) => (kind === 'unsigned' ? number : kind === 'negative' ? negative(number) : undefined);

export class Nesting {
    /** `known` is what is known of each item from the start (names.js). */
    constructor(known) {
        this.open = [];
        this.known = known;
    }

    get top() {
        return this.open[this.open.length - 1];
    }

    /** The depth of the row of this event; a break has the depth of its container. */
    depthOf(kind) {
        return kind === 'break' ? this.open.length - 1 : this.open.length;
    }

    /** Whether the next item is a key of a map. */
    isAtKey() {
        const { top } = this;
        return top !== undefined && top.kind === 'map' && top.seen % 2 === 0;
    }

    /** Whether the bytes of a piece belong to a text. */
    isInText() {
        const string = this.open.findLast(({ kind }) => kind === 'text' || kind === 'bytes');
        return string?.kind === 'text';
    }

    /** What is known of the next item. */
    knownNext() {
        const { top } = this;
        if (top === undefined) return this.known;
        if (top.kind === 'tag') return knownContent(top.known, Number(top.number));
        if (top.kind === 'array') return knownMember(top.known, top.seen);
        return this.isAtKey() ? undefined : knownValue(top.known, top.key);
    }

    /** The name of the next item, if it is an integer that has one. */
    nameOf(kind, number) {
        const { top } = this, integer = integerOf(kind, number);
        if (integer === undefined || top?.known === undefined || top.kind !== 'map') return undefined;
        return this.isAtKey() ? keyName(top.known, integer) : valueName(top.known, top.key, integer);
    }

    /** Takes an event. */
    take({ kind, number }) {
        switch (kind) {
        case 'piece':
            this.#takePiece(number);
            return;
        case 'chunk':
            if (number) this.open.push(new Open(kind, number, Number(number)));
            return;
        case 'break':
            this.open.pop();
            this.#complete();
            return;
        default:
            this.#begin(kind, number);
        }
    }

    #begin(kind, number) {
        const left = kind === 'tag' ? 1 : this.#leftOf(kind, number), known = this.knownNext();
        if (this.isAtKey()) this.top.key = integerOf(kind, number);
        if (left === 0) this.#complete();
        else this.open.push(new Open(kind, number, left, known));
    }

    #leftOf(kind, number) {
        if (kind !== 'bytes' && kind !== 'text' && kind !== 'array' && kind !== 'map') return 0;
        return number === undefined ? Infinity : Number(number) * (MEMBERS[kind] ?? 1);
    }

    #takePiece(count) {
        const { top } = this;
        top.left -= Number(count);
        if (top.left > 0) return;
        this.open.pop();
        this.#complete();
    }

    /** An item is complete, and so is every container that ends with it. */
    #complete() {
        for (let { top } = this; top !== undefined; { top } = this) {
            top.seen += 1;
            top.left -= 1;
            if (top.left > 0) return;
            this.open.pop();
        }
    }
}
