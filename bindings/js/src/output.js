// Bytes that are written one after another, the heads of items by the module.
import { GrowingBytes } from './growing.js';

// The length of the bytes themselves, even if a subclass has another property `length`.
const lengthOf = Object.getOwnPropertyDescriptor(Object.getPrototypeOf(Uint8Array.prototype), 'length').get;
const TEXT = new TextEncoder();
const KEPT = 1 << 16;
const SHORT = 64; // characters
const short = new Uint8Array(3 * SHORT);
const LONGEST_HEAD = 9;

// The heads of small numbers, each as the module wrote it the first time: its length, and its two bytes.
const SMALL = 256;
const known = new Uint32Array(8 * SMALL);

/** The output. One output is stored for the next call. A getter of a value may call `encode` in the meantime. */
export class Output extends GrowingBytes {
    static #spare;

    constructor() {
        super(KEPT);
    }

    /** `maxBytes` is the limit. Of a longer string, only as much is written as shows that it is too long. */
    static lent(library, maxBytes) {
        const output = Output.#spare ?? new Output();
        Output.#spare = undefined;
        return output.begin(library, maxBytes);
    }

    begin(library, maxBytes) {
        this.library = library;
        this.length = 0;
        this.most = Number(maxBytes) + 1;
        return this;
    }

    giveBack() {
        this.library = undefined;
        if (this.bytes.length === KEPT) Output.#spare = this;
    }

    /** The bytes that were written, no more than one beyond the limit. */
    written() {
        return this.bytes.subarray(0, Math.min(this.length, this.most));
    }

    /** Writes the head of a major type and a number or bigint. */
    head(major, number) {
        if (this.length + LONGEST_HEAD > this.bytes.length) this.reserve(LONGEST_HEAD);
        if (typeof number === 'bigint' || number >= SMALL) this.#newHead(major, number);
        else this.#smallHead(major, number);
    }

    #newHead(major, number) {
        this.length += this.library.instance().putHead(major, number, this.bytes, this.length);
    }

    #smallHead(major, number) {
        const { bytes, length } = this, index = major * SMALL + number, head = known[index];
        if (head === 0) {
            this.#newHead(major, number);
            known[index] = this.length - length << 16 | bytes[length] << 8 | bytes[length + 1];
        } else {
            bytes[length] = head >> 8 & 255;
            bytes[length + 1] = head & 255; // of a head of one byte this byte is written over
            this.length = length + (head >> 16);
        }
    }

    byteString(bytes) {
        const count = lengthOf.call(bytes), shown = Math.min(count, this.most);
        this.head(2, count);
        this.reserve(shown);
        this.bytes.set(shown < count ? Uint8Array.prototype.subarray.call(bytes, 0, shown) : bytes, this.length);
        this.length += shown;
    }

    /** Writes a text; false if it has a lone surrogate, so that it has no UTF-8. */
    text(text) {
        if (text.length <= SHORT && this.#ascii(text)) return true;
        if (hasLoneSurrogate(text)) return false;
        this.#utf8(text);
        return true;
    }

    /** Writes a short text of ASCII, because a call of the encoder costs more. Returns false if the text is not ASCII. */
    #ascii(text) {
        const begin = this.length, count = text.length;
        this.head(3, count);
        this.reserve(count);
        const { bytes, length } = this;
        for (let i = 0; i < count; i++) {
            const code = text.charCodeAt(i);
            if (code > 127) {
                this.length = begin;
                return false;
            }
            bytes[length + i] = code;
        }
        this.length = length + count;
        return true;
    }

    /** The head of a text has the length in UTF-8, so the text is written elsewhere first, and then copied. */
    #utf8(text) {
        if (text.length <= SHORT) {
            const { written } = TEXT.encodeInto(text, short);
            this.head(3, written);
            this.reserve(written);
            for (let i = 0; i < written; i++) this.bytes[this.length + i] = short[i];
            this.length += written;
        } else {
            this.#longText(text);
        }
    }

    #longText(text) {
        const shown = text.length > this.most ? text.slice(0, this.most) : text;
        this.reserve(LONGEST_HEAD + 3 * shown.length);
        const from = this.length + LONGEST_HEAD, { written } = TEXT.encodeInto(shown, this.bytes.subarray(from));
        this.head(3, shown === text ? written : text.length);
        this.bytes.copyWithin(this.length, from, from + written);
        this.length += written;
    }
}

const hasLoneSurrogate = text => (text.isWellFormed ? !text.isWellFormed() : /\p{Surrogate}/u.test(text));
