// What the library says of an input: its items, its events, its verdict, its diagnostic text and canonical bytes.
import { Refused } from '../../bindings/js/src/refused.js';
import { hexOf } from './bytes.js';
import { Trace } from './trace.js';
import { adviceOn, floatAt } from './words.js';

/** Bytes that grow. */
class Output {
    constructor(size) {
        this.bytes = new Uint8Array(size);
        this.length = 0;
    }

    push(more) {
        const length = this.length + more.length;
        if (length > this.bytes.length) {
            const bytes = new Uint8Array(Math.max(length, 2 * this.bytes.length));
            bytes.set(this.written());
            this.bytes = bytes;
        }
        this.bytes.set(more, this.length);
        this.length = length;
    }

    written() {
        return this.bytes.subarray(0, this.length);
    }
}

/** A reason at an offset of the input, in its item, which is counted from 1. */
const mark = (error, item, start) => ({
    reason: error.reason,
    name: error.reasonName,
    item,
    start,
    offset: start + error.offset,
    meaning: error.sentence,
    advice: adviceOn(error),
    path: error.path,
});

const PREVIEW = 8192; // characters
const SHORT_TEXT = 60;
const BETWEEN_REPORTS = 1 << 16; // events or items

const DEPTH_MAX = 1024;
const ARRAY = 0x9f; // of indefinite length
const BREAK = 0xff;

const cut = (text, length) => (text.length > length ? `${text.slice(0, length)}…` : text);

export class Inspection {
    /**
     * `settings` are the library's options, `isOne`: whether the input must be one item, and `known`: what is known of
     * each item (names.js).
     */
    constructor(naltvigo, bytes, { isOne, known, ...options }) {
        this.naltvigo = naltvigo;
        this.bytes = bytes;
        this.isOne = isOne;
        this.options = options;
        /** Offsets after the valid items. */
        this.ends = [];
        this.refusal = undefined;
        this.notCanonical = undefined;
        this.trace = new Trace(known, bytes.length); // an event has at least one byte
    }

    /** `progress(task, offset)` is called now and then. */
    run(progress) {
        this.#findItems();
        if (!this.refusal) this.#findNotCanonical();
        this.#write(progress);
        this.#followEvents(progress);
        this.#locate(this.refusal);
        this.#locate(this.notCanonical);
    }

    startOf(item) {
        return item > 1 ? this.ends[item - 2] : 0;
    }

    itemBytes(item) {
        return this.bytes.subarray(this.startOf(item), this.ends[item - 1]);
    }

    #findItems() {
        const { naltvigo, bytes, options } = this;
        try {
            if (this.isOne) {
                naltvigo.check(bytes, options);
                this.ends.push(bytes.length);
            } else {
                for (const item of naltvigo.items(bytes, options)) {
                    this.ends.push(item.byteOffset - bytes.byteOffset + item.length);
                }
            }
        } catch (error) {
            if (!(error instanceof Refused)) throw error;
            this.refusal = mark(error, error.item ?? 1, error.start ?? 0);
        }
    }

    #findNotCanonical() {
        const { naltvigo, bytes, options } = this, canonical = naltvigo.items(bytes, { ...options, canonical: true });
        try {
            while (!canonical.next().done);
        } catch (error) {
            if (!(error instanceof Refused)) throw error;
            this.notCanonical = mark(error, error.item, error.start);
        }
    }

    /** Writes the diagnostic texts and the canonical bytes of the valid items; a canonical item is its own. */
    #write(progress) {
        const { naltvigo, options } = this, texts = [], output = new Output(this.bytes.length);
        const firstNotCanonical = this.refusal ? 1 : this.notCanonical?.item ?? Infinity;
        for (let item = 1; item <= this.ends.length; item++) {
            const bytes = this.itemBytes(item);
            if (item % BETWEEN_REPORTS === 0) progress('Diagnostic text and canonical bytes', this.startOf(item));
            texts.push(naltvigo.diagnostic(bytes, options));
            try {
                output.push(item < firstNotCanonical ? bytes : naltvigo.canonicalise(bytes, options));
            } catch (error) {
                if (!(error instanceof Refused)) throw error;
                this.refusal = mark(error, item, this.startOf(item));
                this.notCanonical = undefined;
                this.ends.length = texts.length = item - 1;
            }
        }
        this.diagnostic = texts.join('\n');
        this.canonical = output.written();
    }

    #followEvents(progress) {
        const { bytes, trace, refusal } = this;
        const add = (event, start) => {
            trace.add(event, start);
            if (trace.count % BETWEEN_REPORTS === 0) progress('Events', trace.end);
        };
        this.#followValid(add);
        if (!refusal) return;
        try {
            for (const event of this.naltvigo.events(bytes.subarray(refusal.start), this.options)) add(event, refusal.start);
        } catch (error) {
            if (!(error instanceof Refused)) throw error; // the refusal that is known, or a byte after the item
        }
    }

    /** The events of the valid items: of all at once, as members of an array, unless that may be too deep. It is quicker. */
    #followValid(add) {
        const { naltvigo, options, ends } = this;
        if (ends.length < 2 || options.depth === DEPTH_MAX) {
            for (let item = 1; item <= ends.length; item++) {
                for (const event of naltvigo.events(this.itemBytes(item), options)) add(event, this.startOf(item));
            }
            return;
        }
        const end = ends.at(-1), array = [Uint8Array.of(ARRAY), this.bytes.subarray(0, end), Uint8Array.of(BREAK)];
        for (const event of naltvigo.events(array, { depth: options.depth + 1, maxBytes: end + 2 })) {
            const isMember = event.offset > 0 && event.offset <= end;
            if (isMember) add(event, -1);
        }
    }

    /** Finds the row of a mark. A refusal without an event has the row after the last one. */
    #locate(found) {
        if (!found) return;
        const { trace } = this, { offset } = found;
        found.row = offset >= trace.end ? trace.count : trace.indexAt(offset);
        if (found.name === 'Float') found.float = floatAt(this.bytes, offset);
    }

    /** Whether these bytes are one valid item. */
    isItem(from, end) {
        try {
            this.naltvigo.check(this.bytes.subarray(from, end), this.options);
            return true;
        } catch (error) {
            if (!(error instanceof Refused)) throw error;
            return false;
        }
    }

    /** The inspection of an item in a byte string: `held` as in a row. */
    inner({ head, from, end }) {
        const settings = { ...this.options, isOne: true, known: this.#knownAt(head) };
        const inner = new Inspection(this.naltvigo, this.bytes.subarray(from, end), settings);
        inner.run(() => {});
        return inner;
    }

    /** What is known of the item that begins at an offset. */
    #knownAt(offset) {
        const item = this.ends.findIndex(end => end > offset), start = item > 0 ? this.ends[item - 1] : 0;
        return this.trace.knownAt(this.trace.indexAt(offset), start ? this.trace.indexAt(start - 1) + 1 : 0);
    }

    /** What the page shows at once; it requests everything else. */
    report() {
        const { bytes, ends, refusal, notCanonical, trace, diagnostic, canonical } = this;
        const text = diagnostic.slice(0, PREVIEW), begin = canonical.subarray(0, PREVIEW / 2);
        return {
            length: bytes.length,
            itemCount: ends.length,
            isOne: this.isOne,
            refusal,
            notCanonical,
            rowCount: trace.count,
            diagnostic: { text, shown: text.length, length: diagnostic.length },
            canonical: { text: hexOf(begin), shown: begin.length, length: canonical.length },
        };
    }

    /** A row of the list of items. */
    item(number) {
        const { naltvigo, options } = this, bytes = this.itemBytes(number), start = this.startOf(number);
        const text = cut(naltvigo.diagnostic(bytes, options), SHORT_TEXT);
        const row = { number, offset: start, length: bytes.length, text };
        try {
            naltvigo.checkCanonical(bytes, options);
        } catch (error) {
            if (!(error instanceof Refused)) throw error;
            row.notCanonical = mark(error, number, start);
        }
        return row;
    }
}
