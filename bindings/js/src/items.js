// The items of a sequence (RFC 8742), whose bytes are in one buffer, or arrive in chunks.
import { iterableOf } from './chunks.js';
import { GrowingBytes } from './growing.js';
import { bytesOf } from './input.js';
import { WINDOW } from './instance.js';
import { Machine, PART } from './machine.js';
import { OK, REFUSED, TRUNCATED } from './numbers.js';
import { settingsOfReading } from './options.js';

export function items(library, data, options) {
    return new Sequence(library, settingsOfReading(options)).itemsIn(bytesOf(data), true);
}

export function readItems(library, chunks, options) {
    const sequence = new Sequence(library, settingsOfReading(options));
    return itemsOf(sequence, iterableOf(chunks, 'readItems', 'items'));
}

class Sequence {
    constructor(library, given) {
        this.library = library;
        this.given = given;
        /** The limit, and one byte, which shows that there are more. */
        this.most = Number(given.maxBytes) + 1;
        /** How many items were returned, and how many bytes they have. */
        this.count = 0;
        this.start = 0;
    }

    /** The items that are whole in the data; returns what follows them. At the end of the sequence nothing may. */
    *itemsIn(data, isEnd) {
        // more is copied at once if an item is longer, but no more than the limit allows
        let size = WINDOW, at = 0;
        while (at < data.length) {
            const window = data.subarray(at, at + Math.min(size, this.most));
            const { ends, reason, error } = this.#wholeIn(window), begin = at;
            for (const end of ends) yield this.#next(data.subarray(at, at = begin + end));
            if (reason === undefined) continue;
            const isAll = begin + window.length === data.length;
            const isCut = reason === TRUNCATED && !(ends.length === 0 && isAll && isEnd);
            if (!isCut) throw error();
            if (isAll && !isEnd) break;
            if (ends.length === 0) size *= 2;
        }
        return data.subarray(at);
    }

    #next(item) {
        this.count++;
        this.start += item.length;
        return item;
    }

    /** The ends of the items that are whole in a window; the reason why the one after them is refused, and what makes its error. */
    #wholeIn(window) {
        const { given } = this, { order, keys, depth, maxBytes, canonical } = given, ends = [];
        const instance = this.library.instance(), { exports, first, refusal } = instance, input = instance.left.put(window).pointer;
        for (let at = 0; at < window.length;) {
            const pointer = input + BigInt(at), size = BigInt(window.length - at);
            const status = instance.run(() => canonical
                ? exports.naltvigo_next_canonical_raw(pointer, size, order, keys, depth, maxBytes, first, refusal)
                : exports.naltvigo_next_valid_raw(pointer, size, keys, depth, maxBytes, first, refusal));
            if (status !== OK) {
                if (status !== REFUSED) throw instance.failure(status);
                const where = { item: this.count + ends.length + 1, start: this.start + at };
                const error = () => instance.error(status, given, { pointer, length: window.length - at }, where);
                return { ends, reason: instance.reason(), error };
            }
            at += instance.firstResult();
            ends.push(at);
        }
        return { ends };
    }
}

async function* itemsOf(sequence, chunks) {
    let open;
    for await (const chunk of chunks) {
        let data = bytesOf(chunk);
        if (open) {
            data = open.take(data);
            if (!open.isAtEnd) continue;
            yield* sequence.itemsIn(open.bytes(), true);
            open = undefined;
        }
        const rest = yield* sequence.itemsIn(data, false);
        if (rest.length > 0) {
            open = new OpenItem(sequence);
            open.take(rest);
        }
    }
    if (open) yield* sequence.itemsIn(open.bytes(), true);
}

/** An item that arrives in several chunks. A machine finds its end, so its bytes are checked once, when all have arrived. */
class OpenItem {
    #machine;
    #most;
    #bytes = new GrowingBytes(256);

    constructor({ library, given, most }) {
        this.#machine = new Machine(library, given);
        this.#most = most;
        /** Whether the item is complete, or refused. */
        this.isAtEnd = false;
    }

    /** Consumes the bytes up to the end of the item, and returns those after it. */
    take(data) {
        let at = 0;
        while (at < data.length && !this.isAtEnd) {
            const { used, error } = this.#machine.step(data.subarray(at, at + PART));
            at += used;
            this.isAtEnd = this.#machine.isComplete || error !== undefined;
            // the byte that is refused belongs to the item too
            if (error) at = Math.min(data.length, this.#most - this.#bytes.length);
        }
        this.#bytes.append(data.subarray(0, at));
        return data.subarray(at);
    }

    bytes() {
        return this.#bytes.all();
    }
}
