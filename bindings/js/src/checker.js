// The strict check of an item whose bytes come in parts.
import { iterableOf } from './chunks.js';
import { bytesOf } from './input.js';
import { WINDOW } from './instance.js';
import { MORE, OK, TRAILING } from './numbers.js';
import { settings } from './options.js';
import { outOfMemory } from './refused.js';

const HANDLE_SIZE = 8n; // of struct naltvigo_checker

/** A checker in the module's memory. It must be released. */
class Handle {
    constructor(library, { order, keys, depth, maxBytes }) {
        this.library = library;
        const instance = this.instance = library.instance(), { exports } = instance;
        this.pointer = exports.allocate(HANDLE_SIZE);
        if (this.pointer === 0n) throw outOfMemory();
        const status = this.#run(() => exports.naltvigo_checker_new_raw(order, keys, depth, maxBytes, this.pointer));
        if (status === OK) return;
        exports.release(this.pointer);
        throw instance.failure(status);
    }

    /** `isWhole` is false while a call runs, and after a call that did not return. */
    #run(call) {
        this.isWhole = false;
        const status = this.instance.run(call);
        this.isWhole = true;
        return status;
    }

    /** Moves to an instance with the same memory, if a call of something else did not return in its own. */
    move() {
        while (!this.instance.isUsable) this.instance = this.library.heirOf(this.instance);
    }

    /** The status after at most WINDOW bytes. The instance then has the number of bytes used, and the refusal. */
    take(part) {
        const { exports, left, first, refusal } = this.instance, input = left.put(part);
        return this.#run(() => exports.naltvigo_checker_feed_raw(this.pointer, input.pointer, input.size, first, refusal));
    }

    end() {
        const { exports, refusal } = this.instance;
        return this.#run(() => exports.naltvigo_checker_end_raw(this.pointer, refusal));
    }

    /** An instance that is no longer used is collected with all of its memory. */
    release() {
        while (!this.instance.isUsable && this.instance.heir) this.instance = this.instance.heir;
        if (!this.isWhole || !this.instance.isUsable) return;
        const { exports } = this.instance;
        this.#run(() => exports.naltvigo_checker_free_raw(this.pointer));
        exports.release(this.pointer);
    }
}

/** Releases the memory of checks that can no longer be reached. */
const unreachable = new FinalizationRegistry(handle => handle.release());

/** The check of one item after another. It uses memory of the module while an item is not complete. */
class StrictCheck {
    #library;
    #given;
    #handle;
    #error;

    constructor(library, options) {
        this.#library = library;
        this.#given = settings(options);
        this.restart();
    }

    restart() {
        this.#release();
        this.#error = undefined;
        this.isComplete = false;
        this.consumed = 0;
    }

    /** Checks bytes up to the item's end; returns how many of them belong to it. */
    feed(bytes) {
        this.#throwError();
        let used = 0;
        while (!this.isComplete) {
            const handle = this.#usable(), status = handle.take(bytes.subarray(used, used + WINDOW));
            const count = handle.instance.firstResult();
            used += count;
            this.consumed += count;
            this.#settle(status);
            if (used === bytes.length) break;
        }
        return used;
    }

    /** Checks bytes that must all belong to the item. */
    feedAll(bytes) {
        if (this.feed(bytes) === bytes.length) return;
        const { consumed } = this;
        throw this.#library.instance().refused(TRAILING, consumed, consumed, this.#given);
    }

    /** Throws Truncated if the item is not complete. More bytes may follow. */
    end() {
        this.#throwError();
        if (this.isComplete) return;
        const handle = this.#usable();
        throw handle.instance.error(handle.end(), this.#given);
    }

    /** The same, but no more bytes may follow. */
    close() {
        try {
            this.end();
        } catch (error) {
            this.#error ??= error;
            throw error;
        } finally {
            this.#release();
        }
    }

    free() {
        if (!this.isComplete) this.#error ??= new Error('naltvigo: the checker was freed');
        this.#release();
    }

    #throwError() {
        if (this.#error) throw this.#error;
    }

    #usable() {
        if (!this.#handle) {
            this.#handle = new Handle(this.#library, this.#given);
            unreachable.register(this, this.#handle, this.#handle);
        }
        if (!this.#handle.isWhole) {
            this.#error = new Error('naltvigo: the checker is lost, since a call of it did not return');
            this.#release();
            throw this.#error;
        }
        this.#handle.move();
        return this.#handle;
    }

    /** Handles a status. After an error, each call throws it again until the next item. */
    #settle(status) {
        if (status === MORE) return;
        if (status === OK) this.isComplete = true;
        else this.#error = this.#handle.instance.error(status, this.#given);
        this.#release();
        this.#throwError();
    }

    #release() {
        if (!this.#handle) return;
        unreachable.unregister(this.#handle);
        this.#handle.release();
        this.#handle = undefined;
    }
}

/** The class of the checkers that a library has. */
export const checkerOf = library => class Checker {
    #check;

    constructor(options) {
        this.#check = new StrictCheck(library, options);
    }

    get complete() {
        return this.#check.isComplete;
    }

    get consumed() {
        return this.#check.consumed;
    }

    feed(part) {
        return this.#check.feed(bytesOf(part));
    }

    end() {
        this.#check.end();
    }

    restart() {
        this.#check.restart();
    }

    free() {
        this.#check.free();
    }

    writable() {
        const check = this.#check;
        return new WritableStream({
            write: part => check.feedAll(bytesOf(part)),
            close: () => check.close(),
            abort: () => check.free(),
        });
    }
};

export async function checkStream(library, chunks, options) {
    const check = new StrictCheck(library, options);
    try {
        for await (const part of iterableOf(chunks, 'checkStream', 'checkCanonical')) check.feedAll(bytesOf(part));
        check.end();
        return check.consumed;
    } finally {
        check.free();
    }
}
