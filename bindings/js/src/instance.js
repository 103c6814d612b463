// An instance of the module: its memory, the blocks of it that calls use, and what calls write there.
//
// A pointer, a size and a 64-bit number are passed as a BigInt, also with 32-bit memory. When the memory grows, its views
// become invalid. So each view is read again after a call that may make the memory grow.
import { outOfMemory, Refused } from './refused.js';
import { NO_MEMORY, OK, REFUSED, TOO_SMALL } from './numbers.js';

/** A uint64_t, as a number where that is a safe integer, and else as a bigint. */
export function numberOf(low, high) {
    return high < 0x200000 ? high * 0x100000000 + low : BigInt(high) << 32n | BigInt(low);
}

/** The uint64_t at an offset. */
export const numberAt = (words, offset) => numberOf(words.getUint32(offset, true), words.getUint32(offset + 4, true));

const IS_LITTLE_ENDIAN = new Uint8Array(Uint32Array.of(1).buffer)[0] === 1;

/** Little-endian numbers of 32 bits at an offset; a copy if this machine is big-endian. */
export function wordsAt(buffer, offset, count, isLittleEndian = IS_LITTLE_ENDIAN) {
    if (isLittleEndian) return new Uint32Array(buffer, offset, count);
    const view = new DataView(buffer, offset, 4 * count);
    return Uint32Array.from({ length: count }, (_, i) => view.getUint32(4 * i, true));
}

/** How many bytes of a longer input are copied to the module at once, where that suffices. */
export const WINDOW = 1 << 16;

const SMALLEST = 256;
const PAGE = 1 << 16;
const TEXT = new TextDecoder('utf-8', { ignoreBOM: true });

/** A block of the module's memory, which grows if it must and is reused from call to call. */
class Block {
    constructor(instance) {
        this.instance = instance;
        this.pointer = 0n;
        this.offset = 0;
        this.size = 0;
    }

    /** Space for this many bytes. The previous content may be lost. Even for 0 bytes there is a block, so no pointer is null. */
    atLeast(count) {
        if (this.size > 0 && count <= this.size) return this;
        let size = SMALLEST;
        while (size < count) size *= 2;
        const { allocate, release } = this.instance.exports;
        if (this.size > 0) release(this.pointer);
        this.size = 0;
        this.pointer = allocate(BigInt(size));
        if (this.pointer === 0n) throw outOfMemory();
        this.offset = Number(this.pointer);
        this.size = size;
        return this;
    }

    /** Copies bytes here. Returns where they are, and their number, as a number and as a bigint for the module. */
    put(bytes) {
        this.atLeast(bytes.length);
        this.instance.bytes().set(bytes, this.offset);
        return { pointer: this.pointer, length: bytes.length, size: BigInt(bytes.length) };
    }
}

// Where a call writes its results besides bytes: `needed`, `length` or `used`; `side` or `reported`; the refusal; a head.
const SECOND = 8;
const REFUSAL = 16;
const HEAD = 48;
const RESULTS = 64;
const LONGEST_HEAD = 9n;

/** Grows a memory to a size. If it has 64-bit addresses, some engines accept the number of pages only as a bigint. */
function growTo(memory, size) {
    const pages = (size - memory.buffer.byteLength) / PAGE;
    try {
        try {
            memory.grow(pages);
        } catch (error) {
            if (!(error instanceof TypeError)) throw error;
            memory.grow(BigInt(pages));
        }
    } catch {
        throw outOfMemory();
    }
}

export class Instance {
    #bytes;
    #words;
    #putHead;

    /** @param before an instance that trapped, if this one continues with its memory */
    constructor(instance, before) {
        this.exports = instance.exports;
        this.#putHead = instance.exports.naltvigo_put_head_raw;
        /** False once a call did not return: its stack and its blocks are then as the trap left them. */
        this.isUsable = true;
        /** The instance that then continues with the memory, if there is one. */
        this.heir = undefined;
        if (before) this.#inherit(before);
        this.#refresh();
        this.left = new Block(this);
        this.right = new Block(this);
        this.output = new Block(this);
        this.table = new Block(this);
        const results = new Block(this).atLeast(RESULTS);
        this.results = results.offset;
        this.first = results.pointer;
        this.second = results.pointer + BigInt(SECOND);
        this.refusal = results.pointer + BigInt(REFUSAL);
        this.head = results.pointer + BigInt(HEAD);
    }

    /** Copies the memory, and releases the blocks of calls, so that only the checkers remain. */
    #inherit(before) {
        const { memory, release } = this.exports, { buffer } = before.exports.memory;
        growTo(memory, buffer.byteLength);
        new Uint8Array(memory.buffer).set(new Uint8Array(buffer));
        for (const { size, pointer } of [before.left, before.right, before.output, before.table]) if (size > 0) release(pointer);
        release(before.first);
    }

    #refresh() {
        this.#bytes = new Uint8Array(this.exports.memory.buffer);
        this.#words = new DataView(this.exports.memory.buffer);
    }

    /** The memory; a buffer that the memory has grown out of has no bytes. */
    bytes() {
        if (this.#bytes.length === 0) this.#refresh();
        return this.#bytes;
    }

    words() {
        if (this.#bytes.length === 0) this.#refresh();
        return this.#words;
    }

    /** An offset or a count, which is always a safe integer. */
    count(offset) {
        return Number(numberAt(this.words(), offset));
    }

    /** `needed`, `length` or `used` of the last call. */
    firstResult() {
        return this.count(this.results);
    }

    secondResult() {
        return this.words().getUint32(this.results + SECOND, true);
    }

    /** The status of a call of the module. */
    run(call) {
        this.isUsable = false;
        const status = call();
        this.isUsable = true;
        return status;
    }

    /** How many units `call(pointer, space)` writes to a block; -1 if the input is refused. */
    write(block, guess, call, unit = 1) {
        for (let space = guess; ;) {
            const { pointer, size } = block.atLeast(space * unit);
            const status = this.run(() => call(pointer, BigInt(Math.floor(size / unit))));
            if (status === OK) return this.firstResult();
            if (status === REFUSED) return -1;
            if (status !== TOO_SMALL) throw this.failure(status);
            space = this.firstResult();
        }
    }

    /** Writes the shortest head of a major type and a number or bigint to the bytes at an offset; returns its length. */
    putHead(major, number, bytes, offset) {
        const wide = BigInt(number);
        this.isUsable = false;
        const status = this.#putHead(major, wide, this.head, LONGEST_HEAD, this.first);
        this.isUsable = true;
        if (status !== OK) throw this.failure(status);
        const memory = this.bytes(), length = memory[this.results], from = this.results + HEAD;
        for (let i = 0; i < length; i++) bytes[offset + i] = memory[from + i];
        return length;
    }

    /** The error of a status that is neither OK nor REFUSED. */
    failure(status) {
        return status === NO_MEMORY ? outOfMemory() : new Error(`naltvigo: an unknown status: ${status}`);
    }

    /** The reason of the last refusal. */
    reason() {
        return this.words().getUint32(this.results + REFUSAL, true);
    }

    /**
     * The error of a status that is not OK. If an item is refused and its bytes are still in the memory, `input` is
     * `{ pointer, length }` of these bytes.
     */
    error(status, given, input, where) {
        if (status !== REFUSED) return this.failure(status);
        const at = this.results + REFUSAL;
        return this.refused(this.reason(), this.count(at + 8), this.count(at + 16), given, input, where);
    }

    /** The error of a refusal. Without `input` it has no path. */
    refused(reason, offset, consumed, { depth, maxBytes }, input, where) {
        const { exports, table, first } = this, pointer = input?.pointer ?? first, length = BigInt(input?.length ?? 0);
        const named = exports.naltvigo_reason_name_raw(reason, table.atLeast(SMALLEST).pointer, BigInt(SMALLEST));
        const reasonName = this.#text(table, Number(named));
        const count = this.write(table, SMALLEST, (to, space) =>
            exports.naltvigo_explain_raw(pointer, length, depth, maxBytes, reason, BigInt(offset), to, space, first));
        const [sentence, advice, path] = this.#text(table, count).split('\n');
        return new Refused(reason, offset, consumed, { reasonName, sentence, advice, path: input && path }, where);
    }

    #text({ offset }, length) {
        return TEXT.decode(this.bytes().subarray(offset, offset + length));
    }
}

/** The module, and an instance of it that works. */
export class Library {
    #module;
    #instance;

    constructor(module, instance) {
        this.#module = module;
        this.#instance = new Instance(instance);
    }

    /** An instance that trapped, as where JavaScript's own stack was at its end, is never called again. */
    instance() {
        if (!this.#instance?.isUsable) this.#instance = new Instance(new WebAssembly.Instance(this.#module, {}));
        return this.#instance;
    }

    /**
     * The instance that continues with the memory of one that trapped, for the checkers in this memory. Only the checker whose
     * call trapped is lost. Other calls begin with a new memory.
     */
    heirOf(instance) {
        return instance.heir ??= new Instance(new WebAssembly.Instance(this.#module, {}), instance);
    }

    /** Drops the instance with its memory; the next call makes another. */
    freeMemory() {
        this.#instance = undefined;
    }
}
