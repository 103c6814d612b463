// The calls over a module that the caller brings.

/** A Uint8Array (a Buffer of Node's is one), another view, or an ArrayBuffer, shared or not. */
export type Bytes = ArrayBufferView | ArrayBuffer | SharedArrayBuffer;

/** A ReadableStream of buffers. */
export interface ByteStream {
    getReader(): {
        read(): Promise<{ done: boolean; value?: Bytes }>;
        cancel(reason?: unknown): Promise<void>;
    };
}

/** A WritableStream of buffers. */
export interface ByteSink {
    readonly locked: boolean;
    abort(reason?: any): Promise<void>;
    close(): Promise<void>;
    getWriter(): {
        readonly closed: Promise<undefined>;
        readonly ready: Promise<undefined>;
        readonly desiredSize: number | null;
        abort(reason?: any): Promise<void>;
        close(): Promise<void>;
        releaseLock(): void;
        write(chunk?: any): Promise<void>;
    };
}

/** The options of each call. A call checks that all options are in range, even those that it does not use. */
export interface Options {
    /** How deep arrays, maps and tags may nest: 0 to 1024, and 64 by default. */
    depth?: number;
    /** How many bytes an item and its canonical bytes may have: 0 to 2 ** 62, and 2 ** 20 by default. */
    maxBytes?: number | bigint;
    /** The order of the keys of maps: bytewise by default, or the shorter key first (RFC 8949, section 4.2.3). */
    order?: 'bytewise' | 'length';
    /** The items that may be keys of maps: any by default, or only integers and texts. */
    keys?: 'any' | 'basic';
}

export interface ReadingOptions extends Options {
    /** Whether an item that is not in its canonical bytes is refused. */
    canonical?: boolean;
}

export interface DecodingOptions extends ReadingOptions {
    /** What `decode` makes of a map: a Map by default, or a plain object, if its keys are texts. */
    maps?: 'map' | 'object';
}

/** What `decode` returns. `encode` accepts it, and more types. */
export type Value =
    | number | bigint | string | boolean | null | undefined | Uint8Array | Value[] | Map<Value, Value> | Tag | Simple;

/** What `decode` returns with `maps: 'object'`. */
export type ObjectValue =
    | number | bigint | string | boolean | null | undefined | Uint8Array | ObjectValue[] | { [name: string]: ObjectValue }
    | Tag | Simple;

/**
 * A Map that cannot be changed: `set`, `delete` and `clear` throw a TypeError. `decode` returns one for a map of more than
 * 255 pairs if it has a key that engines may hash without a secret: an integer, or a text that begins with a digit. It finds
 * keys by binary search, so an attacker who chooses the keys cannot make it slow. `new Map(sorted)` is an ordinary Map.
 */
export class SortedMap<K = Value, V = Value> extends Map<K, V> {
    private constructor();
    set(key: K, value: V): never;
    delete(key: K): never;
    clear(): never;
}

/** A tag's number, 0 to 2 ** 64 - 1, and its content. */
export class Tag {
    constructor(number: number | bigint, content: unknown);
    /** A number if it is a safe integer, else a bigint. */
    number: number | bigint;
    content: any;
}

/** A simple value: 0 to 19, or 32 to 255. The four between are false, true, null and undefined. */
export class Simple {
    constructor(number: number);
    readonly number: number;
}

/** An input is refused: it is not what the call requires. */
export class Refused extends Error {
    private constructor();
    /** The number of the reason, as in naltvigo.h. */
    readonly reason: number;
    /** The name of the reason, as 'Float'. */
    readonly reasonName: string;
    /** The offset of the fault, in bytes from the first byte of the item. */
    readonly offset: number;
    /** How many bytes of the item were read. */
    readonly consumed: number;
    /** What the reason means. */
    readonly sentence: string;
    /** What to do about it. */
    readonly advice: string;
    /** The path to the fault, such as `$[1]."a"`. Undefined for `events` and for checkers, which do not store the bytes. */
    readonly path?: string;
    /** Of `same`: the input that is refused. */
    readonly side?: 'left' | 'right';
    /** Of `items` and `readItems`: which item is refused, counted from 1. */
    readonly item?: number;
    /** Of `items` and `readItems`: the offset of that item's first byte. */
    readonly start?: number;
}

/**
 * Checks an item whose bytes arrive in parts. After each part the result is that of `checkCanonical` for all bytes of the item
 * so far, except that `Truncated` is not thrown before `end`. It does not matter where the item is cut into parts. So a wrong
 * byte is refused when it arrives. A checker stores the last key of each open map and all of a key that is not complete, but no
 * other byte of the item. It also needs 10.3 KiB at any depth, and 24 bytes for each open map.
 *
 * It uses memory of the module from the first call of `feed` or `end` until the item is complete or refused, until `free`, or
 * until it is collected as garbage.
 */
export interface Checker {
    /** Whether the item is complete, and so canonical. */
    readonly complete: boolean;
    /** How many bytes of the item were read. */
    readonly consumed: number;
    /**
     * Checks the next part. Returns how many of its bytes belong to the item: all of them unless the item ends before the
     * part does, and 0 if the item was complete before. Throws `Refused` at a wrong byte, and again at each later call.
     * Throws a `RangeError` if the engine has no more memory. If the memory was for a key, each call throws it until `restart`.
     */
    feed(part: Bytes): number;
    /**
     * For the end of the input. Throws `Refused` (1 Truncated, at `consumed`) if the item is not complete. After Truncated more
     * bytes may follow: `feed` continues. After any other refusal, each call throws it again.
     */
    end(): void;
    /** Begins another item. The item before it may be complete, refused or not complete. */
    restart(): void;
    /** Releases the memory of an item that is not complete. Then `feed` and `end` throw an `Error` until `restart`. */
    free(): void;
    /**
     * A WritableStream that accepts exactly one item. A write is rejected with `Refused` at a wrong byte, or if bytes follow
     * the item (12 Trailing). `close` is rejected if the item is not complete, and then no more bytes may follow. `abort` calls
     * `free`.
     */
    writable(): ByteSink;
}

/** `encode` was given a value that cannot be encoded. */
export class EncodeError extends TypeError {
    private constructor();
    /** The path to the value, as `$."a"[2]`. */
    readonly path: string;
}

/** `decode` with `maps: 'object'` found a map with a key that is not a text, or a value that is undefined. */
export class DecodeError extends TypeError {
    private constructor();
    /** The path to the key or value. */
    readonly path: string;
}

/**
 * An event of an item.
 *
 * An event is the head of an item, and its kind is the kind of the item; or 'chunk', the head of a chunk of a string of
 * indefinite length; or 'piece', some bytes of a string; or 'break', the end of an item of indefinite length.
 */
export interface Event {
    kind: 'unsigned' | 'negative' | 'bytes' | 'text' | 'array' | 'map' | 'tag' | 'simple' | 'chunk' | 'piece' | 'break';
    /** The offset of its first byte, from the first byte of the item. */
    offset: number;
    /**
     * The argument: the number (n for the integer -1 - n), the number of a tag or a simple value, or the number of bytes,
     * members or pairs. A bigint if it is not a safe integer; undefined for an indefinite length and a break.
     */
    number: number | bigint | undefined;
    /** How many bytes the argument has after the first one: 0, 1, 2, 4 or 8; undefined as above. */
    width: number | undefined;
    /** The bytes of a piece, as a view of the input. */
    data?: Uint8Array;
}

/**
 * The calls. Each of them throws a `RangeError` or `TypeError` for options that do not exist or are out of range, a
 * `TypeError` for an input that is not a buffer, and a `RangeError` if the engine has no more memory.
 */
export interface Naltvigo {
    /**
     * The canonical bytes of a value. A property that is undefined is left out. Throws `EncodeError` for a value that
     * cannot be encoded, and `Refused` for equal keys or if a limit is exceeded.
     */
    encode(this: void, value: unknown, options?: Options): Uint8Array;
    /** The value of an input that is one valid item; else throws `Refused`. The pairs of a Map are in canonical order. */
    decode(this: void, data: Bytes, options: DecodingOptions & { maps: 'object' }): ObjectValue;
    decode(this: void, data: Bytes, options?: ReadingOptions & { maps?: 'map' }): Value;
    decode(this: void, data: Bytes, options?: DecodingOptions): Value | ObjectValue;
    /** The canonical bytes of an input that is one valid item, in any encoding; else throws `Refused`. */
    canonicalise(this: void, data: Bytes, options?: Options): Uint8Array;
    /** Returns if the input is one valid item, in any encoding; else throws `Refused`. */
    check(this: void, data: Bytes, options?: Options): void;
    /** Returns if the input is one valid item in its canonical bytes; else throws `Refused`. */
    checkCanonical(this: void, data: Bytes, options?: Options): void;
    /** Makes a checker. No byte of its item has arrived yet. */
    readonly Checker: new (options?: Options) => Checker;
    /**
     * The number of bytes in these chunks, if they are one valid item in its canonical bytes. Rejects with `Refused` as soon
     * as a wrong byte arrives. The bytes are not stored.
     */
    checkStream(
        this: void, chunks: AsyncIterable<Bytes> | Iterable<Bytes> | ByteStream, options?: Options,
    ): Promise<number>;
    /** Whether two valid items have the same value. Throws `Refused` if one is not valid; the left one is checked first. */
    same(this: void, left: Bytes, right: Bytes, options?: Options): boolean;
    /** The diagnostic text (RFC 8949, section 8) of an input that is one valid item. Pairs keep their order. */
    diagnostic(this: void, data: Bytes, options?: Options): string;
    /** The items of a sequence (RFC 8742), as views of the input. Throws `Refused` after the last valid item. */
    items(this: void, data: Bytes, options?: ReadingOptions): Generator<Uint8Array, void, undefined>;
    /**
     * The items of a sequence whose bytes arrive in chunks, each as soon as it is complete. If one chunk has all bytes of an
     * item, the item is a view of the chunk. Throws `Refused` after the last valid item.
     */
    readItems(
        this: void, chunks: AsyncIterable<Bytes> | Iterable<Bytes> | ByteStream, options?: ReadingOptions,
    ): AsyncGenerator<Uint8Array, void, undefined>;
    /**
     * The events of the one item whose bytes arrive in these chunks. It checks only that the item is well-formed, and not
     * UTF-8 or repeated keys. Throws `Refused` after the events before the fault.
     */
    events(this: void, chunks: Bytes | Iterable<Bytes>, options?: Options): Generator<Event, void, undefined>;
    /** Releases the memory of the module, which is as large as the largest call needed. The next call allocates it again. */
    freeMemory(this: void): void;
    /** The version of the library, as '2.0.0'. */
    version(this: void): string;
}

/** Whether this engine can run naltvigo64.wasm. naltvigo32.wasm is for other engines. */
export function hasMemory64(): boolean;

/**
 * The calls of naltvigo64.wasm or naltvigo32.wasm. `source` is its bytes, a WebAssembly.Module, a Response, or a promise of
 * one of them. Throws an Error if the status of the Response is not a success.
 */
export function load(source: ModuleSource | PromiseLike<ModuleSource>): Promise<Naltvigo>;

/** The same without a promise. A browser may refuse to compile large modules in this way in its main thread. */
export function loadSync(source: Bytes | WebAssembly.Module): Naltvigo;

export type ModuleSource = Bytes | WebAssembly.Module | { arrayBuffer(): Promise<ArrayBuffer> };
