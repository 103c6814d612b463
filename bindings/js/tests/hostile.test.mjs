// What a stranger may send: it takes neither more time nor more space than its length and the limits allow.
import assert from 'node:assert/strict';
import { readFileSync } from 'node:fs';
import { test } from 'node:test';
import {
    canonicalise, check, checkCanonical, decode, diagnostic, encode, items, Refused, same, SortedMap, Tag,
} from 'naltvigo';
import { hasMemory64, load } from 'naltvigo/load';
import { chosenIntegers, harmlessIntegers } from './chosen_keys.mjs';
import { resultOf, bytes, rows } from './given.mjs';
import { limitedMemory } from './limited_memory.mjs';
import { beyond, millisecond, ratioOf } from './times.mjs';

const wasm = readFileSync(new URL(`../wasm/naltvigo${hasMemory64() ? 64 : 32}.wasm`, import.meta.url));
const LARGE = { maxBytes: 1 << 24, depth: 1024 };
const MIB = 1 << 20;

/** Canonical bytes of an array of maps with these keys, with this many pairs in each map. */
function mapsOf(keys, pairs) {
    const maps = [];
    for (let i = 0; i < keys.length; i += pairs) maps.push(new SortedMap(keys.slice(i, i + pairs), Array(Math.min(pairs, keys.length - i)).fill(0)));
    return encode(maps, LARGE);
}

test('1 MiB of chosen keys takes at most 5 times as long as 1 MiB of harmless ones', () => {
    const count = Math.floor(MIB / 6), chosen = chosenIntegers(count), harmless = harmlessIntegers(count);
    for (const pairs of [count, 1000, 255, 100]) {
        const [bad, good] = [chosen, harmless].map(keys => mapsOf(keys, pairs));
        assert.ok(Math.abs(bad.length - good.length) < good.length / 100);
        const ratio = ratioOf(() => decode(bad, LARGE), () => decode(good, LARGE));
        assert.ok(ratio <= 5, `${pairs} pairs a map: ${ratio} times as long`);
    }
});

test('look-ups of chosen keys take no longer than those of harmless ones', () => {
    const count = 100000, look = keys => {
        const map = decode(mapsOf(keys, count), LARGE)[0];
        assert.ok(map instanceof SortedMap);
        return () => { for (const key of keys) if (map.get(key) !== 0) throw new Error(`${key} is missing`); };
    };
    const ratio = ratioOf(look(chosenIntegers(count)), look(harmlessIntegers(count)));
    assert.ok(ratio <= 5, `${ratio} times as long`);
});

test('texts that look like integers, and other texts, are as quick', () => {
    const count = 100000, named = prefix => encode(new SortedMap(
        Array.from({ length: count }, (_, i) => `${prefix}${(i * 8192 % 9999991).toString().padStart(7, '0')}`), Array(count).fill(0)), LARGE);
    const digits = named(''), letters = named('n');
    const ratio = ratioOf(() => decode(digits, LARGE), () => decode(letters, LARGE));
    assert.ok(ratio <= 5, `${ratio} times as long`);
    assert.ok(decode(digits, LARGE) instanceof SortedMap && !(decode(letters, LARGE) instanceof SortedMap));
});

/** Canonical items of at most 1 KiB, each as much of one thing as there can be. */
function* kibibytes() {
    yield mapsOf(chosenIntegers(150), 150);
    yield mapsOf(chosenIntegers(150), 10);
    yield mapsOf(harmlessIntegers(150), 150);
    yield Uint8Array.from([...Array(1023).fill(0x81), 0]);
    yield Uint8Array.from([...Array(1023).fill(0xc1), 0]);
    yield encode(Array.from({ length: 1000 }, () => []), LARGE);
    yield encode(Array.from({ length: 1000 }, () => new Map()), LARGE);
    yield encode(Array(1000).fill(''), LARGE);
    yield encode(Array(1000).fill(new Uint8Array(0)), LARGE);
    yield encode('é'.repeat(500), LARGE);
    yield encode(Array(300).fill('é'), LARGE);
    yield encode(Array.from({ length: 110 }, (_, i) => 2n ** 64n - 1n - BigInt(i)), LARGE);
    yield encode(new Map(Array.from({ length: 50 }, (_, i) => [2n ** 64n - 1n - BigInt(i), new Tag(2n ** 64n - 1n, null)])), LARGE);
    yield encode(new Map(Array.from({ length: 180 }, (_, i) => [[i], i])), LARGE);
    yield encode(Object.fromEntries(Array.from({ length: 140 }, (_, i) => [`k${i}`, i])), LARGE);
}

test('no item of 1 KiB takes more than a millisecond beyond its check', () => {
    for (const data of kibibytes()) {
        assert.ok(data.length <= 1024);
        decode(data, LARGE); // compiled before it is measured
        const most = millisecond(checkCanonical), time = beyond(() => decode(data, LARGE), () => checkCanonical(data, LARGE), most);
        assert.ok(time <= most, `${Buffer.from(data.subarray(0, 20)).toString('hex')}..: ${time} ms`);
    }
});

// ---- space

const HUGE = 600e6;
const PAGES = 160; // of 64 KiB: 10 MiB, ten times the usual limit

test('600 MB are refused without a copy of them', async () => {
    const library = await load(limitedMemory(wasm, PAGES)), data = new Uint8Array(HUGE), one = Uint8Array.of(0);
    const long = new Uint8Array(HUGE);
    long.set(bytes('5a23c34000'));
    for (const [input, refusal] of [[data, [12, 1, 1]], [long, [2, MIB, MIB]]]) {
        for (const call of ['canonicalise', 'check', 'checkCanonical', 'decode', 'diagnostic']) {
            assert.deepEqual(resultOf(() => library[call](input)), refusal, call);
        }
        assert.deepEqual(resultOf(() => library.decode(input, { canonical: true })), refusal);
        assert.deepEqual(resultOf(() => library.same(input, one)), refusal);
        assert.deepEqual(resultOf(() => library.same(one, input)), refusal);
    }
    assert.equal(library.items(data).next().value.length, 1);
    assert.deepEqual(resultOf(() => [...library.items(long)]), [2, MIB, MIB]);
    assert.equal(library.events(data).next().value.offset, 0);
});

/** The size of the largest array of bytes that is made while something runs. */
function largestArray(run) {
    const own = globalThis.Uint8Array;
    let largest = 0;
    globalThis.Uint8Array = new Proxy(own, {
        construct(target, words, newTarget) {
            if (typeof words[0] === 'number') largest = Math.max(largest, words[0]);
            return Reflect.construct(target, words, newTarget);
        },
    });
    try {
        run();
    } finally {
        globalThis.Uint8Array = own;
    }
    return largest;
}

test('a long string is not copied to be refused', () => {
    const long = new Uint8Array(100e6), texts = ['a'.repeat(50e6), 'é'.repeat(50e6), '😀'.repeat(20e6)];
    for (const value of [long, [1, { a: long }], ...texts]) {
        const largest = largestArray(() => assert.deepEqual(resultOf(() => encode(value)), [2, MIB, MIB]));
        // a text needs three bytes for each of its characters within the limit
        assert.ok(largest > MIB && largest < 4 * MIB, `${largest} bytes`);
    }
    for (const text of texts) assert.deepEqual(resultOf(() => encode(text, { maxBytes: 0 })), [2, 0, 0]);
});

test('under each limit, what is refused is what is refused of all bytes', async () => {
    const { instance: { exports: x } } = await WebAssembly.instantiate(wasm, {});
    const input = x.allocate(4096n), output = x.allocate(65536n), results = x.allocate(48n), refusal = results + 16n;
    const refused = status => {
        if (status === 0) return undefined;
        const words = new DataView(x.memory.buffer, Number(refusal));
        return [words.getUint32(0, true), Number(words.getBigUint64(8, true)), Number(words.getBigUint64(16, true))];
    };
    let count = 0;
    for (const { given, depth, keys } of rows) {
        const data = bytes(`${given}00`), n = BigInt(data.length), kinds = keys === 'basic' ? 1 : 0;
        if (data.length > 100) continue;
        new Uint8Array(x.memory.buffer).set(data, Number(input));
        for (let limit = 0; limit < data.length; limit++) {
            const options = { depth, keys, maxBytes: limit }, numbers = [kinds, depth, BigInt(limit)];
            assert.deepEqual(resultOf(() => check(data, options)), refused(x.naltvigo_check_valid_raw(input, n, ...numbers, refusal)), given);
            const strict = refused(x.naltvigo_check_canonical_raw(input, n, 0, ...numbers, refusal));
            assert.deepEqual(resultOf(() => checkCanonical(data, options)), strict, given);
            const wanted = refused(x.naltvigo_canonicalise_raw(input, n, 0, ...numbers, output, 65536n, results, refusal));
            const found = resultOf(() => canonicalise(data, options));
            assert.deepEqual(found instanceof Uint8Array ? undefined : found, wanted, given);
            const text = refused(x.naltvigo_diagnostic_raw(input, n, ...numbers, output, 65536n, results, refusal));
            const shown = resultOf(() => diagnostic(data, options));
            assert.deepEqual(typeof shown === 'string' ? undefined : shown, text, given);
            count++;
        }
    }
    assert.ok(count > 1000);
});

test('a long sequence is not copied whole, however long an item may be', async () => {
    const library = await load(limitedMemory(wasm, PAGES)), data = Uint8Array.from(Buffer.alloc(20e6, encode(new Uint8Array(9997))));
    for (const maxBytes of [1 << 20, 1 << 26, 2 ** 40]) {
        assert.equal([...library.items(data, { maxBytes })].length, 2000, `${maxBytes}`);
    }
});

test('a sequence of items of any length needs no more space than one of them', async () => {
    const library = await load(limitedMemory(wasm, PAGES)), parts = [];
    for (const length of [0, 1, 65530, 65531, 65532, 65536, 131072, 200000, MIB - 5, 3, MIB - 5, 70000, 70000]) {
        const string = new Uint8Array(5 + length);
        string.set([0x5a, length >> 24, length >> 16 & 255, length >> 8 & 255, length & 255]);
        parts.push(string, Uint8Array.of(0));
    }
    for (let i = 0; i < 20; i++) parts.push(...parts.slice(0, 26));
    const data = Uint8Array.from(Buffer.concat(parts));
    assert.ok(data.length > 50e6);
    const lengths = [];
    for (const item of library.items(data)) lengths.push(item.length);
    assert.deepEqual(lengths, parts.map(it => it.length));
    // and one byte more than the limit allows is refused as that item alone is
    const [start] = [data.length];
    const more = Buffer.concat([data, bytes('5a000ffffc'), new Uint8Array(MIB)]);
    assert.throws(() => [...library.items(more)], error => {
        assert.ok(error instanceof Refused);
        assert.deepEqual([error.item, error.start, error.reason, error.offset], [parts.length + 1, start, 2, MIB]);
        return true;
    });
});
