// What the package passes to the module, whatever an input says of itself.
import assert from 'node:assert/strict';
import { readFileSync } from 'node:fs';
import { test } from 'node:test';
import * as naltvigo from 'naltvigo';
import { load } from 'naltvigo/load';
import * as calls from '../src/calls.js';
import { checkerOf } from '../src/checker.js';
import { decode } from '../src/decode.js';
import { encode } from '../src/encode.js';
import { events } from '../src/events.js';
import { Library, wordsAt } from '../src/instance.js';
import { items } from '../src/items.js';
import { Output } from '../src/output.js';
import { resultOf, bytes, hex } from './given.mjs';
import { limitedMemory } from './limited_memory.mjs';

const wasm = readFileSync(new URL('../wasm/naltvigo32.wasm', import.meta.url));
const header = readFileSync(new URL('../../../include/naltvigo.h', import.meta.url), 'utf8');

/** Of each export, by its declaration in the header, which of its parameters are pointers. */
const POINTERS = new Map([...header.matchAll(/^(?:uint32_t|size_t) (naltvigo_\w+_raw)\(([^)]*)\)/gm)]
    .map(([, name, list]) => [name, list.split(',').map(it => it.includes('*'))]));

/** A library whose module refuses a null pointer, and counts what is called. */
async function watched() {
    const { module, instance } = await WebAssembly.instantiate(wasm, {}), called = new Set();
    const exports = Object.fromEntries(Object.entries(instance.exports).map(([name, value]) => {
        const pointers = POINTERS.get(name);
        return [name, pointers === undefined ? value : (...given) => {
            called.add(name);
            pointers.forEach((isPointer, i) => assert.ok(!isPointer || given[i] > 0n, `${name}: parameter ${i} is null`));
            return value(...given);
        }];
    }));
    return { library: new Library(module, { exports }), called };
}

test('no pointer is null, in the first call and with no bytes', async () => {
    const none = new Uint8Array(0), called = new Set();
    const all = {
        ...calls, decode, encode, same: (library, data, options) => calls.same(library, data, data, options),
        items: (library, data, options) => [...items(library, data, options)],
        canonicalItems: (library, data) => [...items(library, data, { canonical: true })],
        events: (library, data, options) => [...events(library, data, options)],
        strictly: (library, data) => decode(library, data, { canonical: true }),
        inParts: (library, data, options) => {
            const checker = new (checkerOf(library))(options);
            checker.feed(data);
            checker.end();
        },
    };
    delete all.canonicalRegion;
    delete all.canonicalBytes;
    for (const [name, call] of Object.entries(all)) {
        for (const data of [none, Uint8Array.of(0), Uint8Array.of(0x40), Uint8Array.of(0x18, 0), new Uint8Array(70000)]) {
            for (const options of [undefined, { maxBytes: 0 }]) {
                const { library, called: own } = await watched();
                if (name === 'version') call(library);
                else if (name === 'canonicalItems' || name === 'strictly') resultOf(() => call(library, data));
                else resultOf(() => call(library, data, options));
                for (const it of own) called.add(it);
            }
        }
    }
    assert.ok(POINTERS.size > 10 && called.size >= 11, [...called].join());
});

const honest = bytes(`5903e8${'07'.repeat(1000)}`);

/** Uint8Arrays with these bytes that say something else of themselves. */
function liars() {
    class Short extends Uint8Array { get length() { return 1; } }
    class Long extends Uint8Array { get length() { return 100000; } }
    class Moved extends Uint8Array { get byteOffset() { return 3; } get byteLength() { return 1; } get buffer() { return new ArrayBuffer(8); } }
    class Cut extends Uint8Array { subarray() { return Uint8Array.of(0); } slice() { return Uint8Array.of(0); } set() {} }
    class Other extends Uint8Array { static get [Symbol.species]() { return Uint16Array; } }
    class Nameless extends Uint8Array { get [Symbol.toStringTag]() { return 'Map'; } }
    const own = honest.slice();
    Object.defineProperty(own, 'length', { value: 2 });
    return [...[Short, Long, Moved, Cut, Other, Nameless].map(Liar => new Liar(honest)), own];
}

test('a Uint8Array that says something else of itself is taken for the bytes that it has', () => {
    const names = ['canonicalise', 'check', 'checkCanonical', 'decode', 'diagnostic'];
    const wanted = names.map(name => naltvigo[name](honest));
    for (const data of liars()) {
        assert.deepEqual(names.map(name => naltvigo[name](data)), wanted);
        assert.equal(naltvigo.same(data, honest), true);
        assert.equal(naltvigo.same(honest, data), true);
        assert.deepEqual([...naltvigo.items(data)].map(hex), [hex(honest)]);
        assert.deepEqual([...naltvigo.events(data)].map(it => it.number), [1000, 1000]);
        assert.deepEqual([...naltvigo.events([data])].map(it => it.number), [1000, 1000]);
        assert.equal(new naltvigo.Checker().feed(data), honest.length);
        assert.deepEqual(naltvigo.encode(data), naltvigo.encode(honest));
        assert.deepEqual(names.map(name => naltvigo[name](honest)), wanted);
    }
    class Short extends DataView { get byteLength() { return 1; } }
    assert.deepEqual(naltvigo.decode(new Short(honest.slice().buffer)), honest.subarray(3));
});

test('what calls itself a buffer is none', () => {
    const fakes = [
        { [Symbol.toStringTag]: 'ArrayBuffer', length: 1, 0: 5, byteLength: 1 },
        { [Symbol.toStringTag]: 'SharedArrayBuffer', length: 1, 0: 5 },
        { [Symbol.toStringTag]: 'Uint8Array', length: 1, 0: 5 },
        Object.create(ArrayBuffer.prototype), Object.create(Uint8Array.prototype), new Proxy(honest, {}), new Proxy(new ArrayBuffer(1), {}),
    ];
    for (const data of fakes) {
        for (const name of ['canonicalise', 'check', 'checkCanonical', 'decode', 'diagnostic', 'items']) {
            assert.throws(() => naltvigo[name](data), TypeError, name);
        }
    }
    const detached = new Uint8Array(8);
    structuredClone(detached, { transfer: [detached.buffer] });
    assert.throws(() => naltvigo.check(detached), TypeError);
});

test('after memory that was refused no block is used that was given back', async () => {
    const library = await load(limitedMemory(wasm, 40)), left = new Uint8Array(1003).fill(1), right = left.slice();
    left.set(bytes('5903e8'));
    right.set(bytes('5903e8'));
    right[500] = 2;
    assert.equal(library.same(left, right), false);
    const huge = new Uint8Array(8 << 20);
    huge.set(bytes('5a007ffffb'));
    assert.throws(() => library.check(huge, { maxBytes: 1 << 24 }), RangeError);
    assert.equal(library.same(left, right), false);
    assert.throws(() => library.same(left, huge, { maxBytes: 1 << 24 }), RangeError);
    assert.equal(library.same(left, right), false);
});

test('after freeMemory a call begins with the memory of a new module', async () => {
    const { module, instance } = await WebAssembly.instantiate(wasm, {}), library = new Library(module, instance);
    const size = () => library.instance().exports.memory.buffer.byteLength, small = size();
    const data = new Uint8Array(5 << 20);
    data.set(bytes('5a004ffffb'));
    assert.equal(calls.canonicalise(library, data, { maxBytes: 1 << 24 }).length, data.length);
    assert.ok(size() > data.length);
    library.freeMemory();
    assert.ok(size() <= small + 65536);
    assert.equal(hex(calls.canonicalise(library, bytes('1800'))), '00');
    // while events and items are being read, too
    const found = [], shared = await load(wasm);
    for (const event of shared.events([bytes('83'), bytes('01'), bytes('02'), bytes('03')])) {
        found.push(event.number);
        shared.freeMemory();
    }
    for (const item of shared.items(bytes('010203'))) {
        found.push(item[0]);
        shared.freeMemory();
    }
    assert.deepEqual(found, [3, 1, 2, 3, 1, 2, 3]);
});

test('a buffer for what is written is kept only if it is small', () => {
    const small = Output.lent(undefined, 1n);
    small.reserve(1 << 20);
    assert.ok(small.bytes.length >= 1 << 20);
    small.giveBack();
    const next = Output.lent(undefined, 1n);
    assert.ok(next.bytes.length <= 1 << 16);
    next.giveBack();
    assert.equal(Output.lent(undefined, 1n), next);
});

test('the numbers of the table are read alike on a big-endian machine', () => {
    const buffer = Uint8Array.from([9, 9, 9, 9, 1, 2, 3, 4, 255, 0, 0, 128]).buffer;
    assert.deepEqual([...wordsAt(buffer, 4, 2, false)], [0x04030201, 0x800000ff]);
    assert.deepEqual([...wordsAt(buffer, 4, 2)], [0x04030201, 0x800000ff]);
});

test('a module that was not found', async () => {
    const missing = new Response('Not found', { status: 404 });
    await assert.rejects(load(missing), /could not be fetched.*404/);
    await assert.rejects(load(Promise.resolve(missing)), /404/);
    assert.equal(hex((await load(new Blob([wasm]))).canonicalise(bytes('1800'))), '00');
});
