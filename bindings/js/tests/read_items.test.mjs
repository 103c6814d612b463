// The items of a sequence whose bytes come in chunks: the same as of all of its bytes, however it is cut.
import assert from 'node:assert/strict';
import { readFileSync } from 'node:fs';
import { Readable } from 'node:stream';
import { test } from 'node:test';
import { encode, items, readItems, Refused } from 'naltvigo';
import { load } from 'naltvigo/load';
import { bytes, hex, random, rows } from './given.mjs';
import { limitedMemory } from './limited_memory.mjs';

/** The items in hex, and the refusal after them. */
async function all(sequence) {
    const found = [];
    try {
        for await (const item of sequence) found.push(hex(item));
    } catch (error) {
        if (!(error instanceof Refused)) throw error;
        found.push([error.item, error.start, error.reason, error.offset, error.consumed]);
    }
    return found;
}

function cut(data, size) {
    const chunks = [];
    for (let at = 0; at < data.length; at += size) chunks.push(data.subarray(at, at + size));
    return chunks;
}

test('rows of the tables, one after another, in chunks of each length', async () => {
    for (const { given, depth, maxBytes, keys } of rows) {
        const data = Buffer.concat([bytes('1864'), bytes(given), bytes('6161'), bytes(given)]);
        if (data.length > 3000) continue;
        for (const options of [{ depth, maxBytes, keys }, { depth, maxBytes, keys, canonical: true }]) {
            const wanted = await all(items(data, options));
            for (const size of [1, 2, 3, 7, 64, data.length]) assert.deepEqual(await all(readItems(cut(data, size), options)), wanted, `${given} ${size}`);
        }
    }
});

test('damaged sequences, cut at random', async () => {
    const { below, from } = random(5);
    for (let turn = 0; turn < 600; turn++) {
        const parts = Array.from({ length: 1 + below(8) }, () => bytes(from(['00', '1864', '826161f6', '5f4100ff', 'a0', '7f61e261 82 61acff'.replaceAll(' ', ''), 'a2010002 00'.replace(' ', ''), '65c3a9c3a961'])));
        const data = Buffer.concat(parts);
        if (below(2)) data[below(data.length)] = below(256);
        const options = { maxBytes: from([3, 5, 1 << 20]) }, wanted = await all(items(data, options));
        const chunks = [];
        for (let at = 0; at < data.length;) chunks.push(data.subarray(at, at += 1 + below(4)));
        assert.deepEqual(await all(readItems(chunks, options)), wanted, hex(data));
    }
});

test('long items, over many chunks', async () => {
    const lengths = [4095, 4096, 65535, 65536, 65537, 300000], parts = lengths.map(length => encode(new Uint8Array(length).fill(length)));
    const data = Buffer.concat(parts);
    for (const size of [1000, 4096, 65536, 1 << 20]) assert.deepEqual(await all(readItems(cut(data, size))), parts.map(hex));
    const text = encode('é'.repeat(5000)), array = encode(Array(5000).fill('ab'));
    assert.deepEqual(await all(readItems(cut(Buffer.concat([text, array]), 1))), [hex(text), hex(array)]);
});

test('streams of each kind, and no more space than an item', async () => {
    const data = Buffer.from('0182026161a0', 'hex'), wanted = ['01', '82026161', 'a0'];
    async function* later() { for (const chunk of cut(data, 2)) yield chunk; }
    const web = () => new ReadableStream({ start(to) { for (const chunk of cut(data, 4)) to.enqueue(chunk); to.close(); } });
    const withoutIterator = stream => ({ getReader: () => stream.getReader() });
    for (const chunks of [later(), web(), withoutIterator(web()), Readable.from(cut(data, 5)), [], new Set(cut(data, 1))]) {
        assert.deepEqual(await all(readItems(chunks)), Array.isArray(chunks) ? [] : wanted);
    }
    const library = await load(limitedMemory(readFileSync(new URL('../wasm/naltvigo32.wasm', import.meta.url)), 160));
    const item = encode(new Uint8Array(100000)), many = function* () { for (let i = 0; i < 300; i++) yield* cut(item, 30000); };
    let count = 0;
    for await (const found of library.readItems(many())) count += found.length / item.length;
    assert.equal(count, 300);
    assert.deepEqual((await all(library.readItems([bytes('5a23c34000'), new Uint8Array(50e6)]))).at(-1).slice(2), [2, 1 << 20, 1 << 20]);
});

test('it ends where the reader stops, and refuses what is not an iterable', async () => {
    let isEnded = false;
    const stream = new ReadableStream({ pull(to) { to.enqueue(bytes('0102')); }, cancel() { isEnded = true; } });
    for await (const item of readItems(stream)) if (item[0] === 2) break;
    assert.ok(isEnded);
    let isCancelled = false;
    const other = new ReadableStream({ pull(to) { to.enqueue(bytes('0102')); }, cancel() { isCancelled = true; } });
    for await (const item of readItems({ getReader: () => other.getReader() })) if (item[0] === 2) break;
    assert.ok(isCancelled);
    for (const chunks of [undefined, null, 5, '00', {}, bytes('00')]) assert.throws(() => readItems(chunks), TypeError);
    assert.throws(() => readItems([], { depth: -1 }), RangeError);
    await assert.rejects(all(readItems([5])), TypeError);
});
