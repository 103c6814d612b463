// Memory that the engine refuses, and calls that do not return.
import assert from 'node:assert/strict';
import { readFileSync } from 'node:fs';
import { test } from 'node:test';
import { hasMemory64, load } from 'naltvigo/load';
import { canonicalise as shared } from 'naltvigo';
import { bytes, hex } from './given.mjs';
import { limitedMemory } from './limited_memory.mjs';

const wasm = readFileSync(new URL(`../wasm/naltvigo${hasMemory64() ? 64 : 32}.wasm`, import.meta.url));

/** A map of this many pairs, the greatest key first: canonicalise must sort them. */
function unsorted(count) {
    const data = new Uint8Array(5 + 6 * count), view = new DataView(data.buffer);
    data[0] = 0xba;
    view.setUint32(1, count);
    for (let i = 0; i < count; i++) {
        data[5 + 6 * i] = 0x1a;
        view.setUint32(6 + 6 * i, 0x10000 + count - i);
    }
    return data;
}

const isOutOfMemory = error => error instanceof RangeError && error.message === 'naltvigo: out of memory';

test('with more memory step by step: out of memory, until there is enough', async () => {
    const data = unsorted(20000), options = { maxBytes: 1 << 24 }, wanted = hex(shared(data, options));
    const small = bytes('bf6346756ef563416d7421ff');
    let refused = 0, succeeded = 0;
    for (let pages = 0; !succeeded || pages < 4; pages++) {
        assert.ok(pages < 300);
        let library;
        try {
            library = await load(limitedMemory(wasm, pages));
        } catch (error) {
            assert.ok(isOutOfMemory(error), String(error));
            continue;
        }
        try {
            assert.equal(hex(library.canonicalise(data, options)), wanted);
            succeeded++;
        } catch (error) {
            assert.ok(isOutOfMemory(error), String(error));
            refused++;
        }
        // small calls then work as before
        assert.equal(hex(library.canonicalise(small)), 'a263416d74216346756ef5');
        assert.equal(library.diagnostic(small), '{"Fun": true, "Amt": -2}');
        assert.equal(hex(library.encode(library.decode(small))), 'a263416d74216346756ef5');
    }
    assert.ok(refused > 5 && succeeded > 0, `${refused} ${succeeded}`);
});

test('each early request for memory refused', async () => {
    const { instance } = await WebAssembly.instantiate(limitedMemory(wasm, 128), {}), x = instance.exports;
    const data = unsorted(300), wanted = hex(shared(data)), n = BigInt(data.length);
    const input = x.allocate(n), output = x.allocate(n), results = x.allocate(48n);
    new Uint8Array(x.memory.buffer).set(data, Number(input));
    const canonicalise = () => x.naltvigo_canonicalise_raw(input, n, 0, 0, 64, 1n << 20n, output, n, results, results + 16n);
    // All memory is taken, some of it in blocks of each size; then one block of each size is given back at a time.
    const blocks = size => ({ size, held: Array.from({ length: 20 }, () => x.allocate(BigInt(size))) });
    const small = [16, 32, 64, 128, 256, 512, 1024, 2048, 4096, 8192, 16384, 32768, 65536].map(blocks);
    for (let size = 1 << 22; size >= 16; size /= 2) while (x.allocate(BigInt(size)) !== 0n);
    let refused = 0;
    for (; canonicalise() !== 0; refused++) {
        assert.equal(canonicalise(), 3);
        assert.equal(new DataView(x.memory.buffer).getUint32(Number(results) + 16, true), 19);
        for (const { held } of small) x.release(held.pop());
    }
    assert.ok(refused > 1, `${refused} times refused`);
    assert.equal(hex(new Uint8Array(x.memory.buffer, Number(output), wanted.length / 2)), wanted);
});

test('an instance whose call did not return is never called again', async () => {
    const library = await load(wasm), deep = bytes('bf6346756ef563416d7421ff');
    // JavaScript's own stack ends somewhere within a call of the module
    let ended = 0;
    const descend = () => {
        try {
            descend();
        } catch (error) {
            assert.ok(error instanceof RangeError);
        }
        try {
            library.canonicalise(deep);
        } catch (error) {
            assert.ok(error instanceof RangeError);
            ended++;
            throw error;
        }
    };
    try {
        descend();
    } catch (error) {
        assert.ok(error instanceof RangeError);
    }
    assert.ok(ended > 0);
    for (let i = 0; i < 1000; i++) assert.equal(hex(library.canonicalise(deep)), 'a263416d74216346756ef5');
});

test('a trap within a call', async () => {
    const module = await WebAssembly.compile(wasm), { instance } = await WebAssembly.instantiate(wasm, {});
    const { Library } = await import('../src/instance.js');
    const library = new Library(module, instance), first = library.instance();
    assert.equal(library.instance(), first);
    const { naltvigo_version_raw: version } = first.exports;
    const trap = () => { version(); throw new WebAssembly.RuntimeError('unreachable'); };
    assert.throws(() => first.run(trap), WebAssembly.RuntimeError);
    const second = library.instance();
    assert.notEqual(second, first);
    assert.notEqual(second.exports.memory, first.exports.memory);
    assert.equal(library.instance(), second);
});

test('no call takes more of its stack than the header says, at any depth', async () => {
    const { instance } = await WebAssembly.instantiate(wasm, {}), x = instance.exports, STACK = 131072, HEADER_SAYS = 65536;
    const around = (opener, depth, inner) => opener.repeat(depth) + inner + '00'.repeat(opener === 'a1' ? depth : 0);
    const shapes = [];
    for (const opener of ['81', 'c1', 'a100', 'a1', '9f', 'bf00', 'bf', 'a200']) {
        for (const depth of [0, 64, 1023, 1024]) {
            for (const inner of ['00', 'ff', 'f9', '7f6161ff', '61ff', '', '0000']) shapes.push(around(opener, depth, inner));
        }
    }
    const input = x.allocate(65536n), output = x.allocate(1n << 20n), results = x.allocate(48n), checker = x.allocate(8n);
    const options = [0, 0, 1024, 1n << 20n];
    const calls = {
        canonicalise: (p, n) => x.naltvigo_canonicalise_raw(p, n, ...options, output, 1n << 20n, results, results + 16n),
        check: (p, n) => x.naltvigo_check_valid_raw(p, n, ...options.slice(1), results + 16n),
        checkCanonical: (p, n) => x.naltvigo_check_canonical_raw(p, n, ...options, results + 16n),
        same: (p, n) => x.naltvigo_compare_raw(p, n, p, n, ...options.slice(1), results + 8n, results + 16n),
        diagnostic: (p, n) => x.naltvigo_diagnostic_raw(p, n, ...options.slice(1), output, 1n << 20n, results, results + 16n),
        inParts: (p, n) => {
            x.naltvigo_checker_new_raw(...options, checker);
            x.naltvigo_checker_feed_raw(checker, p, n, results, results + 16n);
            x.naltvigo_checker_end_raw(checker, results + 16n);
            x.naltvigo_checker_free_raw(checker);
        },
    };
    for (const [name, call] of Object.entries(calls)) {
        let most = 0;
        for (const data of shapes.map(bytes)) {
            const memory = new Uint8Array(x.memory.buffer);
            memory.fill(0xa5, 0, STACK);
            memory.set(data, Number(input));
            call(input, BigInt(data.length));
            const written = new Uint8Array(x.memory.buffer, 0, STACK);
            most = Math.max(most, STACK - written.findIndex(byte => byte !== 0xa5));
        }
        assert.ok(most > 0 && most <= HEADER_SAYS, `${name} takes ${most} bytes of the stack`);
    }
});

test('load takes bytes, a module, a response, and promises of them', async () => {
    const module = await WebAssembly.compile(wasm);
    const response = () => new Response(wasm, { headers: { 'content-type': 'text/plain' } });
    const promises = [wasm, module, response()].map(it => Promise.resolve(it));
    for (const source of [wasm, new Uint8Array(wasm).buffer, module, response(), ...promises]) {
        const library = await load(source);
        assert.equal(hex(library.canonicalise(bytes('1800'))), '00');
        assert.ok(Object.isFrozen(library));
    }
    await assert.rejects(load(bytes('00')), WebAssembly.CompileError);
});

test('a machine of events outlives an instance', async () => {
    const library = await load(wasm), found = [], events = library.events([bytes('8301'), bytes('02'), bytes('03')]);
    found.push(events.next().value.kind, events.next().value.number);
    const exhaust = () => { try { exhaust(); } catch { /* the stack is at its end */ } library.check(bytes('00')); };
    try { exhaust(); } catch { /* here too */ }
    for (const { number } of events) found.push(number);
    assert.deepEqual(found, ['array', 1, 2, 3]);
});

test('large inputs and outputs, one after another', async () => {
    const library = await load(wasm), options = { maxBytes: 1 << 26 };
    for (const size of [0, 1, 255, 256, 257, 65535, 65536, 1 << 20, (1 << 24) + 3, 5]) {
        const data = new Uint8Array(5 + size).fill(size), view = new DataView(data.buffer);
        data[0] = 0x5a;
        view.setUint32(1, size);
        const canonical = library.canonicalise(data, options);
        assert.equal(Buffer.compare(canonical.subarray(canonical.length - size), data.subarray(5)), 0);
        assert.equal(library.same(data, canonical, options), true);
    }
});
