// Tests of heap_of_module.c, in the module that scripts/test_web.sh makes of it and heap_test.c and names in HEAP.
import assert from 'node:assert/strict';
import { readFileSync } from 'node:fs';
import { test } from 'node:test';
import { limitedMemory } from '../bindings/js/tests/limited_memory.mjs';

const bytes = readFileSync(process.env.HEAP);
const heap = (given = bytes) => new WebAssembly.Instance(new WebAssembly.Module(given), {}).exports;
const memoryOf = x => new Uint8Array(x.memory.buffer);
const PAGE = 65536;

/** Numbers that are the same in every run. */
function random(seed) {
    let state = seed;
    return below => {
        state = Math.imul(state ^ state >>> 15, 0x2c1b3c6d) + 0x9e3779b9 | 0;
        return (state >>> 0) % below;
    };
}

test('every size gets its own block, aligned and large enough', () => {
    const x = heap(), sizes = [...Array(5000).keys()];
    for (let power = 13; power <= 29; power++) sizes.push(2 ** power - 1, 2 ** power, ...(power < 29 ? [2 ** power + 1] : []));
    const blocks = sizes.map(size => [Number(x.allocate(BigInt(size))), size]);
    for (const [pointer, size] of blocks) {
        assert.ok(pointer > 131072 && pointer % 16 === 0, `${size} bytes at ${pointer}`);
        assert.ok(pointer + size <= x.memory.buffer.byteLength, `${size} bytes at ${pointer}`);
    }
    blocks.sort((a, b) => a[0] - b[0]);
    for (let i = 1; i < blocks.length; i++) assert.ok(blocks[i - 1][0] + Math.max(blocks[i - 1][1], 16) + 16 <= blocks[i][0]);
});

test('a released block is used again only for its size', () => {
    const x = heap();
    for (let size = 1; size < 70000; size = size * 2 - (size > 40 ? 3 : 0)) {
        const one = x.allocate(BigInt(size)), next = x.allocate(BigInt(size));
        x.release(one);
        assert.notEqual(x.allocate(BigInt(4 * size + 64)), one);
        assert.equal(x.allocate(BigInt(size)), one);
        x.release(one);
        x.release(next);
        assert.equal(x.allocate(BigInt(size)), next);
        assert.equal(x.allocate(BigInt(size)), one);
    }
    const before = x.memory.buffer.byteLength;
    for (let i = 0; i < 1000000; i++) x.release(x.allocate(BigInt(i % 3000)));
    assert.equal(x.memory.buffer.byteLength, before);
});

test('blocks keep what is written to them, whatever happens to others', () => {
    const x = heap(), below = random(1), live = [];
    const fill = (block, from = 0) => {
        const memory = memoryOf(x);
        for (let i = from; i < block.size; i++) memory[block.at + i] = block.seed + i * 31;
    };
    const holds = (block, size = block.size) => {
        const memory = memoryOf(x);
        for (let i = 0; i < size; i++) if (memory[block.at + i] !== (block.seed + i * 31 & 255)) return false;
        return true;
    };
    for (let turn = 0; turn < 20000; turn++) {
        const which = below(4), size = below(10) ? below(200) : below(20000);
        if (which < 2 || !live.length) {
            const block = { at: Number(x.try_alloc(BigInt(size), 8n)), size, seed: below(256) };
            assert.notEqual(block.at, 0);
            fill(block);
            live.push(block);
        } else if (which === 2) {
            const [block] = live.splice(below(live.length), 1);
            assert.ok(holds(block));
            x.dealloc(BigInt(block.at));
        } else {
            const block = live[below(live.length)], kept = Math.min(block.size, size);
            block.at = Number(x.try_realloc(BigInt(block.at), BigInt(kept), BigInt(size), 8n));
            assert.ok(holds(block, kept));
            block.size = size;
            fill(block, kept);
        }
    }
    assert.ok(live.every(block => holds(block)));
});

test('if the memory may not grow, a request is refused, and everything else continues', () => {
    for (const pages of [0, 1, 2, 16, 100]) {
        const x = heap(limitedMemory(bytes, pages)), most = x.memory.buffer.byteLength + pages * PAGE, blocks = [];
        for (let at; (at = x.try_alloc(1000n, 8n)) !== 0n;) {
            memoryOf(x).fill(blocks.length, Number(at), Number(at) + 1024);
            blocks.push(at);
        }
        assert.ok(x.memory.buffer.byteLength <= most);
        assert.ok(blocks.length >= Math.floor(pages * PAGE / 1040) - 1, `${blocks.length} blocks in ${pages} pages`);
        assert.equal(x.allocate(1000n), 0n);
        assert.equal(x.is_valid(1000n), 1);
        if (!blocks.length) continue;
        assert.equal(x.try_realloc(blocks[0], 1000n, 2000n, 8n), 0n);
        const contentOf = at => memoryOf(x).subarray(Number(at), Number(at) + 1024);
        blocks.forEach((at, i) => assert.ok(contentOf(at).every(byte => byte === (i & 255))));
        x.release(blocks[0]);
        assert.equal(x.try_alloc(600n, 8n), blocks[0]);
        assert.equal(x.try_alloc(600n, 8n), 0n);
    }
});

test('a request beyond the address space is refused', () => {
    const x = heap(), before = x.memory.buffer.byteLength;
    for (const size of [2n ** 31n + 1n, 2n ** 32n, 2n ** 32n + 100n, 2n ** 40n, 2n ** 63n, 2n ** 64n - 1n]) {
        assert.equal(x.allocate(BigInt.asIntN(64, size)), 0n);
        assert.equal(x.is_valid(BigInt.asIntN(64, size)), 1);
    }
    assert.equal(x.memory.buffer.byteLength, before);
    assert.notEqual(x.allocate(100n), 0n);
});
