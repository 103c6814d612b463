// The memory of checkers: where it is refused, when it is given back, and what remains of it when a call does not return.
import assert from 'node:assert/strict';
import { readFileSync } from 'node:fs';
import { setImmediate as turn } from 'node:timers/promises';
import { test } from 'node:test';
import { setFlagsFromString } from 'node:v8';
import { runInNewContext } from 'node:vm';
import { Checker, Refused } from 'naltvigo';
import { hasMemory64, load } from 'naltvigo/load';
import * as calls from '../src/calls.js';
import { checkerOf } from '../src/checker.js';
import { Library } from '../src/instance.js';
import { resultOf, bytes, hex } from './given.mjs';
import { limitedMemory } from './limited_memory.mjs';
import { cut, LARGE, mapOfLong } from './parts.mjs';

const wasm = readFileSync(new URL(`../wasm/naltvigo${hasMemory64() ? 64 : 32}.wasm`, import.meta.url));
const MIB = 1 << 20;

const isOutOfMemory = error => error instanceof RangeError && error.message === 'naltvigo: out of memory';

test('memory that is refused for a key is an error that stays until restart', async () => {
    const library = await load(limitedMemory(wasm, 40)), checker = new library.Checker(LARGE), key = mapOfLong(4 * MIB, [1]);
    let error;
    for (const part of cut(key, 50000)) {
        try {
            checker.feed(part);
        } catch (thrown) {
            error ??= thrown;
            assert.ok(isOutOfMemory(thrown) && thrown === error);
        }
    }
    assert.ok(error && !checker.complete && checker.consumed < key.length);
    assert.throws(() => checker.end(), isOutOfMemory);
    for (let i = 0; i < 3; i++) {
        // all that it had is given back
        checker.restart();
        assert.equal(checker.feed(mapOfLong(200000, [1, 2])), 400013);
        assert.ok(checker.complete);
    }
    assert.equal(hex(library.canonicalise(bytes('1800'))), '00');
});

test('with more memory step by step: out of memory, until there is enough', async () => {
    const data = mapOfLong(100000, [1, 2]);
    let refused = 0, succeeded = 0;
    for (let pages = 0; succeeded < 4; pages++) {
        assert.ok(pages < 100);
        let library;
        try {
            library = await load(limitedMemory(wasm, pages));
        } catch (error) {
            assert.ok(isOutOfMemory(error), String(error));
            continue;
        }
        const checker = new library.Checker(LARGE);
        try {
            for (const part of cut(data, 30000)) checker.feed(part);
            assert.ok(checker.complete);
            succeeded++;
        } catch (error) {
            assert.ok(isOutOfMemory(error), String(error));
            refused++;
        }
        assert.equal(hex(library.canonicalise(bytes('1800'))), '00');
    }
    assert.ok(refused > 2 && succeeded > 0, `${refused} ${succeeded}`);
});

test('a checker gives its memory back when the item is complete or refused, and by free and restart', async () => {
    const library = await load(limitedMemory(wasm, 40)), kept = [], stored = bytes('a1581e' + '00'.repeat(30));
    for (let i = 0; i < 20000; i++) {
        const checker = new library.Checker();
        checker.feed(stored);
        if (i % 4 === 0) checker.feed(bytes('00'));
        else if (i % 4 === 1) assert.throws(() => checker.feed(bytes('ff')), Refused);
        else if (i % 4 === 2) checker.free();
        else checker.restart();
        kept.push(checker);
    }
    assert.deepEqual(kept.slice(0, 4).map(it => it.complete), [true, false, false, false]);
});

test('free: until restart no bytes are taken', () => {
    const checker = new Checker();
    checker.feed(bytes('82'));
    checker.free();
    checker.free();
    for (const call of [() => checker.feed(bytes('00')), () => checker.end()]) assert.throws(call, { message: 'naltvigo: the checker was freed' });
    checker.restart();
    assert.equal(checker.feed(bytes('00')), 1);
    checker.free();
    assert.deepEqual([checker.complete, checker.consumed, checker.feed(bytes('00')), checker.end()], [true, 1, 0, undefined]);
    const refused = new Checker();
    assert.throws(() => refused.feed(bytes('ff')), Refused);
    refused.free();
    assert.throws(() => refused.end(), Refused);
});

test('a checker that cannot be reached any longer gives its memory back', async () => {
    setFlagsFromString('--expose-gc');
    const collect = runInNewContext('gc'), library = await load(limitedMemory(wasm, 40)), part = mapOfLong(100000, [1]).subarray(0, 90000);
    const abandon = () => { for (let i = 0; i < 5; i++) new library.Checker().feed(part); };
    for (let i = 0; i < 20; i++) {
        abandon();
        for (let j = 0; j < 5; j++) {
            collect();
            await turn();
        }
    }
});

test('a large part is not copied whole', async () => {
    const library = await load(limitedMemory(wasm, 160)), long = new Uint8Array(600e6);
    long.set(bytes('5a23c34000'));
    const checker = new library.Checker();
    assert.equal(checker.feed(long.subarray(5)), 1);
    checker.restart();
    assert.deepEqual(resultOf(() => checker.feed(long)), [2, MIB, MIB]);
});

test('an item of 100 MB takes no more memory than a small one', async () => {
    const library = await load(limitedMemory(wasm, 16)), long = new Uint8Array(100e6 + 5);
    long.set(bytes('5a05f5e100'));
    for (const size of [long.length, 3000000, 60000]) {
        const checker = new library.Checker({ maxBytes: 2 ** 30 });
        for (const part of cut(long, size)) assert.equal(checker.feed(part), part.length);
        assert.ok(checker.complete);
    }
});

// ---- calls that do not return

/** Makes a call at the end of JavaScript's own stack, then with more and more of it, until it returns. */
function exhaust(call) {
    let ended = 0, hasReturned = false;
    const descend = () => {
        try {
            descend();
        } catch { /* the stack is at its end */ }
        if (hasReturned) return;
        try {
            call();
            hasReturned = true;
        } catch (error) {
            if (error instanceof RangeError) ended++;
        }
    };
    descend();
    return ended;
}

test('checkers continue when other calls do not return, and after freeMemory', async () => {
    const library = await load(wasm), data = mapOfLong(70000, [1, 2, 3]), deep = bytes('bf6346756ef563416d7421ff');
    const checkers = Array.from({ length: 50 }, () => new library.Checker());
    for (const [i, part] of cut(data, 20000).entries()) {
        for (const checker of checkers) assert.equal(checker.feed(part), part.length);
        if (i % 2) assert.ok(exhaust(() => library.canonicalise(deep)) > 0);
        else library.freeMemory();
        checkers.push(checkers.shift());
    }
    assert.ok(checkers.every(checker => checker.complete && checker.consumed === data.length));
    assert.equal(hex(library.canonicalise(deep)), 'a263416d74216346756ef5');
});

const TRAP = new WebAssembly.RuntimeError('unreachable');

/** A library whose first instance traps where `trapped.feed` says so, and fails if a checker is called there after `trap`. */
async function trapping() {
    const { module, instance } = await WebAssembly.instantiate(wasm, {}), trapped = { feed: false, isAtEnd: false };
    const exports = Object.fromEntries(Object.entries(instance.exports).map(([name, value]) => [name, !name.includes('checker') ? value : (...given) => {
        assert.ok(!trapped.isAtEnd, `${name} is called in an instance that trapped`);
        if (trapped.feed && name.includes('feed')) throw TRAP;
        return value(...given);
    }]));
    const library = new Library(module, { exports });
    const trap = () => {
        assert.throws(() => library.instance().run(() => { throw TRAP; }), TRAP);
        trapped.isAtEnd = true;
    };
    return { library, Checker: checkerOf(library), trapped, trap };
}

test('a checker continues in another instance when its own trapped, time and again', async () => {
    const { library, Checker, trap } = await trapping(), data = mapOfLong(300000, [1, 2]), [first, ...parts] = cut(data, 100000);
    const checker = new Checker(LARGE), late = new Checker(LARGE), others = parts.map(() => new Checker());
    for (const it of [checker, late]) it.feed(first);
    for (const other of others) other.feed(bytes('9a00ffffff'));
    trap();
    for (const [i, part] of parts.entries()) {
        assert.equal(checker.feed(part), part.length);
        assert.ok(exhaust(() => {
            others[i].feed(bytes('00'));
            others[i].end();
        }) > 0);
    }
    assert.deepEqual([checker.complete, checker.consumed], [true, data.length]);
    // after all of these traps, from the first instance
    assert.equal(late.feed(data.subarray(100000)), data.length - 100000);
    assert.ok(late.complete);
    assert.equal(calls.canonicalise(library, bytes('1800')).length, 1);
});

test('an instance that continues with the memory of another takes no more of it', async () => {
    const { module, instance } = await WebAssembly.instantiate(limitedMemory(wasm, 40), {}), library = new Library(module, instance);
    let last = library.instance();
    for (let i = 0; i < 100; i++) {
        last.left.put(new Uint8Array(65536));
        assert.throws(() => last.run(() => { throw TRAP; }), TRAP);
        const next = library.heirOf(last);
        assert.equal(library.heirOf(last), next);
        last = next;
    }
});

test('a checker whose own call trapped says so until restart, and others continue', async () => {
    const { Checker, trapped } = await trapping(), own = new Checker(), other = new Checker();
    own.feed(bytes('82'));
    other.feed(bytes('83'));
    trapped.feed = true;
    assert.throws(() => own.feed(bytes('00')), TRAP);
    trapped.feed = false;
    for (const call of [() => own.feed(bytes('00')), () => own.end()]) {
        assert.throws(call, { message: 'naltvigo: the checker is lost, since a call of it did not return' });
    }
    assert.equal(other.feed(bytes('00616118ff')), 5);
    assert.ok(other.complete);
    own.restart();
    assert.equal(own.feed(bytes('8200f600')), 3);
    own.restart();
    const exhausted = new Checker();
    exhausted.feed(bytes('82'));
    assert.ok(exhaust(() => {
        exhausted.restart();
        exhausted.feed(bytes('00'));
    }) > 0);
    assert.ok(exhausted.complete);
});
