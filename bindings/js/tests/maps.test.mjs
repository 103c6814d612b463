// What maps become: a Map, a SortedMap if it is large and has keys that a stranger can choose, or an object.
import assert from 'node:assert/strict';
import { inspect } from 'node:util';
import { test } from 'node:test';
import { decode, DecodeError, encode, SortedMap } from 'naltvigo';
import { hex } from './given.mjs';
import { encoded } from './reference.mjs';

const LARGE = { maxBytes: 1 << 24 };

/** A map of this many pairs, whose keys are made from the numbers from 0. */
const mapOf = (count, keyOf = i => i) => new Map(Array.from({ length: count }, (_, i) => [keyOf(i), -i]));
const decoded = (map, options = LARGE) => decode(encode(map, LARGE), options);

test('on both sides of the threshold', () => {
    for (const [keyOf, isSorted] of [
        [i => i, true], [i => -1 - i, true], [i => 2n ** 63n + BigInt(i), true], [i => `${i}`, true], [i => `9${i}x`, true],
        [i => `k${i}`, false], [i => `-${i}`, false], [i => [i], false],
        [i => (i === 200 ? 7 : `k${i}`), true], [i => (i === 0 ? '0' : `k${i}`), true], [i => (i === 0 ? undefined : `k${i}`), false],
    ]) {
        for (const count of [0, 1, 254, 255, 256, 257, 1000]) {
            const map = decoded(mapOf(count, keyOf));
            assert.equal(map instanceof SortedMap, isSorted && count > 255, `${keyOf} ${count}`);
            assert.ok(map instanceof Map);
            assert.equal(map.size, count);
            assert.equal(hex(encode(map)), hex(encode(mapOf(count, keyOf))));
        }
    }
});

test('70,000 pairs, and 65,535 and 65,536, of integers and texts', () => {
    for (const count of [65535, 65536, 70000]) {
        for (const keyOf of [i => i, i => `k${i}`, i => (i % 2 ? i : `${i}`)]) {
            const map = decoded(mapOf(count, keyOf));
            assert.equal(map.size, count);
            for (let i = 0; i < count; i++) if (map.get(keyOf(i)) !== -i && i > 0) assert.fail(`${i}`);
            assert.equal([...map.keys()].length, count);
        }
    }
});

const MIXED = [
    ...Array.from({ length: 300 }, (_, i) => 3 * i), ...Array.from({ length: 100 }, (_, i) => -1 - 7 * i), 2n ** 53n, 2n ** 64n - 1n, -(2n ** 64n),
    '', 'a', 'b', 'ab', '0', '00', '10', '9', 'é', '\u{10000}', '\uffff', 'z'.repeat(300), false, true, null, undefined,
];

test('a SortedMap has the entries and finds the keys of a Map, in both orders', () => {
    const list = [0], pairs = [...MIXED.map((key, i) => [key, i]), [list, 'list']];
    for (const order of ['bytewise', 'length']) {
        const sorted = decode(encode(new Map(pairs), { order }), { order }), map = new Map(sorted), seen = [];
        assert.ok(sorted instanceof SortedMap && !(map instanceof SortedMap));
        assert.equal(sorted.size, pairs.length);
        assert.equal(hex(encode(sorted, { order })), hex(encoded(new Map(pairs), order)));
        assert.deepEqual([...sorted.keys()], [...map.keys()]);
        assert.deepEqual([...sorted.values()], [...map.values()]);
        assert.deepEqual([...sorted.entries()], [...map]);
        sorted.forEach(function (value, key, whole) { seen.push([key, value, whole === sorted, this]); }, 'self');
        assert.deepEqual(seen.map(it => it.slice(0, 2)), [...map]);
        assert.ok(seen.every(([, , isWhole, self]) => isWhole && self === 'self'));
        for (const [key, value] of map) {
            assert.equal(sorted.get(key), value);
            assert.ok(sorted.has(key));
        }
        const absent = [1, -2, 1n, 0n, 2 ** 53 + 2, 2n ** 53n + 1n, 'c', '1', '-1', 'aa', 'zz', [0], {}, NaN, Infinity, 0.5, Symbol('s')];
        for (const key of absent) assert.deepEqual([sorted.get(key), sorted.has(key)], [undefined, false], String(key));
        assert.ok(sorted.has(-0));
        assert.equal(sorted.get([...map.keys()].find(Array.isArray)), 'list');
    }
});

test('a SortedMap cannot be changed, nor cloned to nothing', () => {
    const sorted = decoded(mapOf(300));
    for (const change of [it => it.set(1, 2), it => it.delete(1), it => it.clear()]) {
        assert.throws(() => change(sorted), error => error instanceof TypeError && /new Map\(sorted\)/.test(error.message));
    }
    assert.equal(sorted.size, 300);
    assert.throws(() => structuredClone(sorted), /SortedMap has no structured clone/);
    assert.equal(structuredClone(new Map(sorted)).size, 300);
    assert.match(inspect(sorted), /^SortedMap\(300\) of Map\(100\) \{\s+0 => .* and 200 more$/s);
    assert.equal(Object.prototype.toString.call(sorted), '[object Map]');
});

test('maps as objects', () => {
    const objects = (value, options) => decode(encode(value), { maps: 'object', ...options });
    assert.deepEqual(objects({ b: 1, aa: { c: [] } }), { b: 1, aa: { c: [] } });
    assert.deepEqual(objects([{}, { 1: 2, x: null }, undefined]), [{}, { 1: 2, x: null }, undefined]);
    assert.equal(Object.getPrototypeOf(objects({})), Object.prototype);
    const large = objects(mapOf(1000, i => `k${i}`));
    assert.equal(Object.keys(large).length, 1000);
    assert.equal(large.k999, -999);
    assert.equal(hex(encode(large)), hex(encode(mapOf(1000, i => `k${i}`))));
    assert.throws(() => decode(encode(1), { maps: 'objects' }), RangeError);
    assert.throws(() => decode(encode(1), { maps: 1 }), RangeError);
});

test('a property that is undefined is left out, and a pair of a Map is not', () => {
    assert.equal(hex(encode({ a: undefined })), 'a0');
    assert.equal(hex(encode({ c: 1, a: undefined, b: [undefined, { x: undefined }] })), 'a2616282f7a0616301');
    assert.equal(hex(encode(new Map([['a', undefined]]))), 'a16161f7');
    assert.equal(hex(encode(Object.fromEntries(Array.from({ length: 200 }, (_, i) => [`k${i}`, i % 2 ? undefined : 0])))).slice(0, 4), 'b864');
    // a getter is read once, whatever it then returns
    let count = 0;
    assert.equal(hex(encode({ get a() { return count++ ? undefined : 5; } })), 'a1616105');
    // what is decoded as objects has the same bytes when it is encoded again
    assert.throws(() => decode(encode([new Map([['a', undefined]])]), { maps: 'object' }), error => {
        assert.deepEqual([error instanceof DecodeError, error.path], [true, '$[0]."a"']);
        assert.match(error.message, /the value is undefined/);
        return true;
    });
});

test('a name is a property of the object itself, whatever Object.prototype has', () => {
    for (const name of ['__proto__', 'constructor', 'toString', 'hasOwnProperty', '__defineGetter__', 'valueOf']) {
        const object = decode(encode(new Map([[name, { polluted: 1 }], ['x', 2]])), { maps: 'object' });
        assert.deepEqual(Object.keys(object).sort(), [name, 'x'].sort());
        const { value, writable, enumerable, configurable } = Object.getOwnPropertyDescriptor(object, name);
        assert.deepEqual([value, writable, enumerable, configurable], [{ polluted: 1 }, true, true, true]);
        assert.equal(Object.getPrototypeOf(object), Object.prototype);
        assert.equal(hex(encode(object)), hex(encode(new Map([[name, new Map([['polluted', 1]])], ['x', 2]]))));
    }
    assert.equal({}.polluted, undefined);
});

test('a key that is not a text makes no object', () => {
    for (const [value, path] of [
        [new Map([[1, 2]]), '$, key 1 of the map'],
        [{ a: [0, new Map([['', 0], [[], 0]])] }, '$."a"[1], key 2 of the map'],
        [[0, { x: new Map([[new Map([['y', 0]]), 0]]) }], '$[1]."x", key 1 of the map'],
    ]) {
        assert.throws(() => decode(encode(value), { maps: 'object' }), error => {
            assert.ok(error instanceof DecodeError && error instanceof TypeError);
            assert.deepEqual([error.name, error.path], ['DecodeError', path]);
            assert.match(error.message, /^naltvigo: at \$.*: the key is not a text/);
            return true;
        });
    }
});
