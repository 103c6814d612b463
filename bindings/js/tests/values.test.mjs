// encode and decode, against an encoder of the standard's words, and at the edges.
import assert from 'node:assert/strict';
import { test } from 'node:test';
import vm from 'node:vm';
import { canonicalise, decode, encode, EncodeError, Refused, Simple, Tag } from 'naltvigo';
import { bytes, hex, random } from './given.mjs';
import { EDGES, encoded, isSafe, plain, respelled, some } from './reference.mjs';

test('random values, both ways, in both orders and in other encodings', () => {
    const numbers = random(7);
    for (let turn = 0; turn < 3000; turn++) {
        const value = some(numbers, 4);
        for (const order of ['bytewise', 'length']) {
            const wanted = hex(encoded(value, order));
            assert.equal(hex(encode(value, { order })), wanted);
            assert.equal(hex(encode(decode(bytes(wanted), { order, canonical: true }), { order })), wanted);
        }
        const other = Uint8Array.from(respelled(value, numbers)), wanted = hex(encoded(value));
        assert.equal(hex(canonicalise(other)), wanted);
        assert.deepEqual(decode(other), decode(bytes(wanted)));
        assert.equal(hex(encoded(decode(other))), wanted);
    }
});

test('a decoded value is the one that was encoded', () => {
    const values = [
        0, -1, 23, 24, 2 ** 53 - 1, -(2 ** 53 - 1), 2n ** 53n, -(2n ** 53n), 2n ** 64n - 1n, -(2n ** 64n),
        '', 'a', 'é'.repeat(300), '\ufeffbom', '\0', '😀', new Uint8Array(0), Uint8Array.of(0, 255), [], [[], [[1]]],
        new Map(), new Map([[1, 'a'], ['1', 'b'], [null, new Map()], [undefined, []]]),
        new Tag(0, '2013-03-21T20:04:00Z'), new Tag(2n ** 64n - 1n, undefined),
        new Simple(0), new Simple(255), true, false, null, undefined,
    ];
    for (const value of values) assert.deepEqual(decode(encode(value)), value);
    assert.deepEqual(decode(encode(values.map(value => [value]))), values.map(value => [value]));
});

test('an integer is a number where that is safe, and else a bigint', () => {
    for (const edge of EDGES) {
        for (const number of [edge, -1n - edge]) {
            const wanted = hex(encoded(number));
            assert.equal(hex(encode(number)), wanted);
            assert.equal(decode(bytes(wanted)), plain(number));
            if (isSafe(number)) assert.equal(hex(encode(Number(number))), wanted);
            else assert.throws(() => encode(Number(number)), EncodeError);
        }
    }
    assert.equal(decode(bytes('3b001ffffffffffffe')), -(2 ** 53) + 1);
    assert.equal(decode(bytes('3b001fffffffffffff')), -(2n ** 53n));
    assert.equal(hex(encode(-0)), '00');
    assert.throws(() => encode(2n ** 64n), EncodeError);
    assert.throws(() => encode(-(2n ** 64n) - 1n), EncodeError);
});

test('tags at every boundary of their heads', () => {
    for (const edge of EDGES) {
        for (const number of [edge - 1n, edge, edge + 1n]) {
            if (number < 0n || number >= 2n ** 64n) continue;
            const tag = new Tag(number, 0), data = encode(tag);
            assert.equal(hex(data), hex(encoded(tag)));
            assert.equal(decode(data).number, plain(number));
        }
    }
    for (let number = 0; number < 256; number++) {
        if (number < 20 || number > 31) assert.equal(hex(encode(new Simple(number))), hex(encoded(new Simple(number))));
    }
});

test('texts at every boundary of their heads, of one byte a character to four', () => {
    const small = [0, 1, 5, 6, 7, 8, 11, 12, 23, 24, 25, 63, 64, 65, 85, 86, 127, 128, 255, 256, 257];
    const large = [16383, 16384, 21845, 21846, 32768, 65535, 65536, 65537];
    for (const character of ['a', 'é', '漢', '😀']) {
        for (const count of [...small, ...large]) {
            for (const text of [character.repeat(count), `${character.repeat(count)}é`]) {
                const data = encode(text);
                assert.equal(hex(data), hex(encoded(text)));
                assert.equal(decode(data), text);
            }
        }
    }
    for (const count of [0, 23, 24, 255, 256, 65535, 65536]) {
        assert.equal(hex(encode(new Uint8Array(count))), hex(encoded(new Uint8Array(count))));
        assert.equal(hex(encode(Array(count).fill(0))), hex(encoded(Array(count).fill(0))));
        const map = new Map(Array.from({ length: count }, (_, i) => [i, 0]));
        assert.equal(hex(encode(map)), hex(encoded(map)));
    }
});

test('objects of any names in any order', () => {
    const { below, from } = random(19), parts = ['a', 'b', 'B', 'é', '漢', '😀', '\uffff', '0', '1', 'zz', ''];
    for (let turn = 0; turn < 500; turn++) {
        const object = Object.create(null);
        for (let i = below(80); i > 0; i--) object[from(parts) + from(parts) + from(parts)] = below(30);
        for (const order of ['bytewise', 'length']) {
            assert.equal(hex(encode(object, { order })), hex(encoded(new Map(Object.entries(object)), order)));
        }
    }
    assert.throws(() => encode({ b: 0, aa: { '\ud800': 1, x: 5 } }), error => error.path === '$."aa", key 2 of the map');
    const calls = [], note = name => ({ get: () => { calls.push(name); return 0; }, enumerable: true });
    encode(Object.defineProperties({}, { bb: note('bb'), a: note('a'), c: note('c') }));
    assert.deepEqual(calls, ['bb', 'a', 'c']);
});

test('objects, null prototypes, subclasses, and values of another realm', () => {
    assert.equal(hex(encode({ Fun: true, Amt: -2 })), 'a263416d74216346756ef5');
    assert.equal(hex(encode(Object.assign(Object.create(null), { a: null }))), 'a16161f6');
    assert.equal(hex(encode(JSON.parse('{"__proto__":1}'))), hex(encoded(new Map([['__proto__', 1]]))));
    assert.deepEqual(decode(encode(JSON.parse('{"__proto__":1}'))), new Map([['__proto__', 1]]));
    assert.equal(hex(encode(Buffer.from('ab'))), '426162');
    assert.equal(hex(encode(new (class extends Array {})(3).fill(0))), '83000000');
    assert.equal(hex(encode(new (class extends Map {})([[1, 2]]))), 'a10102');
    const there = vm.runInNewContext("[{ a: [new Uint8Array([1, 2]), new Map([[1, 'x']])] }, Object.create(null)]");
    assert.equal(hex(encode(there)), hex(encoded([new Map([['a', [Uint8Array.of(1, 2), new Map([[1, 'x']])]]]), new Map()])));
});

test('what cannot be encoded is an EncodeError with a path', () => {
    class Point {}
    const hole = [1, , 3]; // eslint-disable-line no-sparse-arrays
    const cases = [
        [1.5, '$', /1\.5 is a float/], [NaN, '$', /float/], [Infinity, '$', /float/], [-0.5, '$', /float/],
        [2 ** 53, '$', /bigint/], [1e300, '$', /bigint/],
        ['\ud800', '$', /lone surrogate/], ['a\udc00b', '$', /lone surrogate/], ['\udc00\ud800', '$', /lone surrogate/],
        [hole, '$[1]', /hole/], [Array(3), '$[0]', /hole/], [[[0, hole]], '$[0][1][1]', /hole/],
        [() => 0, '$', /function/], [Symbol('s'), '$', /symbol/], [new Date(), '$', /Date/], [/a/, '$', /RegExp/],
        [new Set(), '$', /Set/], [new Point(), '$', /Point/], [new Number(1), '$', /Number/],
        [new Float64Array(1), '$', /Float64Array/], [new ArrayBuffer(1), '$', / an ArrayBuffer cannot be encoded; make it a Uint8Array, /],
        [new Uint8ClampedArray(1), '$', / a Uint8ClampedArray cannot be encoded; /],
        [{ [Symbol('s')]: 1 }, '$', /symbol/], [Promise.resolve(1), '$', /Promise/],
        [{ a: [0, { b: 1.5 }] }, '$."a"[1]."b"', /float/], [new Map([[1, new Tag(24, 1.5)]]), '$.1(24)', /float/],
        [new Map([[0, 0], [1.5, 0]]), '$, key 2 of the map', /float/], [new Map([[[1], [2.5]]]), '$.(key 1)[0]', /float/],
        [new Map([[new Tag(1, 1.5), 0]]), '$, key 1 of the map(1)', /float/],
        [new Map([[2n ** 60n, 0.1]]), '$.1152921504606846976', /float/],
    ];
    for (const [value, path, problem] of cases) {
        assert.throws(() => encode(value), error => {
            assert.ok(error instanceof EncodeError && error instanceof TypeError, String(error));
            assert.equal(error.path, path);
            assert.match(error.message, problem);
            assert.ok(error.message.startsWith(`naltvigo: at ${path}: `));
            return true;
        });
    }
});

test('equal keys are refused, with the path of the second', () => {
    const cases = [
        [new Map([[1, 'a'], [1n, 'b']]), '$, key 2 of the map at 0'],
        [[new Map([['x', 0], [[], 1], [[], 2]])], '$[0], key 3 of the map at 1'],
        [{ a: new Map([[new Tag(1, 0), 0], [new Map(), 1], [new Tag(1n, -0), 2]]) }, '$."a", key 3 of the map at 3'],
    ];
    for (const [value, path] of cases) {
        assert.throws(() => encode(value), error => {
            assert.ok(error instanceof Refused);
            assert.deepEqual([error.reason, error.reasonName, error.path], [11, 'RepeatedKey', path]);
            assert.ok(error.message.startsWith(`refused 11 RepeatedKey at ${error.offset} (${path}): `));
            return true;
        });
    }
});

test('each error of encode has the path of what is wrong', () => {
    const tag = new Tag(1, 0), simple = Object.create(Simple.prototype), detached = new Uint8Array(9);
    tag.number = -1;
    structuredClone(detached, { transfer: [detached.buffer] });
    const revoked = Proxy.revocable(new Map(), {});
    revoked.revoke();
    for (const [value, problem] of [
        [tag, /a tag's number is 0 to/], [Object.assign(new Tag(1, 0), { number: 1.5 }), /safe integer/],
        [Object.assign(new Tag(1, 0), { number: '1' }), /safe integer/], [Object.assign(new Tag(1, 0), { number: 2n ** 64n }), /0 to 2/],
        [simple, /a simple value's number/], [new Proxy(new Map([[1, 2]]), {}), /a Proxy of a Map/],
        [Object.create(Map.prototype), /inherits from Map/], [detached, /detached/],
    ]) {
        for (const [around, path] of [[value, '$'], [[0, { a: value }], '$[1]."a"'], [new Map([[1, 2], [3, value]]), '$.3']]) {
            assert.throws(() => encode(around), error => {
                assert.ok(error instanceof EncodeError, String(error));
                assert.equal(error.path, path);
                assert.match(error.message, problem);
                return true;
            });
        }
        assert.equal(hex(encode(['after', 1])), hex(encoded(['after', 1])));
    }
});

test('a refusal has the path of the item that has the refused byte', () => {
    for (const [value, options, path] of [
        ['abc', { maxBytes: 2 }, '$'], ['abc', { maxBytes: 0 }, '$'], [5, { maxBytes: 0 }, '$'], [[1, 'abc'], { maxBytes: 4 }, '$[1]'],
        [[1, 'abc', 2], { maxBytes: 6 }, '$[2]'], [{ a: [new Uint8Array(300)] }, { maxBytes: 9 }, '$."a"[0]'],
        [new Map([['key', 0]]), { maxBytes: 2 }, '$, key 1 of the map at 0'], [new Map([[1, 'value']]), { maxBytes: 4 }, '$.1'],
        [new Tag(1000, [1, 'x'.repeat(100)]), { maxBytes: 50 }, '$(1000)[1]'], [[[], 'é'.repeat(100)], { maxBytes: 100 }, '$[1]'],
        [1000, { maxBytes: 2 }, '$'], [[2n ** 60n], { maxBytes: 4 }, '$[0]'], [[[[]]], { depth: 2 }, '$[0][0]'],
    ]) {
        assert.throws(() => encode(value, options), error => {
            assert.ok(error instanceof Refused, String(error));
            assert.equal(error.path, path);
            return true;
        });
    }
});

test('a value is read once, whether it is refused or not', () => {
    let calls = 0;
    const once = { get a() { if (calls++ > 0) throw new RangeError('mine'); return new Map([[1, 0], [1n, 0]]); } };
    assert.throws(() => encode([once]), error => error instanceof Refused && error.reason === 11 && error.path.startsWith('$[0]."a", key 2'));
    let other = 0;
    const changing = { get a() { return other++ > 0 ? 'short' : 'x'.repeat(100); } };
    assert.throws(() => encode([changing], { maxBytes: 50 }), error => error instanceof Refused && error.reason === 2 && error.path === '$[0]."a"');
});

test('limits hold for what is encoded', () => {
    const refused = (value, options, reason, path) => assert.throws(() => encode(value, options), error => {
        assert.ok(error instanceof Refused, String(error));
        assert.equal(error.reason, reason);
        if (path) assert.equal(error.path, path);
        return true;
    });
    assert.equal(hex(encode([[]], { depth: 2 })), '8180');
    refused([[]], { depth: 1 }, 9, '$[0]');
    refused([], { depth: 0 }, 9, '$');
    refused(new Map([[[], 0]]), { depth: 1 }, 9, '$, key 1 of the map at 0');
    const cycle = { a: [] };
    cycle.a.push(cycle);
    refused(cycle, undefined, 9);
    refused(cycle, { depth: 1024 }, 9);
    assert.equal(encode(new Uint8Array(97), { maxBytes: 99 }).length, 99);
    refused(new Uint8Array(98), { maxBytes: 99 }, 2);
    refused(Array(1 << 20).fill(0), undefined, 2);
    refused(Array(1e7).fill('abc'), undefined, 2);
    refused(new Map([[Uint8Array.of(1), 0]]), { keys: 'basic' }, 20, '$, key 1 of the map at 0');
    assert.equal(hex(encode({ b: 0, aa: 0 }, { order: 'length' })), 'a2616200626161' + '00');
    assert.equal(hex(encode(new Map([[-1, 0], [100, 0]]), { order: 'length' })), 'a22000186400');
});

test('deep values, without recursion', () => {
    let value = [], tags = null;
    for (let i = 1; i < 1024; i++) {
        value = i % 2 ? [value] : new Map([[0, value]]);
        tags = new Tag(6, tags);
    }
    for (const one of [value, tags]) {
        const data = encode(one, { depth: 1024 });
        assert.equal(hex(encode(decode(data, { depth: 1024 }), { depth: 1024 })), hex(data));
        assert.throws(() => encode([[one]], { depth: 1024 }), error => error.reason === 9);
    }
    let far = [];
    for (let i = 0; i < 100000; i++) far = [far];
    assert.throws(() => encode(far), error => error.reason === 9);
});

test('a value that changes while it is encoded gives the bytes of some value, and a nested call does no harm', () => {
    const list = [0, 1, 2];
    const shrinking = { get a() { list.length = 1; return 0; }, b: list };
    assert.equal(hex(encode(shrinking)), hex(encoded(new Map([['a', 0], ['b', [0]]]))));
    const members = [{ get x() { members.length = 1; return 0; } }, 5];
    assert.throws(() => encode(members), error => error instanceof EncodeError && error.path === '$[1]');
    const growing = [{ get x() { growing.push(1); return 0; } }, 5];
    assert.equal(hex(encode(growing)), hex(encoded([new Map([['x', 0]]), 5])));
    const map = new Map([[1, { get x() { map.delete(2); return 0; } }], [2, 3]]);
    assert.equal(hex(encode(map)), hex(encoded(new Map([[1, new Map([['x', 0]])], [2, 3]]))));
    const nested = { a: 'before', get b() { return encode({ c: 'within'.repeat(100) }); }, d: 'after' };
    const within = Uint8Array.from(encoded(new Map([['c', 'within'.repeat(100)]])));
    assert.equal(hex(encode(nested)), hex(encoded(new Map([['a', 'before'], ['b', within], ['d', 'after']]))));
    assert.throws(() => encode({ get a() { throw new RangeError('mine'); } }), /mine/);
    // a refusal of a nested call is that call's
    const twice = { get b() { return encode(new Map([[1, 0], [1n, 0]])); } };
    assert.throws(() => encode([0, twice]), error => error.reason === 11 && error.path === '$, key 2 of the map at 0');
    assert.equal(hex(encode([1])), '8101');
    class Wrong extends Uint8Array { get length() { return 1000; } }
    assert.equal(hex(encode(new Wrong(2))), '420000');
});

test('what is decoded is the caller\'s own', () => {
    const data = bytes('8243010203' + '6161'), [string] = decode(data);
    data.fill(0);
    assert.deepEqual([...string], [1, 2, 3]);
    assert.equal(string.buffer.byteLength, 3);
    const shared = new Uint8Array(new SharedArrayBuffer(4));
    shared.set(bytes('43010203'));
    assert.deepEqual([...decode(shared, { canonical: true })], [1, 2, 3]);
    assert.ok(!(decode(shared).buffer instanceof SharedArrayBuffer));
});

test('Tag and Simple', () => {
    for (const number of [-1, 1.5, NaN, 2n ** 64n, -1n, 2 ** 53, '1', null, undefined]) {
        assert.throws(() => new Tag(number, 0), /naltvigo: /);
    }
    assert.equal(new Tag(5n, 0).number, 5);
    for (const number of [-1, 20, 21, 22, 23, 24, 31, 256, 1.5, '1', 1n, null, undefined]) {
        assert.throws(() => new Simple(number), /naltvigo: /);
    }
    class Own extends Tag {}
    assert.ok(new Own(1, 0) instanceof Tag && new Own(1, 0) instanceof Own && !(new Tag(1, 0) instanceof Own));
    const tag = new Tag(1, 0);
    tag.number = 1.5;
    assert.throws(() => encode(tag), /naltvigo: /);
    assert.throws(() => { new Simple(1).number = 21; }, TypeError);
});
