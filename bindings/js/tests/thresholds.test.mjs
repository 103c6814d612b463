// Cases below, at and above each number within the package at which it goes another way.
import assert from 'node:assert/strict';
import { test } from 'node:test';
import { inspect } from 'node:util';
import { canonicalise, check, decode, encode, EncodeError, events, items, Refused, SortedMap } from 'naltvigo';
import { resultOf, bytes, hex, random } from './given.mjs';
import { encoded } from './reference.mjs';

const around = (...numbers) => numbers.flatMap(number => [number - 1, number, number + 1]);
const LARGE = { maxBytes: 1 << 24 };

test('texts: 24, 40, 64 and 65 characters, of one byte and of more, and a lone surrogate after them', () => {
    const { isWellFormed } = String.prototype;
    for (const known of [isWellFormed, undefined]) { // engines of 2023 and before do not have it
        String.prototype.isWellFormed = known;
        for (const length of around(24, 32, 40, 64, 85, 100, 256, 4096, 16384, 65536)) {
            for (const end of ['', 'b', 'é', '漢', '😀']) {
                const text = 'a'.repeat(length - 1) + end;
                assert.equal(hex(encode(text)), hex(encoded(text)));
                assert.equal(decode(encode(text)), text);
                assert.equal(decode(encode([text, 1]))[0], text);
            }
            for (const end of ['\ud800', '\udc00', '\ud800a', '\udc00\ud800']) {
                assert.throws(() => encode('a'.repeat(length - 1) + end), EncodeError, `${length}`);
            }
        }
    }
    String.prototype.isWellFormed = isWellFormed;
});

test('texts that share a hash or a length are kept apart', () => {
    const { below } = random(11), texts = Array.from({ length: 20000 }, () => String.fromCharCode(97 + below(3), 97 + below(3)).repeat(1 + below(12)) + below(2000));
    assert.deepEqual(decode(encode(texts)), texts);
    // of two bytes whose sum by 31 is the same
    const pairs = Array.from({ length: 60 }, (_, i) => [`Aa${i}`, `BB${i}`]).flat();
    assert.deepEqual(decode(encode([...pairs, ...pairs])), [...pairs, ...pairs]);
    assert.deepEqual(decode(encode(['', '\0', '\0\0', ''])), ['', '\0', '\0\0', '']);
});

test('heads of every kind at each length of their argument', () => {
    for (const number of [...around(24, 256, 65536, 2 ** 32), 2 ** 53 - 1]) {
        for (const value of [number, -1 - number]) {
            if (!Number.isSafeInteger(value)) continue;
            for (let turn = 0; turn < 2; turn++) assert.equal(hex(encode(value)), hex(encoded(value)));
            assert.equal(decode(encode([value]))[0], value);
            assert.equal(hex(encode(BigInt(value))), hex(encoded(value)));
        }
    }
    for (const length of around(24, 256, 4096, 16384, 65536)) {
        const array = Array.from({ length }, (_, i) => i % 24), data = new Uint8Array(length).map((_, i) => i);
        assert.deepEqual(decode(encode(array)), array);
        assert.deepEqual(decode(encode([data, 1])), [data, 1]);
        assert.equal(hex(encode(data)), hex(encoded(data)));
    }
});

test('objects of 63 to 66 members and more, in order, in reverse, and in neither', () => {
    const orders = [(a, b) => a - b, (a, b) => b - a, (a, b) => (a * 37 + 11) % 101 - (b * 37 + 11) % 101];
    for (const count of [1, 2, 23, 24, ...around(32, 64), 66, 100, 101, 127, 128, 129, 255, 256, 257]) {
        const numbers = Array.from({ length: count }, (_, i) => i), wanted = hex(encoded(new Map(numbers.map(i => [`k${i}`, i]))));
        for (const order of orders) {
            const names = [...numbers].sort(order).map(i => [`k${i}`, i]);
            assert.equal(hex(encode(Object.fromEntries(names))), wanted, `${count}`);
            assert.equal(hex(encode(new Map(names))), wanted, `${count}`);
        }
    }
});

test('a SortedMap of 99 to 101 pairs as the console shows it', () => {
    for (const count of around(100)) {
        const keys = Array.from({ length: count }, (_, i) => i), shown = inspect(new SortedMap(keys, keys.map(() => 0)));
        assert.equal(shown.endsWith(' and 1 more'), count === 101, shown.slice(-40));
    }
});

test('paths of each length, so that an explanation fills 256, 512 and 1,024 bytes, or one more or less', () => {
    const key = length => [0x78, length, ...Buffer.alloc(length, 'k')], step = length => `."${'k'.repeat(length)}"`;
    for (let length = 0; length < 1100; length++) {
        const levels = Math.floor(length / 43), last = 1 + length % 43, item = [];
        for (let i = 0; i < levels; i++) item.push(0xa1, ...key(40));
        assert.throws(() => check(Uint8Array.from([...item, 0xa1, ...key(last), 0xf9, 0, 0])),
            error => error instanceof Refused && error.path === `$${step(40).repeat(levels)}${step(last)}`);
    }
});

test('more items in a table than there is space for at first', () => {
    for (const count of [...around(99, 100, 204, 409), 5000, 70000]) {
        const value = Array.from({ length: count }, (_, i) => (i % 3 ? i : `t${i}`));
        assert.deepEqual(decode(encode(value)), value);
        const streamed = Uint8Array.from([0x9f, ...encode(value).subarray(count < 24 ? 1 : count < 256 ? 2 : count < 65536 ? 3 : 5), 0xff]);
        assert.deepEqual(decode(streamed), value);
    }
});

test('events: 63 to 65, and parts of 4,096 bytes, with payloads across them', () => {
    for (const count of [...around(64), ...around(4095, 8190), 4096 * 3]) {
        const data = Uint8Array.from([0x9f, ...Array(count).fill(5), 0x43, 1, 2, 3, 0xff]), found = [...events(data)];
        assert.deepEqual(found.map(it => it.offset), [...Array(count + 2).keys(), count + 2, count + 5]);
        assert.deepEqual(found.slice(1, count + 1).map(it => it.number), Array(count).fill(5));
        assert.deepEqual([...found[count + 2].data], [1, 2, 3]);
    }
});

test('one chunk of 70 KB with two strings, and strings at 4,096, 16,384 and 65,536 bytes', () => {
    for (const [first, second] of [[30000, 40000], [4092, 5], [4093, 4096], [16381, 16384], [65533, 65536], [65536, 3], [1, 70000]]) {
        const one = new Uint8Array(first).map((_, i) => i * 7), other = new Uint8Array(second).map((_, i) => i * 11), data = encode([one, other]);
        const found = [...events(data)], pieces = found.filter(it => it.kind === 'piece');
        assert.deepEqual(found.map(it => it.kind), ['array', 'bytes', 'piece', 'bytes', 'piece']);
        assert.deepEqual(pieces.map(it => it.number), [first, second]);
        assert.ok(Buffer.from(one).equals(pieces[0].data) && Buffer.from(other).equals(pieces[1].data));
        assert.deepEqual(pieces.map(it => it.offset), [1 + data.length - first - second - 1 - headLength(second), data.length - second]);
        const cut = [...events([data.subarray(0, 5), data.subarray(5, 4100), data.subarray(4100)])].filter(it => it.kind === 'piece');
        assert.ok(Buffer.concat(cut.map(it => it.data)).equals(Buffer.concat([one, other])));
    }
});

const headLength = number => (number < 24 ? 1 : number < 256 ? 2 : number < 65536 ? 3 : 5);

test('items across the bytes that are copied at once, 65,536', () => {
    for (const length of around(65530, 65536, 131072)) {
        const string = encode(new Uint8Array(length).fill(3)), short = bytes('6161'), data = Buffer.concat([short, string, short, string, string, short]);
        assert.deepEqual([...items(data)].map(it => it.length), [2, string.length, 2, string.length, string.length, 2]);
        assert.deepEqual([...items(data, { canonical: true })].map(it => it.length), [2, string.length, 2, string.length, string.length, 2]);
        const text = encode('é'.repeat(length / 2 | 0)), bad = Buffer.from(text);
        assert.deepEqual([...items(Buffer.concat([short, text, text]))].map(it => it.length), [2, text.length, text.length]);
        bad[bad.length - 1] = 0x41;
        assert.deepEqual(resultOf(() => [...items(Buffer.concat([short, text, bad, short]))]), resultOf(() => canonicalise(bad)));
        // cut off within the last item
        const cutOff = Buffer.concat([short, string]).subarray(0, 1 + string.length);
        assert.deepEqual(resultOf(() => [...items(cutOff)]), [1, string.length - 1, string.length - 1]);
    }
    const many = new Uint8Array(200001).fill(0x17);
    let count = 0;
    for (const item of items(many)) {
        assert.equal(item.byteOffset, count);
        count++;
    }
    assert.equal(count, many.length);
});

test('a limit above 2 ** 32, and one above what a number holds', () => {
    for (const maxBytes of [2 ** 32, 2 ** 53, 2n ** 53n + 1n, 2n ** 62n]) {
        assert.deepEqual(decode(encode([1], { maxBytes }), { maxBytes }), [1]);
        assert.deepEqual([...items(bytes('0102'), { maxBytes })].map(hex), ['01', '02']);
    }
});

test('a large map and a large array within each other', () => {
    const inner = new Map(Array.from({ length: 300 }, (_, i) => [`k${i}`, [i, [], new Map()]]));
    const value = [inner, new Map([['a', inner], ['b', Array(300).fill([])]]), 'end'];
    assert.deepEqual(decode(encode(value, LARGE), LARGE), JSON.parse('[0,0,0]').map((_, i) => decode(encode(value[i], LARGE), LARGE)));
    assert.equal(hex(encode(decode(encode(value, LARGE), LARGE), LARGE)), hex(encoded(value)));
});
