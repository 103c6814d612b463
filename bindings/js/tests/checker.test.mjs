// The strict check of an item whose bytes come in parts: what the check of the whole says, however it is cut.
import assert from 'node:assert/strict';
import { test } from 'node:test';
import { canonicalise, checkCanonical, Checker, encode, Refused } from 'naltvigo';
import { resultOf, bytes, hex, random } from './given.mjs';
import { byOrder, cut, LARGE, mapOfLong } from './parts.mjs';
import { ratioOf } from './times.mjs';

const TRUNCATED = 1;
const TRAILING = 12;
const MIB = 1 << 20;

/** What a checker says after a part: 'more', how many bytes the item has, or a refusal as three numbers. */
function fed(checker, part) {
    const before = checker.consumed;
    return resultOf(() => {
        const used = checker.feed(part);
        assert.equal(checker.consumed, before + used);
        assert.ok(checker.complete || used === part.length);
        return checker.complete ? checker.consumed : 'more';
    });
}

/** The same of all bytes so far, by an result of checkCanonical. */
const asFed = (result, length) => (result === undefined ? length : result[0] === TRUNCATED ? 'more' : result[0] === TRAILING ? result[1] : result);

const ofWhole = (data, options) => asFed(resultOf(() => checkCanonical(data, options)), data.length);

/** Feeds the parts of an item; after each, and at the end, the checker must say what it says of all bytes so far. */
function feedParts(parts, options, result, checker = new Checker(options)) {
    const data = Buffer.concat(parts), name = `${hex(data).slice(0, 80)} in ${parts.map(it => it.length).slice(0, 20)}`;
    let length = 0;
    for (const part of parts) {
        length += part.length;
        assert.deepEqual(fed(checker, part), ofWhole(data.subarray(0, length), options), `${name} at ${length}`);
    }
    const isRefused = result !== undefined && result[0] !== TRAILING, last = asFed(result, data.length);
    if (parts.length > 0) assert.deepEqual(fed(checker, new Uint8Array(0)), last, name);
    assert.equal(checker.complete, !isRefused, name);
    for (let i = 0; i < 2; i++) assert.deepEqual(resultOf(() => checker.end()), isRefused ? result : undefined, name);
    if (result?.[0] === TRUNCATED) {
        // more bytes may follow
        const more = Buffer.concat([data, Uint8Array.of(0)]), next = resultOf(() => checkCanonical(more, options));
        assert.deepEqual(fed(checker, Uint8Array.of(0)), asFed(next, more.length), name);
        assert.deepEqual(resultOf(() => checker.end()), next, name);
        assert.equal(checker.consumed, next?.[2] ?? more.length, name);
    } else {
        assert.deepEqual(fed(checker, Uint8Array.of(0)), last, name);
        assert.deepEqual(resultOf(() => checker.end()), isRefused ? result : undefined, name);
        if (isRefused) assert.equal(checker.consumed, result[2], name);
    }
}

test('each row of the tables, cut at every byte', () => {
    let count = 0;
    for (const { data, options, result } of byOrder()) {
        feedParts([data], options, result);
        if (data.length > 300) continue;
        for (let at = 0; at <= data.length; at++) feedParts([data.subarray(0, at), data.subarray(at)], options, result);
        count++;
    }
    assert.ok(count > 500, `${count} rows`);
});

test('each row byte by byte, with parts of no bytes, and cut at random, by one checker that is restarted', () => {
    const { below } = random(21), checkers = new Map();
    for (const { data, options, result } of byOrder()) {
        if (data.length > 600) continue;
        const name = JSON.stringify(options), again = checkers.get(name) ?? new Checker(options);
        checkers.set(name, again);
        const cuts = [[...data].flatMap(byte => [Uint8Array.of(byte), new Uint8Array(0)]), [new Uint8Array(0), data], []];
        if (data.length > 0) cuts.pop(); // no part at all is of no bytes alone
        for (let i = 0; i < 3; i++) {
            const parts = [];
            for (let at = 0; at < data.length;) parts.push(data.subarray(at, at += 1 + below(5)));
            cuts.push(parts);
        }
        for (const parts of cuts) {
            feedParts(parts, options, result, again);
            again.restart();
        }
    }
});

test('damaged items, cut at random', () => {
    const { below, from } = random(22);
    const whole = ['83186461c3a9f6'.replace('61c3', '62c3'), 'a3000102036161820405', 'a2820001f58200020a', 'd9d9f7a1446162636419ffff', '9818' + '00'.repeat(24)];
    for (let i = 0; i < 3000; i++) {
        const data = bytes(from(whole) + from(['', '00']));
        if (below(3)) data[below(data.length)] = below(256);
        const options = { maxBytes: from([5, 9, MIB]), depth: from([1, 64]), keys: from(['any', 'basic']), order: from(['bytewise', 'length']) };
        const parts = [];
        for (let at = 0; at < data.length;) parts.push(data.subarray(at, at += 1 + below(4)));
        feedParts(parts, options, resultOf(() => checkCanonical(data, options)));
    }
});

test('the error of a refusal has its reason, its name and a sentence, and stays until restart', () => {
    const checker = new Checker();
    assert.equal(checker.feed(bytes('82')), 1);
    const errorOf = call => {
        try {
            call();
        } catch (error) {
            return error;
        }
        return assert.fail('nothing is thrown');
    };
    const error = errorOf(() => checker.feed(bytes('18056161')));
    assert.ok(error instanceof Refused);
    assert.deepEqual([error.reason, error.reasonName, error.offset, error.consumed, error.path], [14, 'NotShortest', 1, 3, undefined]);
    assert.ok(error.message.startsWith('refused 14 NotShortest at 1: '));
    for (const call of [() => checker.feed(bytes('00')), () => checker.feed(bytes('')), () => checker.end()]) assert.equal(errorOf(call), error);
    assert.deepEqual([checker.complete, checker.consumed], [false, 3]);
    checker.restart();
    assert.deepEqual([checker.complete, checker.consumed], [false, 0]);
    assert.equal(checker.feed(bytes('826161f6')), 4);
    assert.deepEqual([checker.complete, checker.consumed, checker.end()], [true, 4, undefined]);
    assert.equal(checker.feed(bytes('00')), 0);
    // in the middle of an item, too
    checker.restart();
    checker.feed(bytes('a2'));
    checker.restart();
    assert.equal(checker.feed(bytes('0102')), 1);
});

test('what is not a buffer, and options that do not exist, change nothing', () => {
    const checker = new Checker(), detached = new Uint8Array(8);
    structuredClone(detached, { transfer: [detached.buffer] });
    checker.feed(bytes('82'));
    for (const part of [undefined, null, '00', 0, [0], {}, detached, new Proxy(bytes('00'), {})]) assert.throws(() => checker.feed(part), TypeError);
    const shared = new Uint8Array(new SharedArrayBuffer(1)), resizable = new ArrayBuffer(4, { maxByteLength: 8 });
    new Uint8Array(resizable).set(bytes('61620000'));
    const tracking = new Uint8Array(resizable);
    resizable.resize(2);
    assert.deepEqual([checker.feed(shared.buffer), checker.feed(tracking), checker.complete], [1, 2, true]);
    for (const part of [new DataView(bytes('8200f6').buffer, 1), Buffer.from('00', 'hex'), new Uint16Array(2)]) {
        checker.restart();
        assert.equal(checker.feed(part), 1);
    }
    for (const options of [{ depth: 1025 }, { order: 'sorted' }]) assert.throws(() => new Checker(options), RangeError);
    for (const options of [{ canonical: true }, null, 5]) assert.throws(() => new Checker(options), TypeError);
    assert.throws(() => Checker(), TypeError);
});

test('1,024 levels, and one more, however they are cut', () => {
    for (const [opener, inner, end] of [['81', '00', ''], ['a100', '00', ''], ['c1', '00', ''], ['a1', '00', '00'], ['82', '00', '00']]) {
        const data = bytes(opener.repeat(1024) + inner + end.repeat(1024));
        const more = bytes(opener.repeat(1025) + inner + end.repeat(1025)), at = 1024 * opener.length / 2;
        for (const size of [1, 7, 700, data.length]) {
            const checker = new Checker(LARGE);
            for (const part of cut(data, size)) assert.equal(checker.feed(part), part.length);
            assert.ok(checker.complete && checker.consumed === data.length);
            checker.restart();
            assert.deepEqual(resultOf(() => cut(more, size).forEach(part => checker.feed(part))), [9, at, at + 1]);
        }
    }
});

test('keys of 1 MiB', () => {
    for (const [ends, refusal] of [[[1, 2, 3], undefined], [[1, 3, 2], [16]], [[1, 2, 2], [16]]]) {
        const data = mapOfLong(MIB, ends), wanted = resultOf(() => checkCanonical(data, LARGE));
        assert.deepEqual(wanted?.slice(0, 1), refusal);
        for (const size of [1400, 65536, data.length]) {
            const checker = new Checker(LARGE);
            assert.deepEqual(resultOf(() => { for (const part of cut(data, size)) checker.feed(part); }), wanted);
            assert.equal(checker.complete, refusal === undefined);
        }
    }
});

test('around the number of bytes that are copied at once', () => {
    for (const length of [65535, 65536, 65537, 131071, 131072, 131073, 200000]) {
        const text = encode('é'.repeat(length - 5 >> 1)), data = Buffer.concat([text, Buffer.from('00')]);
        const checker = new Checker();
        assert.equal(checker.feed(data), text.length);
        for (const at of [65534, 65535, 65536, 65537, text.length - 1]) {
            if (at >= text.length) continue;
            const bad = Uint8Array.from(text);
            bad[at] = 0xff;
            checker.restart();
            const wanted = resultOf(() => checkCanonical(bad));
            assert.deepEqual([resultOf(() => checker.feed(bad)), checker.consumed], [wanted, wanted[2]]);
        }
        checker.restart();
        assert.equal(checker.feed(text.subarray(0, -1)), text.length - 1);
        assert.deepEqual(resultOf(() => checker.end()), [TRUNCATED, text.length - 1, text.length - 1]);
        // an array of which a wrong item comes after the first bytes that are copied
        const array = Uint8Array.from([0x9a, 0, 0x10, 0, 0, ...new Uint8Array(length), 0xf9]);
        checker.restart();
        assert.deepEqual(resultOf(() => checker.feed(array)), [5, array.length - 1, array.length]);
    }
});

test('some checkers at once, and among other calls', () => {
    const data = encode(Array.from({ length: 300 }, (_, i) => ({ id: i, name: `n${i}`, data: new Uint8Array(40).fill(i) }))), { below } = random(23);
    const checkers = Array.from({ length: 20 }, () => ({ checker: new Checker(), at: 0 }));
    while (checkers.some(({ checker }) => !checker.complete)) {
        const it = checkers[below(20)], part = data.subarray(it.at, it.at + 1 + below(2000));
        it.at += it.checker.feed(part);
        assert.equal(hex(canonicalise(bytes('bf6346756ef563416d7421ff'))), 'a263416d74216346756ef5');
    }
    assert.ok(checkers.every(({ at, checker }) => at === data.length && checker.consumed === at));
});

test('4 MB in parts of 1,400 bytes take at most twice as long as in one part, and 20 times as long as the check of the whole', () => {
    const records = Array.from({ length: 52000 }, (_, i) => ({ id: i, name: `name ${i}`, tags: ['a', 'b', i % 7], data: new Uint8Array(40) }));
    const inParts = (data, size) => () => {
        const checker = new Checker(LARGE);
        for (let at = 0; at < data.length; at += size) checker.feed(data.subarray(at, at + size));
        assert.ok(checker.complete);
    };
    for (const data of [encode(records, LARGE), encode('é'.repeat(2e6), LARGE)]) {
        assert.ok(data.length >= 4e6, `${data.length}`);
        const [parts, whole] = [inParts(data, 1400), inParts(data, data.length)];
        const ratio = ratioOf(parts, whole, 2), most = ratioOf(parts, () => checkCanonical(data, LARGE), 20);
        assert.ok(ratio <= 2 && most <= 20, `${ratio} and ${most} times as long`);
    }
});
