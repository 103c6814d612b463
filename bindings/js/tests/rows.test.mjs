// Each row of the repository's tables, by each call that it speaks of.
import assert from 'node:assert/strict';
import { test } from 'node:test';
import { canonicalise, check, checkCanonical, decode, diagnostic, encode, items, Refused, same } from 'naltvigo';
import { resultOf, bytes, hex, pairs, rows } from './given.mjs';

const CANONICAL_TOO_LONG = 13;
const ORDERS = ['bytewise', 'length'];

function* byOrder() {
    for (const { given, depth, maxBytes, keys, results } of rows) {
        for (const [i, order] of ORDERS.entries()) {
            yield { given, data: bytes(given), options: { depth, maxBytes, keys, order }, ...results[i] };
        }
    }
}

test('there are rows', () => assert.ok(rows.length > 300 && pairs.length >= 5));

test('canonicalise', () => {
    for (const { given, data, options, canonical, refusal } of byOrder()) {
        assert.deepEqual(resultOf(() => hex(canonicalise(data, options))), refusal ?? canonical, given);
    }
});

test('any buffer is taken, and none is changed', () => {
    for (const { given, data, options, canonical, refusal } of byOrder()) {
        const around = new Uint8Array(data.length + 7).fill(0xaa);
        around.set(data, 3);
        const shared = new Uint8Array(new SharedArrayBuffer(data.length));
        shared.set(data);
        const views = [around.subarray(3, 3 + data.length), new DataView(around.buffer, 3, data.length)];
        for (const input of [Buffer.from(data), data.slice().buffer, ...views, shared, shared.buffer]) {
            assert.deepEqual(resultOf(() => hex(canonicalise(input, options))), refusal ?? canonical, given);
        }
        assert.equal(hex(around), `aaaaaa${given}aaaaaaaa`);
    }
});

test('checkCanonical', () => {
    for (const { given, data, options, strict } of byOrder()) {
        assert.deepEqual(resultOf(() => checkCanonical(data, options)), strict ?? undefined, given);
    }
});

test('check, diagnostic, same', () => {
    for (const { given, data, options, canonical, refusal } of byOrder()) {
        // the limit on canonical bytes is that of canonicalise alone
        const wanted = refusal?.[0] === CANONICAL_TOO_LONG ? undefined : refusal ?? undefined;
        assert.deepEqual(resultOf(() => check(data, options)), wanted, given);
        const text = resultOf(() => diagnostic(data, options));
        if (wanted) assert.deepEqual(text, wanted, given);
        else assert.equal(typeof text, 'string', given);
        if (canonical !== null) assert.equal(same(data, bytes(canonical), options), true, given);
    }
});

test('items', () => {
    for (const { given, data, options, refusal, strict } of byOrder()) {
        if (!refusal && data.length) {
            assert.deepEqual([...items(data, options)].map(hex), [given]);
            assert.deepEqual([...items(bytes(given + given), options)].map(hex), [given, given]);
        }
        if (strict) continue;
        assert.deepEqual([...items(bytes(given + given), { ...options, canonical: true })].map(hex), [given, given]);
    }
});

test('decode then encode gives the canonical bytes, and decode refuses what canonicalise does', () => {
    for (const { given, data, options, canonical, refusal, strict } of byOrder()) {
        assert.deepEqual(resultOf(() => hex(encode(decode(data, options), options))), refusal ?? canonical, given);
        const strictly = resultOf(() => hex(encode(decode(data, { ...options, canonical: true }), options)));
        assert.deepEqual(strictly, strict ?? given, given);
    }
});

test('pairs', () => {
    for (const { left, right, result, refusal } of pairs) {
        const call = () => same(bytes(left), bytes(right), { depth: 256 });
        if (!refusal) {
            assert.equal(call(), result === 'same', `${left} ${right}`);
            continue;
        }
        assert.throws(call, error => {
            assert.ok(error instanceof Refused);
            assert.deepEqual([error.side, error.reason, error.offset, error.consumed], [result, ...refusal]);
            assert.ok(error.message.startsWith(`${result} refused `));
            return true;
        });
    }
});
