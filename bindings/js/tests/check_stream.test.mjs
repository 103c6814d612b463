// Streams of one item: checkStream, and the WritableStream of a checker.
import assert from 'node:assert/strict';
import { Readable } from 'node:stream';
import { test } from 'node:test';
import { Checker, checkStream, encode, Refused } from 'naltvigo';
import { resultOf, bytes, hex } from './given.mjs';
import { byOrder, cut } from './parts.mjs';

const TRUNCATED = 1;
const TRAILING = 12;

const withoutIterator = stream => ({ getReader: () => stream.getReader() });

/** A source of parts, and how many were read and whether it was cancelled. */
function sourceOf(parts) {
    const source = { read: 0, isCancelled: false };
    source.stream = new ReadableStream({
        pull(to) {
            if (source.read < parts.length) to.enqueue(parts[source.read++]);
            else to.close();
        },
        cancel() { source.isCancelled = true; },
    }, { highWaterMark: 0 });
    return source;
}

const settled = async promise => {
    try {
        return await promise;
    } catch (error) {
        return resultOf(() => { throw error; });
    }
};

test('each row in chunks, by checkStream and by a WritableStream', async () => {
    for (const { data, options, result } of byOrder()) {
        if (data.length > 200) continue;
        for (const size of [1, 3, 200]) {
            const name = `${hex(data)} ${size}`, parts = cut(data, size);
            assert.deepEqual(await settled(checkStream(parts, options)), result ?? data.length, name);
            const checker = new Checker(options), source = sourceOf(parts);
            assert.deepEqual(await settled(source.stream.pipeTo(checker.writable())), result, name);
            if (result === undefined) assert.deepEqual([checker.complete, checker.consumed], [true, data.length], name);
        }
    }
});

test('streams of each kind', async () => {
    const data = encode(['a', { b: new Uint8Array(3000) }]);
    async function* later() { for (const part of cut(data, 7)) yield part; }
    for (const chunks of [later(), sourceOf(cut(data, 64)).stream, withoutIterator(sourceOf(cut(data, 64)).stream), Readable.from(cut(data, 5)), new Set(cut(data, 100)), [data.buffer]]) {
        assert.equal(await checkStream(chunks), data.length);
    }
    assert.deepEqual(await settled(checkStream([])), [TRUNCATED, 0, 0]);
    for (const chunks of [undefined, null, 5, '00', {}, bytes('00'), [5], ['00']]) await assert.rejects(checkStream(chunks), TypeError);
    await assert.rejects(checkStream([bytes('00')], { depth: -1 }), RangeError);
    await assert.rejects(checkStream([bytes('00')], { canonical: true }), TypeError);
});

test('a stream is left at the first wrong byte, and after the item', async () => {
    for (const [parts, refusal, read] of [
        [['82', '1805', '00', '00'], [14, 1, 3], 2], [['00', '', '00', '00'], [TRAILING, 1, 1], 3], [['0000', '00'], [TRAILING, 1, 1], 1],
    ]) {
        for (const run of [stream => checkStream(stream), stream => checkStream(withoutIterator(stream)), stream => stream.pipeTo(new Checker().writable())]) {
            const source = sourceOf(parts.map(bytes));
            assert.deepEqual(await settled(run(source.stream)), refusal);
            assert.ok(source.isCancelled && source.read >= read && source.read <= read + 1, `${source.read} parts`);
        }
    }
});

test('a WritableStream: close waits for the end of the item, and abort frees the checker', async () => {
    const checker = new Checker(), writer = checker.writable().getWriter();
    await writer.write(bytes('82'));
    await writer.write(bytes('00').buffer);
    writer.closed.catch(() => {});
    const isTruncated = error => error instanceof Refused && error.reasonName === 'Truncated' && error.offset === 2;
    await assert.rejects(writer.close(), isTruncated);
    for (const call of [() => checker.feed(bytes('00')), () => checker.end()]) assert.throws(call, isTruncated);
    const wrong = new Checker().writable().getWriter();
    wrong.closed.catch(() => {});
    wrong.ready.catch(() => {});
    await assert.rejects(wrong.write('00'), TypeError);
    const aborted = new Checker(), other = aborted.writable().getWriter();
    other.closed.catch(() => {});
    other.ready.catch(() => {});
    await other.write(bytes('82'));
    await other.abort(new Error('no more'));
    assert.throws(() => aborted.feed(bytes('00')), { message: 'naltvigo: the checker was freed' });
});
