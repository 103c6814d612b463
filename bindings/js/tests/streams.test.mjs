// Sequences of items, and items in parts.
import assert from 'node:assert/strict';
import { test } from 'node:test';
import { canonicalise, check, diagnostic, events, items, Refused } from 'naltvigo';
import { resultOf, bytes, events as tables, hex, random } from './given.mjs';

const NAMES = ['Truncated', 'TooLong', 'Reserved', 'NoIndefinite', 'Float', 'BadSimple', 'StrayBreak', 'BadChunk', 'TooDeep'];
const TRUNCATED = 1;
const TRAILING = 12;

/** The events as the tables write them, adjacent pieces as one; and the refusal after them. */
function reported(chunks, data, options) {
    const found = [];
    let refusal;
    try {
        for (const event of events(chunks, options)) {
            const { kind, offset, number } = event;
            const payload = kind === 'piece' ? hex(data.subarray(offset, offset + number)) : undefined;
            assert.equal(event.data && hex(event.data), payload);
            const last = found.at(-1);
            if (event.kind === 'piece' && last?.kind === 'piece') last.number += event.number;
            else found.push({ ...event });
        }
    } catch (error) {
        if (!(error instanceof Refused)) throw error;
        refusal = [error.reason, error.offset, error.consumed];
    }
    const nameOf = kind => (kind === 'break' ? 'end' : kind);
    const words = found.map(({ offset, kind, number = '-', width = '-' }) => `${offset} ${nameOf(kind)} ${number} ${width}`);
    return [words.join(' '), refusal];
}

function* cuts(data) {
    yield data;
    yield [data];
    yield [...data].map(byte => Uint8Array.of(byte));
    yield [new Uint8Array(0), data.subarray(0, 2), data.slice(2).buffer, Buffer.alloc(0)];
}

test('each row of the tables of events, however it is cut', () => {
    assert.ok(tables.accepted.length > 60 && tables.refused.length > 40 && tables.prefixes.length > 10);
    const accepted = [...tables.accepted, ...tables.not_valid].map(row => {
        const taken = Number(/^done (\d+)$/.exec(row.result)?.[1] ?? row.given.length / 2);
        return [row, 2 * taken === row.given.length ? undefined : [TRAILING, taken, taken]];
    });
    const prefixes = tables.prefixes.map(row => [row, [TRUNCATED, row.given.length / 2, row.given.length / 2]]);
    const refused = tables.refused.map(row => {
        const [name, offset, consumed] = row.result.split(' ');
        return [row, [1 + NAMES.indexOf(name), Number(offset), Number(consumed)]];
    });
    for (const [{ given, events: wanted, depth, maxBytes }, refusal] of [...accepted, ...prefixes, ...refused]) {
        const data = bytes(given);
        for (const chunks of cuts(data)) assert.deepEqual(reported(chunks, data, { depth, maxBytes }), [wanted, refusal], given);
    }
});

test('each text of the tables', () => {
    let count = 0;
    for (const { given, text } of tables.accepted) {
        // some comments mention a missing length, which values do not have, or give the text in other words; and some
        // rows are well-formed alone
        if (/_|\.\.|U\+/.test(text) || resultOf(() => check(bytes(given), { depth: 256 }))) continue;
        assert.equal(diagnostic(bytes(given), { depth: 256 }), text, given);
        count++;
    }
    assert.ok(count > 40, `${count} texts`);
});

test('refused and trailing bytes come after the events before them', () => {
    for (const [chunks, wanted, refusal] of [
        [[bytes('8201')], '0 array 2 0 1 unsigned 1 0', [1, 2, 2]],
        [[], '', [1, 0, 0]],
        [[bytes('8201'), bytes('f9')], '0 array 2 0 1 unsigned 1 0', [5, 2, 3]],
        [[bytes('0102')], '0 unsigned 1 0', [12, 1, 1]],
        [[bytes('01'), bytes(''), bytes('02')], '0 unsigned 1 0', [12, 1, 1]],
        [[bytes('426162f6')], '0 bytes 2 0 1 piece 2 0', [12, 3, 3]],
        [[bytes('4361')], '0 bytes 3 0 1 piece 1 0', [1, 2, 2]],
    ]) assert.deepEqual(reported(chunks, Buffer.concat(chunks), {}), [wanted, refusal]);
    for (const chunks of [[], [bytes('')], bytes(''), [bytes('00')]]) {
        assert.deepEqual(resultOf(() => [...events(chunks, { maxBytes: 0 })]), resultOf(() => check(bytes(''), { maxBytes: 0 })));
    }
});

test('a large payload is one piece a chunk, and its number is a number', () => {
    const data = new Uint8Array(100005).fill(7);
    data.set(bytes('5a000186a0'));
    const found = [...events([data.subarray(0, 60000), data.subarray(60000)])];
    const parts = found.map(({ kind, offset, number }) => [kind, offset, number]);
    assert.deepEqual(parts, [['bytes', 0, 100000], ['piece', 5, 59995], ['piece', 60000, 40005]]);
    assert.equal(found[1].data.buffer, data.buffer);
    assert.deepEqual([...events(bytes('1b001fffffffffffff'))][0].number, 2 ** 53 - 1);
    assert.deepEqual([...events(bytes('1b0020000000000000'))][0].number, 2n ** 53n);
    assert.deepEqual([...events(bytes('3bffffffffffffffff'))][0].number, 2n ** 64n - 1n);
});

test('many events, among other calls', () => {
    const data = new Uint8Array(20003).fill(0xf5);
    data.set(bytes('994e20'));
    let count = 0;
    for (const event of events(data)) {
        assert.equal(event.offset, count === 0 ? 0 : count + 2);
        if (count++ % 1000 === 0) assert.equal(hex(canonicalise(bytes('1800'))), '00');
    }
    assert.equal(count, 20001);
    const one = events([bytes('8201'), bytes('02')]), other = events([bytes('f6')]);
    assert.equal(one.next().value.kind, 'array');
    assert.equal(other.next().value.kind, 'simple');
    assert.equal(one.next().value.number, 1);
    assert.equal(other.next().done, true);
    assert.equal(one.next().value.number, 2);
});

test('an item of 1,024 levels, however it is cut, and one level more', () => {
    for (const [opener, end] of [['81', ''], ['9f', 'ff'], ['a100', ''], ['bf00', 'ff'], ['c1', '']]) {
        const data = bytes(`${opener.repeat(1024)}00${end.repeat(1024)}`), heads = opener.length === 2 ? 1024 : 2048;
        for (const chunks of [[data], [...data].map(byte => Uint8Array.of(byte)), [data.subarray(0, 700), data.subarray(700)]]) {
            const found = [...events(chunks, { depth: 1024 })];
            assert.equal(found.length, heads + 1 + 1024 * end.length / 2);
            assert.deepEqual(found.map(({ offset }) => offset), [...data.keys()]);
        }
        const more = bytes(`${opener.repeat(1025)}00${end.repeat(1025)}`), offset = 1024 * opener.length / 2;
        assert.deepEqual(resultOf(() => [...events(more, { depth: 1024 })]), [9, offset, offset + 1]);
    }
});

test('items refused after those before them', () => {
    const found = [];
    assert.throws(() => {
        for (const item of items(bytes('18006161ff'))) found.push(hex(item));
    }, error => {
        assert.deepEqual([error.item, error.start, error.reason, error.offset, error.consumed], [3, 4, 7, 0, 1]);
        assert.ok(error.message.startsWith('item 3 refused 7 StrayBreak at 0: '));
        return true;
    });
    assert.deepEqual(found, ['1800', '6161']);
    assert.deepEqual([...items(new Uint8Array(0))], []);
});

test('canonical items', () => {
    assert.deepEqual([...items(bytes('006161'), { canonical: true })].map(hex), ['00', '6161']);
    assert.deepEqual(resultOf(() => [...items(bytes('1800'), { canonical: true })]), [14, 0, 2]);
    const keys = bytes('a22000186400');
    assert.deepEqual([...items(keys, { canonical: true, order: 'length' })].map(hex), ['a22000186400']);
    assert.equal(resultOf(() => [...items(keys, { canonical: true })])[0], 16);
});

test('a long sequence, its items views of the input, among other calls', () => {
    const parts = [], { below } = random(3);
    for (let i = 0; i < 5000; i++) parts.push(bytes(['00', '1864', '826161f6', '5f4100ff', 'a0'][below(5)]));
    const data = Uint8Array.from(Buffer.concat(parts));
    let at = 0, i = 0;
    for (const item of items(data)) {
        assert.equal(item.buffer, data.buffer);
        assert.equal(item.byteOffset, at);
        assert.equal(hex(item), hex(parts[i]));
        if (i % 100 === 0) check(bytes('83010203'));
        at += item.length;
        i++;
    }
    assert.equal(i, 5000);
    // the refusal of an item after several rounds has its number and start
    const cut = data.slice();
    const start = at - parts.at(-1).length;
    cut[start] = 0xff;
    assert.throws(() => [...items(cut)], error => error.item === 5000 && error.start === start && error.reason === 7);
});
