// What is given besides an input, and the errors.
import assert from 'node:assert/strict';
import { readFileSync } from 'node:fs';
import { test } from 'node:test';
import {
    canonicalise, check, checkCanonical, decode, diagnostic, encode, events, items, Refused, same, version,
} from 'naltvigo';
import { load } from 'naltvigo/load';
import { bytes, hex } from './given.mjs';

const OF_ONE = [canonicalise, check, checkCanonical, decode, diagnostic, items];
const CALLS = [...OF_ONE, events, (data, options) => same(data, data, options), (_, options) => encode(0, options)];
const ZERO = Uint8Array.of(0);

test('options out of range, of another type, or not known', () => {
    const ranges = [
        { depth: -1 }, { depth: 1025 }, { depth: 1.5 }, { depth: 2 ** 32 }, { depth: NaN },
        { maxBytes: -1 }, { maxBytes: 1.5 }, { maxBytes: 2n ** 62n + 1n },
        { order: 'sorted' }, { order: 0 }, { order: null }, { order: 'constructor' }, { keys: 'text' }, { keys: 'toString' },
    ];
    const types = [
        { depth: '1' }, { depth: 1n }, { maxBytes: '1' }, { maxBytes: null }, { max_bytes: 1 }, { Depth: 1 }, null, 64, 'length',
    ];
    for (const call of CALLS) {
        for (const options of ranges) assert.throws(() => call(ZERO, options), RangeError);
        for (const options of types) assert.throws(() => call(ZERO, options), TypeError, String(options));
        call(ZERO, { depth: 0, maxBytes: 2n ** 62n, order: 'length', keys: 'basic' });
        call(ZERO, { depth: 1024, maxBytes: 1 });
        call(ZERO, {});
        call(ZERO, undefined);
    }
    for (const call of [canonicalise, check, checkCanonical, diagnostic, events]) {
        assert.throws(() => call(ZERO, { canonical: true }), TypeError);
    }
    for (const call of [decode, items]) assert.throws(() => call(ZERO, { canonical: 1 }), TypeError);
});

test('an input that is not a buffer', () => {
    for (const data of [undefined, null, '00', 0, {}, () => 0]) {
        for (const call of OF_ONE) assert.throws(() => call(data), TypeError);
        assert.throws(() => same(ZERO, data), TypeError);
        assert.throws(() => same(data, ZERO), TypeError);
    }
    for (const [data, kind] of [[null, 'null'], [undefined, 'undefined'], ['00', 'a string'], [[0], 'an object']]) {
        assert.throws(() => canonicalise(data), { name: 'TypeError', message: `naltvigo: the input is a Uint8Array or another buffer, not ${kind}` });
    }
    assert.throws(() => events(0), TypeError);
    assert.throws(() => [...events([0])], TypeError);
    assert.throws(() => [...events('00')], TypeError);
});

test('a refusal has its reason, its name, an offset, how many bytes were consumed, and a sentence', () => {
    assert.throws(() => checkCanonical(bytes('1800')), error => {
        assert.ok(error instanceof Refused && error instanceof Error && !(error instanceof TypeError));
        const { name, reason, reasonName, offset, consumed, sentence, advice, side, item, start, path } = error;
        assert.deepEqual([name, reason, reasonName, offset, consumed], ['Refused', 14, 'NotShortest', 0, 2]);
        assert.ok(String(error).startsWith('Refused: refused 14 NotShortest at 0: '));
        assert.match(sentence, /^A number or a length .*\.$/);
        assert.equal(error.message, `refused 14 NotShortest at 0: ${sentence} ${advice}`);
        assert.deepEqual([side, item, start, path], [undefined, undefined, undefined, '$']);
        return true;
    });
});

const thrownBy = call => {
    try {
        call();
    } catch (error) {
        return error;
    }
    return assert.fail('nothing is thrown');
};

test('the sentence and the advice of each reason are those of the library', () => {
    const source = readFileSync(new URL('../../../crates/cbor_diag/src/sentences.rt', import.meta.url), 'utf8');
    const texts = new Set([...source.matchAll(/"([^"\n]*)"/g)].map(found => found[1])), seen = new Set();
    for (const [given, call] of [
        ['19', check], ['4401', data => check(data, { maxBytes: 1 })], ['1c', check], ['1f', check], ['f90000', check], ['f800', check], ['ff', check],
        ['7f4100ff', check], ['8180', data => check(data, { depth: 1 })], ['61ff', check], ['a201000100', check], ['0000', check],
        [`9f${'00'.repeat(256)}ff`, data => canonicalise(data, { maxBytes: 258 })], ['1800', checkCanonical], ['9fff', checkCanonical],
        ['a201000000', checkCanonical], ['a140f6', data => check(data, { keys: 'basic' })],
    ]) {
        const { reason, reasonName, sentence, advice } = thrownBy(() => call(bytes(given)));
        assert.ok(texts.has(sentence) && texts.has(advice) && sentence !== advice, `${given}: ${sentence} ${advice}`);
        assert.match(advice, /^(Check|Raise|The input may|Encode|End|Remove|Read|If) /i);
        assert.ok(source.includes(`Reason::${reasonName}`));
        seen.add(reason);
    }
    assert.deepEqual([...seen].sort((a, b) => a - b), [...Array(16).keys()].map(i => i + 1).concat(20));
});

test('each call that refuses says the path', () => {
    const given = bytes('82a1000082d863f9000000'), path = '$[1][0](99)';
    const late = bytes('82a1000081a200010002'), key = '$[1][0], key 2 of the map at 5';
    for (const call of [canonicalise, check, decode, diagnostic, data => decode(data, { canonical: true }), data => decode(data, { maps: 'object' })]) {
        assert.deepEqual([thrownBy(() => call(given)).offset, thrownBy(() => call(given)).path], [7, path]);
    }
    for (const call of [canonicalise, check, checkCanonical, decode, diagnostic]) assert.equal(thrownBy(() => call(late)).path, key);
    assert.ok(thrownBy(() => check(late)).message.startsWith(`refused 11 RepeatedKey at 8 (${key}): This key `));
    for (const [left, right, side] of [[given, ZERO, 'left'], [ZERO, given, 'right']]) {
        const error = thrownBy(() => same(left, right));
        assert.deepEqual([error.side, error.path], [side, path]);
    }
    const sequence = Uint8Array.from([...bytes('6161'), ...given]), error = thrownBy(() => [...items(sequence)]);
    assert.deepEqual([error.item, error.start, error.offset, error.path], [2, 2, 7, path]);
    assert.equal(thrownBy(() => [...events(given)]).path, undefined);
    assert.match(thrownBy(() => [...events(given)]).sentence, /floating/);
    assert.match(thrownBy(() => [...events(bytes('0000'))]).sentence, /a byte follows/);
    // of a path that is longer than there is space for at first
    const deep = `${'a163616263'.repeat(60)}f9`;
    assert.equal(thrownBy(() => check(bytes(deep))).path, `$${'."abc"'.repeat(60)}`);
});

test('the version is that of the package', async () => {
    const { default: { version: own } } = await import('../package.json', { with: { type: 'json' }, assert: { type: 'json' } });
    assert.equal(version(), own);
});

test('a result that is longer than its input, and texts that are', () => {
    // an array of indefinite length with 65,536 members: its definite head has five bytes
    const data = new Uint8Array(65538).fill(0);
    data[0] = 0x9f;
    data[65537] = 0xff;
    const canonical = canonicalise(data);
    assert.equal(canonical.length, 65541);
    assert.equal(hex(canonical.subarray(0, 6)), '9a0001000000');
    const escaped = new Uint8Array(1003).fill(1);
    escaped.set(bytes('7903e8'));
    assert.equal(diagnostic(escaped), `"${'\\u0001'.repeat(1000)}"`);
    assert.equal(diagnostic(bytes('63efbbbf')), '"\ufeff"');
});

test('the names of the package are the same in each of its files', async () => {
    const source = name => readFileSync(new URL(`../src/${name}`, import.meta.url), 'utf8');
    const names = text => text.match(/\w+/g).sort();
    const module = new URL('../wasm/naltvigo32.wasm', import.meta.url), calls = Object.keys(await load(readFileSync(module))).sort();
    for (const file of ['index.js', 'node.js', 'inlined.js']) assert.deepEqual(names(/^export const \{([^}]*)\} =/m.exec(source(file))[1]), calls, file);
    assert.deepEqual([...source('index.d.ts').matchAll(/^export const (\w+):/gm)].map(found => found[1]).sort(), calls);
    const classes = /^export \{(.*)\} from '.\/load.js';$/m;
    for (const file of ['index.js', 'index.d.ts']) assert.equal(classes.exec(source(file))[1], classes.exec(source('node.js'))[1], file);
});
