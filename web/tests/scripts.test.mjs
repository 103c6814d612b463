// The page's scripts by themselves: text to bytes, links, rows and paths.
import assert from 'node:assert/strict';
import { readFile } from 'node:fs/promises';
import { test } from 'node:test';
import { load } from '../../bindings/js/src/load.js';
import { chosenIntegers, harmlessIntegers } from '../../bindings/js/tests/chosen_keys.mjs';
import { beyond, leastOf, leastTime, millisecond } from '../../bindings/js/tests/times.mjs';
import { bytesOfText } from '../src/bytes.js';
import { Inspection } from '../src/inspection.js';
import { linkOf, ofLink, USUAL } from '../src/link.js';
import { KNOWN } from '../src/names.js';
import { hexParts, Rows } from '../src/rows.js';

const naltvigo = await load(readFile(new URL('../../bindings/js/wasm/naltvigo32.wasm', import.meta.url)));
const OPTIONS = { order: 'bytewise', keys: 'any', depth: 256, maxBytes: 2 ** 26, isOne: false };
const bytesOf = hex => Uint8Array.from(Buffer.from(hex, 'hex'));
const hexOf = bytes => Buffer.from(bytes).toString('hex');

function inspected(bytes, options = {}) {
    const inspection = new Inspection(naltvigo, bytes, { ...OPTIONS, ...options });
    inspection.run(() => {});
    const rows = new Rows(inspection);
    return { inspection, rows: rows.page(0, rows.count) };
}

test('base64 of RFC 4648, section 10, with and without padding', () => {
    const pairs = { 'Zg==': 'f', 'Zm8=': 'fo', Zm9v: 'foo', 'Zm9vYg==': 'foob', 'Zm9vYmE=': 'fooba', Zm9vYmFy: 'foobar' };
    for (const [text, content] of Object.entries(pairs)) {
        for (const given of [text, text.replaceAll('=', ''), ` ${text}\n`]) {
            assert.equal(Buffer.from(bytesOfText(given, 'base64')).toString(), content);
        }
    }
    assert.equal(hexOf(bytesOfText('-_8', 'auto')), 'fbff');
    assert.equal(hexOf(bytesOfText('+/8=', 'auto')), 'fbff');
});

test('random bytes survive hex and both kinds of base64', () => {
    let state = 7;
    const next = () => { state = Math.imul(state, 1103515245) + 12345 | 0; return state >>> 16 & 255; };
    for (let length = 0; length < 300; length++) {
        const buffer = Buffer.from(Array.from({ length }, next));
        for (const format of ['hex', 'base64', 'base64url']) {
            assert.equal(hexOf(bytesOfText(buffer.toString(format), format.slice(0, 6))), buffer.toString('hex'));
        }
    }
});

test('hex with what people put between', () => {
    for (const text of ['a1 01\t02', '0xa1, 0x01, 0x02', 'A1:01:02', 'a1 # map\n   01 # 1\r\n   02 # ff', 'a10102']) {
        assert.equal(hexOf(bytesOfText(text, 'auto')), 'a10102', text);
    }
});

test('hex as SQL writes it', () => {
    const literals = ['\\xa10102', "'\\xA10102'", "'\\xa10102'::bytea;", "x'a10102'", " X'A10102'\n"];
    for (const format of ['auto', 'hex']) for (const text of literals) assert.equal(hexOf(bytesOfText(text, format)), 'a10102', text);
    assert.equal(hexOf(bytesOfText('\\x', 'auto')), '');
    assert.throws(() => bytesOfText("x'a'", 'auto'), /one hex digit/);
    for (const text of ['\\xa1\\x01', "x'a1", "x'ag'", "'a1'"]) assert.throws(() => bytesOfText(text, 'auto'), /This is not hex, and character/, text);
    assert.throws(() => bytesOfText('\\xa1', 'base64'), /Character 1 is not of base64/);
});

test('text that is not bytes', () => {
    const wrong = [
        ['hex', '0g', 'Character 2'],
        ['hex', '0', 'one hex digit'],
        ['hex', '1x00', 'Character 2'],
        ['hex', '10x', 'Character 3'],
        ['hex', '0 x00', 'Character 3'],
        ['base64', 'A', 'ends within a byte'],
        ['base64', 'Zh==', 'bits that belong to no byte'],
        ['base64', 'Zg=a', 'Character 4'],
        ['base64', 'Z*', 'Character 2'],
    ];
    for (const [format, text, said] of wrong) assert.throws(() => bytesOfText(text, format), new RegExp(said), text);
});

test('a link gives back what it was made of', () => {
    const settings = { ...USUAL, order: 'length', depth: '7' };
    assert.equal(linkOf('a0', USUAL), '#hex=a0');
    assert.equal(linkOf(undefined, settings), '');
    assert.deepEqual(ofLink(linkOf('a0', settings)), { hex: 'a0', settings });
    assert.equal(ofLink('#other=1'), undefined);
});

// ---- rows, compared with a generator that knows what it writes

/** A random item and the rows that it must get: offset, end, depth, whether it is a key, and what it means. */
class Writer {
    constructor(seed) {
        this.state = seed;
        this.bytes = [];
        this.rows = [];
        this.keys = 0;
    }

    below(count) {
        this.state = Math.imul(this.state, 1664525) + 1013904223 | 0;
        return (this.state >>> 8) % count;
    }

    row(bytes, depth, isKey, meaning) {
        const offset = this.bytes.length;
        this.bytes.push(...bytes);
        this.rows.push([offset, this.bytes.length, depth, isKey, meaning]);
    }

    /** A head whose argument has as many bytes as it needs, or more. */
    head(major, number) {
        const width = [0, 1, 2, 4, 8].filter(it => (it ? number < 256n ** BigInt(it) : number < 24n));
        const chosen = width[this.below(width.length)];
        if (chosen === 0) return [major << 5 | Number(number)];
        const argument = Array.from({ length: chosen }, (_, i) => Number(number >> BigInt(8 * (chosen - 1 - i)) & 255n));
        return [major << 5 | 24 + Math.log2(chosen), ...argument];
    }

    number() {
        const bits = BigInt(this.below(65)), high = BigInt(this.below(1 << 24)), middle = BigInt(this.below(1 << 24));
        return (high << 40n | middle << 16n | BigInt(this.below(1 << 16))) >> 64n - bits;
    }

    item(depth, isKey, levels) {
        const kind = this.below(levels ? 7 : 4);
        [this.integer, this.string, this.string, this.simple, this.array, this.map, this.tag][kind].call(this, depth, isKey, levels);
    }

    integer(depth, isKey) {
        const number = this.number(), isNegative = this.below(2) === 1;
        const meaning = isNegative ? `negative integer ${-1n - number}` : `unsigned integer ${number}`;
        this.row(this.head(isNegative ? 1 : 0, number), depth, isKey, meaning);
    }

    simple(depth, isKey) {
        const number = [20, 21, 22, 23, 16, 255][this.below(6)];
        const names = { 20: 'false', 21: 'true', 22: 'null', 23: 'undefined' };
        this.row(number < 24 ? [0xe0 | number] : [0xf8, number], depth, isKey, names[number] ?? `simple value ${number}`);
    }

    payload(isText, count, depth) {
        const content = Array.from({ length: count }, () => 97 + this.below(26));
        const meaning = isText ? `"${String.fromCharCode(...content)}"` : `h'${hexOf(content)}'`;
        if (count) this.row(content, depth, false, meaning);
    }

    string(depth, isKey) {
        const isText = this.below(2) === 1, name = isText ? 'text string' : 'byte string', major = isText ? 3 : 2;
        const counted = count => `${count} ${count === 1 ? 'byte' : 'bytes'}`, count = this.below(6);
        if (this.below(3)) {
            this.row(this.head(major, BigInt(count)), depth, isKey, `${name}, ${counted(count)}`);
            this.payload(isText, count, depth + 1);
            return;
        }
        this.row([major << 5 | 31], depth, isKey, `${name}, indefinite length`);
        for (let chunk = this.below(3); chunk > 0; chunk--) {
            const length = this.below(4);
            this.row(this.head(major, BigInt(length)), depth + 1, false, `chunk, ${counted(length)}`);
            this.payload(isText, length, depth + 2);
        }
        this.row([0xff], depth, false, 'break');
    }

    open(major, name, unit, count, depth, isKey) {
        const isIndefinite = this.below(2) === 1;
        const extent = isIndefinite ? 'indefinite length' : `${count} ${unit}${count === 1 ? '' : 's'}`;
        this.row(isIndefinite ? [major << 5 | 31] : this.head(major, BigInt(count)), depth, isKey, `${name}, ${extent}`);
        return () => { if (isIndefinite) this.row([0xff], depth, false, 'break'); };
    }

    array(depth, isKey, levels) {
        const count = this.below(4), close = this.open(4, 'array', 'member', count, depth, isKey);
        for (let i = 0; i < count; i++) this.item(depth + 1, false, levels - 1);
        close();
    }

    /** A key is an array of a number of its own and of a random item, or that number. */
    map(depth, isKey, levels) {
        const count = this.below(4), close = this.open(5, 'map', 'pair', count, depth, isKey);
        for (let i = 0; i < count; i++) {
            const isArray = this.below(3) === 0, own = BigInt(this.keys++);
            if (isArray) this.row(this.head(4, 2n), depth + 1, true, 'array, 2 members');
            this.row(this.head(0, own), depth + (isArray ? 2 : 1), !isArray, `unsigned integer ${own}`);
            if (isArray) this.item(depth + 2, false, levels - 1);
            this.item(depth + 1, false, levels - 1);
        }
        close();
    }

    tag(depth, isKey, levels) {
        const number = 100000n + this.number() % (2n ** 63n); // those below may have names
        this.row(this.head(6, number), depth, isKey, `tag ${number}`);
        return this.item(depth + 1, false, levels - 1);
    }
}

function writtenBy(seed, count) {
    const writer = new Writer(seed);
    for (let i = 0; i < count; i++) writer.item(0, false, 4);
    return writer;
}

const seen = ({ trace }, rows) => rows.map((row, i) => [row.offset, trace.row(i).end, row.depth, row.isKey, row.meaning]);

test('random items and sequences have the rows that they were written from', () => {
    let count = 0;
    for (let seed = 1; seed <= 3000; seed++) {
        const writer = writtenBy(seed, 1 + seed % 3), { inspection, rows } = inspected(Uint8Array.from(writer.bytes));
        assert.equal(inspection.refusal, undefined, hexOf(writer.bytes));
        assert.deepEqual(seen(inspection, rows), writer.rows, hexOf(writer.bytes));
        count += rows.length;
    }
    assert.ok(count > 10000);
});

test('at the highest depth a sequence has the same rows', () => {
    for (let seed = 1; seed <= 200; seed++) {
        const writer = writtenBy(seed, 3), { inspection, rows } = inspected(Uint8Array.from(writer.bytes), { depth: 1024 });
        assert.deepEqual(seen(inspection, rows), writer.rows);
    }
    const deep = new Uint8Array(2 * 1025).fill(0x81);
    deep[1024] = deep[2049] = 0;
    const { inspection, rows } = inspected(deep, { depth: 1024 });
    assert.deepEqual([inspection.ends, rows.length, rows[1024].depth, rows[1025].depth], [[1025, 2050], 2050, 1024, 0]);
});

test('a sequence at the depth limit, and one of many rows', () => {
    const { inspection, rows } = inspected(bytesOf('818100a10000'), { depth: 2 });
    assert.deepEqual([inspection.refusal, inspection.ends, rows.length], [undefined, [3, 6], 6]);
    const count = 200000, { trace } = inspected(new Uint8Array(count).fill(0x20)).inspection;
    for (let index = 0; index < count; index += 997) assert.deepEqual([trace.row(index).offset, trace.indexAt(index)], [index, index]);
    assert.equal(trace.count, count);
});

test('canonical bytes that are longer than the limit', () => {
    const item = [0x9f, ...Array(256).fill(0), 0xff], canonical = `990100${'00'.repeat(256)}`;
    const { refusal, ends } = inspected(Uint8Array.from(item), { maxBytes: 258 }).inspection;
    assert.deepEqual([refusal.name, refusal.offset, ends], ['CanonicalTooLong', 258, []]);
    assert.equal(hexOf(inspected(Uint8Array.from(item), { maxBytes: 259 }).inspection.canonical), canonical);
    const second = inspected(Uint8Array.from([1, ...item, 2]), { maxBytes: 258 });
    assert.deepEqual([second.inspection.refusal.item, second.inspection.refusal.offset, second.inspection.ends], [2, 259, [1]]);
    assert.deepEqual([second.rows.length, second.rows[259].hex.mark, second.inspection.diagnostic], [260, '02', '1']);
});

test('wherever an item is cut, its rows and the marked end cover its bytes', () => {
    for (let seed = 1; seed <= 300; seed++) {
        const { bytes } = writtenBy(seed, 1);
        for (let length = 1; length < bytes.length; length++) {
            const { inspection, rows } = inspected(Uint8Array.from(bytes.slice(0, length)));
            assert.deepEqual([inspection.refusal.name, inspection.refusal.offset], ['Truncated', length]);
            assert.equal(rows.at(-1).hex.mark, 'end');
            const all = rows.map(({ hex }) => hex.before + hex.after).join(' ').replace(/\s/g, '');
            assert.equal(all, hexOf(bytes.slice(0, length)));
        }
    }
});

test('the path to what is refused', () => {
    const paths = [
        ['9f82f5fb', 'Float', 3, '$[0][1]'],
        ['a1626869c1a10181ff', 'StrayBreak', 8, '$."hi"(1).1[0]'],
        ['a1820102f97c00', 'Float', 4, '$.[1, 2]'],
        ['a2616100616101', 'RepeatedKey', 4, '$, key 2 of the map at 0'],
        ['82a1000081a200010002', 'RepeatedKey', 8, '$[1][0], key 2 of the map at 5'],
        ['0181d863f90000', 'Float', 4, '$[0](99)'],
        ['815f4100f6', 'BadChunk', 4, '$[0]'],
        ['82616162c328', 'InvalidText', 4, '$[1]'],
        ['a17f616161627f', 'BadChunk', 6, '$, key 1 of the map at 0'],
        ['bfa1000180ff1c', 'Reserved', 6, '$'],
    ];
    for (const [hex, name, offset, path] of paths) {
        const { refusal } = inspected(bytesOf(hex)).inspection;
        assert.deepEqual([refusal.name, refusal.offset, refusal.path], [name, offset, path], hex);
    }
});

test('what a string holds', () => {
    const meaningOf = text => {
        const bytes = Buffer.from(text), head = [0x79, bytes.length >> 8, bytes.length & 255];
        return inspected(Uint8Array.from([...head, ...bytes])).rows[1].meaning;
    };
    assert.equal(meaningOf('ü水𐅑'), '"ü水𐅑"');
    assert.equal(meaningOf('"\\\n\u007f'), '"\\"\\\\\\u000a\\u007f"');
    assert.equal(meaningOf('\ufeffa'), '"\ufeffa"');
    assert.equal(meaningOf('水'.repeat(30)), `"${'水'.repeat(21)}"…`); // 64 bytes hold 21 characters of 3 bytes
    assert.equal(inspected(Uint8Array.from([0x58, 100, ...Array(100).fill(7)])).rows[1].meaning, `h'${'07'.repeat(64)}'…`);
});

test('a long row is cut, and shows the marked byte', () => {
    const bytes = Uint8Array.from({ length: 256 }, (_, i) => i);
    assert.deepEqual(hexParts(bytes, 0, 3), { before: '00 01 02', mark: '', after: '' });
    assert.deepEqual(hexParts(bytes, 0, 3, 1), { before: '00', mark: '01', after: '02' });
    assert.deepEqual(hexParts(bytes, 0, 3, 3), { before: '00 01 02', mark: 'end', after: '' });
    const begin = '00 01 02 03 04 05 06 07 08 09 0a 0b 0c 0d 0e 0f';
    assert.deepEqual(hexParts(bytes, 0, 200), { before: begin, mark: '', after: ' … (200 bytes)' });
    assert.deepEqual(hexParts(bytes, 0, 200, 100), { before: `${begin} … 60 61 62 63`, mark: '64', after: '65 66 67 68 … (200 bytes)' });
    assert.deepEqual(hexParts(bytes, 0, 200, 199), { before: `${begin} … c3 c4 c5 c6`, mark: 'c7', after: ' … (200 bytes)' });
});

const INTEGERS = 'a10126'; // {1: -7}
const named = (hex, options) => inspected(bytesOf(hex), options).rows.filter(row => row.name).map(row => [row.meaning, row.name]);

test('names of tags, and of labels of COSE and CWT', () => {
    const meanings = hex => inspected(bytesOf(hex)).rows[0].meaning;
    for (const [hex, meaning] of [
        ['d28440a0f640', 'tag 18: COSE_Sign1'], ['d83d00', 'tag 61: CBOR Web Token (CWT)'], ['d8404101', 'tag 64: typed array of 8-bit unsigned integers'],
        ['d9d9f700', 'tag 55799: self-described CBOR'], ['d8344401020304', 'tag 52: IPv4 address'], ['d86300', 'tag 99'],
        ['dbffffffffffffffff00', 'tag 18446744073709551615'],
    ]) assert.equal(meanings(hex), meaning);
    // RFC 9052, appendix C.2.1: the unprotected header has kid; there are no names without the tag
    assert.deepEqual(named('d28443a10126a10442313154546869732069732074686520636f6e74656e742e40'), [['unsigned integer 4', 'kid']]);
    assert.deepEqual(named('8443a10126a10442313140'), []);
    assert.deepEqual(named(INTEGERS), []);
    assert.deepEqual(named(INTEGERS, { known: KNOWN.headers }), [['unsigned integer 1', 'alg'], ['negative integer -7', 'ES256']]);
    assert.deepEqual(named('a10126', { known: KNOWN.claims })[0], ['unsigned integer 1', 'iss, issuer (CWT)']);
    assert.deepEqual(named('a4010220012158200000000000000000000000000000000000000000000000000000000000000000' + '2240', { known: KNOWN.keys }).map(it => it[1]),
        ['kty', 'crv, or k', 'x', 'y']);
    // {8: {1: {1: 2}}}, the claim cnf with a COSE_Key; and a key of a map in it that is not an integer
    assert.deepEqual(named('a108a101a10102', { known: KNOWN.claims }).map(it => it[1]), ['cnf, confirmation (CWT)', 'COSE_Key', 'kty']);
    assert.deepEqual(named('a2810101616101', { known: KNOWN.claims }), []);
    assert.deepEqual(named('a13bfffffffffffffffe00', { known: KNOWN.claims }), []);
});

/** A CWT as a COSE_Sign1 (RFC 8392, appendix A.3, with fewer claims): its claims are in a byte string. */
const PAYLOAD = 'a2017563' + '6f61703a2f2f61732e6578616d706c652e636f6d' + '0400';
const CWT = `d28443a10126a104423131581a${PAYLOAD}4101`;

test('a byte string that holds an item', () => {
    const { inspection, rows } = inspected(bytesOf(CWT)), held = rows.filter(row => row.held).map(row => row.held);
    assert.equal(inspection.refusal, undefined);
    assert.deepEqual(held.map(({ from, end }) => hexOf(bytesOf(CWT).subarray(from, end))).slice(0, 1), ['a10126']);
    const inner = inspection.inner(held[0]), shown = new Rows(inner).page(0, 9);
    assert.deepEqual(shown.map(row => [row.meaning, row.name]), [['map, 1 pair', ''], ['unsigned integer 1', 'alg'], ['negative integer -7', 'ES256']]);
    const claims = held.find(({ from, end }) => end - from === 26), names = new Rows(inspection.inner(claims)).page(0, 9).map(row => row.name);
    assert.deepEqual(names.filter(Boolean), ['iss, issuer (CWT)', 'exp, expiration time (CWT)']);
    for (const [hex, count] of [['4101', 1], ['40', 0], ['420102', 0], ['41ff', 0], ['43f93c00', 0], ['6101', 0], ['5f4101ff', 0], ['d8184101', 1], ['424101', 1]]) {
        assert.equal(inspected(bytesOf(hex)).rows.filter(row => row.held).length, count, hex);
    }
    // an item within an item within a byte string
    const outer = inspected(bytesOf('01434241054101')), first = outer.rows.find(row => row.held).held;
    assert.deepEqual(first, { head: 1, from: 2, end: 5 });
    const second = new Rows(outer.inspection.inner(first)).page(0, 9);
    assert.deepEqual(second.map(row => [row.offset, row.meaning]), [[0, 'byte string, 2 bytes'], [1, "h'4105'"]]);
    assert.deepEqual(second[1].held, { head: 0, from: 1, end: 3 });
});

test('a float is shown with its value', () => {
    // RFC 8949, appendix A
    for (const [hex, value] of [
        ['f90000', '0'], ['f98000', '-0'], ['f93c00', '1'], ['fb3ff199999999999a', '1.1'], ['f93e00', '1.5'], ['f97bff', '65504'],
        ['fa47c35000', '100000'], ['fa7f7fffff', '3.4028234663852886e+38'], ['fb7e37e43c8800759c', '1e+300'], ['f90001', '5.960464477539063e-8'],
        ['f90400', '0.00006103515625'], ['f9c400', '-4'], ['fbc010666666666666', '-4.1'], ['f97c00', 'Infinity'], ['f97e00', 'NaN'], ['f9fc00', '-Infinity'],
    ]) {
        const { inspection, rows } = inspected(bytesOf(`82${hex}00`)), precision = { 3: 'half', 5: 'single', 9: 'double' }[hex.length / 2];
        assert.deepEqual([inspection.refusal.name, inspection.refusal.float.value, inspection.refusal.float.precision], ['Float', value, precision], hex);
        assert.deepEqual(rows.map(row => row.meaning), ['array, 2 members', `float ${value}, ${precision} precision`, 'not read']);
        assert.equal(rows[1].hex.mark + rows[1].hex.after.replaceAll(' ', ''), hex);
    }
    const cut = inspected(bytesOf('82fb3ff1'));
    assert.deepEqual([cut.inspection.refusal.float, cut.rows[1].meaning], [undefined, 'refused here']);
});

test('JSON and diagnostic notation get a sentence that says what to paste', () => {
    for (const text of ['{"a": 1}', '[1, 2]', '"text"', ' {\n"a": [true]}', 'true', 'null']) {
        assert.throws(() => bytesOfText(text, 'auto'), /^Error: This is JSON.* Paste the bytes of the CBOR/, text);
    }
    for (const text of ["{1: h'00'}", "h'0102'", '24(0)', "[1, h'']", '<<1, 2>>', 'undefined', 'simple(5)', "(_ h'01')"]) {
        assert.throws(() => bytesOfText(text, 'auto'), /^Error: This looks like diagnostic notation\. Paste the bytes/, text);
    }
    assert.equal(hexOf(bytesOfText('true', 'base64')), 'b6bb9e');
    assert.equal(hexOf(bytesOfText('24 01', 'auto')), '2401');
});

// ---- time

/** An inspection whose first page was made. */
function inspect(bytes) {
    const inspection = new Inspection(naltvigo, bytes, { ...OPTIONS, depth: 1024 });
    inspection.run(() => {});
    new Rows(inspection).page(0, 200);
    return inspection;
}

/** A map of these keys, in bytes, each with the value 0. */
const mapOf = keys => Buffer.concat([Buffer.of(0xba), uint32(keys.length), ...keys.flatMap(key => [key, Buffer.of(0)])]);
const uint32 = number => Buffer.from([24, 16, 8, 0].map(shift => number >>> shift & 255));
const integer = number => Buffer.concat([Buffer.of(0x1a), uint32(number)]);
const numbers = count => Array.from({ length: count }, (_, i) => i);

test('1 MiB of chosen keys takes at most 5 times as long as 1 MiB of harmless ones', () => {
    const size = 1 << 20, harmless = mapOf(harmlessIntegers(Math.floor(size / 6)).map(integer));
    const families = {
        integers: Buffer.concat([Buffer.of(0x98, 40), ...Array(40).fill(mapOf(chosenIntegers(4000).map(integer)))]),
        'texts with one start': mapOf(numbers(1000).map(i => Buffer.concat([Buffer.of(0x79, 4, 0), Buffer.from(String(i).padStart(1024, 'x'))]))),
        'deep keys': mapOf(numbers(size / 512).map(i => Buffer.concat([Buffer.alloc(506, 0x81), integer(i)]))),
        'keys in keys': mapOf(numbers(size / 512).map(i => Buffer.concat([Buffer.alloc(250, 0xa1), integer(i), Buffer.alloc(250)]))),
        'deep values': Buffer.concat([Buffer.of(0x9f), ...numbers(size / 2001).map(() => Buffer.from('a100'.repeat(1000) + '00', 'hex')), Buffer.of(0xff)]),
    };
    const timeOfByte = bytes => leastTime(() => inspect(bytes), 2) / bytes.length;
    for (const [name, bytes] of Object.entries(families)) {
        const ratio = leastOf(() => timeOfByte(bytes) / timeOfByte(harmless), 5);
        assert.ok(ratio <= 5, `${name}: ${ratio} times as long`);
    }
});

const pairs = (count, ...bytes) => Buffer.concat(Array(count).fill(Buffer.from(bytes)));
const KIBIBYTES = {
    arrays: Buffer.concat([Buffer.alloc(1000, 0x81), Buffer.of(0)]),
    tags: Buffer.concat([Buffer.alloc(1000, 0xc1), Buffer.of(0)]),
    values: Buffer.concat([pairs(500, 0xa1, 0), Buffer.of(0)]),
    keys: Buffer.concat([Buffer.alloc(500, 0xa1), Buffer.alloc(501)]),
    members: Buffer.concat([Buffer.of(0x9f), Buffer.alloc(1000), Buffer.of(0xff)]),
    integers: mapOf(chosenIntegers(169).map(integer)),
    chunks: Buffer.concat([Buffer.of(0x5f), pairs(500, 0x41, 0), Buffer.of(0xff)]),
    'strings that hold no item': Buffer.concat([Buffer.of(0x9f), pairs(500, 0x41, 0xff), Buffer.of(0xff)]),
};

test('no item of 1 KiB takes more than five milliseconds beyond its check', () => {
    for (const [name, bytes] of Object.entries(KIBIBYTES)) {
        assert.ok(bytes.length <= 1024 && bytes.length >= 1000);
        for (let i = 0; i < 20; i++) inspect(bytes); // compiled before it is measured
        const most = 5 * millisecond(naltvigo.check), time = beyond(() => inspect(bytes), () => naltvigo.check(bytes, { depth: 1024 }), most);
        assert.ok(time <= most, `${name}: ${time} ms beyond its check`);
    }
});

test('an input has space for as many events as it has bytes, and all events fit', () => {
    const items = Object.values(KIBIBYTES), large = Buffer.concat([Buffer.of(0x9f), Buffer.alloc(200000), Buffer.of(0xff)]);
    const refused = items.map(bytes => bytes.subarray(0, -1));
    for (const bytes of [KIBIBYTES.members, KIBIBYTES.chunks, large]) assert.equal(inspect(bytes).trace.count, bytes.length);
    for (const bytes of [Buffer.of(), Buffer.of(0x40), ...items, ...refused, Buffer.concat(items), Buffer.concat([...items, ...refused]), large]) {
        const { columns, count } = inspect(bytes).trace, space = columns.reduce((sum, { offset }) => sum + offset.length, 0);
        assert.ok(count <= space && space <= bytes.length, `${count} events, ${space} rows, ${bytes.length} bytes`);
    }
});
