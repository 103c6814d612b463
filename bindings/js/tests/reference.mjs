// An encoder of RFC 8949, sections 3 and 4.2, written for clarity; random values; and other encodings of them.
import { Simple, Tag } from 'naltvigo';
import { hex } from './given.mjs';

// The additional information of each size of argument, and the first number that is too large for it.
const ARGUMENTS = [[24, 1, 1n << 8n], [25, 2, 1n << 16n], [26, 4, 1n << 32n], [27, 8, 1n << 64n]];
const ORDINARY = [false, true, null, undefined];

function digits(number, size) {
    return [...Array(size).keys()].map(i => Number(BigInt(number) >> BigInt(8 * (size - 1 - i)) & 255n));
}

function headOf(major, number) {
    if (number < 24) return [major * 32 + Number(number)];
    const [information, size] = ARGUMENTS.find(([, , end]) => number < end);
    return [major * 32 + information, ...digits(number, size)];
}

const isInteger = value => typeof value === 'number' || typeof value === 'bigint';
const integer = (value, head) => (value >= 0 ? head(0, value) : head(1, -1n - BigInt(value)));

const compare = (a, b) => Buffer.compare(Buffer.from(a), Buffer.from(b));
const SORTS = {
    bytewise: ([a], [b]) => compare(a, b),
    length: ([a], [b]) => a.length - b.length || compare(a, b),
};

/** The canonical bytes of a value. */
export function encoded(value, order = 'bytewise') {
    if (ORDINARY.includes(value)) return [0xf4 + ORDINARY.indexOf(value)];
    if (isInteger(value)) return integer(value, headOf);
    if (typeof value === 'string') return [...headOf(3, Buffer.byteLength(value)), ...Buffer.from(value)];
    if (value instanceof Uint8Array) return [...headOf(2, value.length), ...value];
    if (Array.isArray(value)) return [...headOf(4, value.length), ...value.flatMap(member => encoded(member, order))];
    if (value instanceof Map) {
        const pairs = [...value].map(([key, it]) => [encoded(key, order), encoded(it, order)]).sort(SORTS[order]);
        return [...headOf(5, pairs.length), ...pairs.flat(2)];
    }
    if (value instanceof Tag) return [...headOf(6, value.number), ...encoded(value.content, order)];
    return value.number < 24 ? [0xe0 + value.number] : [0xf8, value.number];
}

/** Numbers on both sides of each change of a head's size, and of what is a safe integer. */
export const EDGES = [0, 23, 24, 255, 256, 65535, 65536, 2 ** 31, 2 ** 32 - 1, 2 ** 32, 2 ** 53 - 1].map(BigInt)
    .concat(2n ** 53n, 2n ** 53n + 1n, 2n ** 63n - 1n, 2n ** 63n, 2n ** 64n - 1n);

export const isSafe = number => number >= -(2n ** 53n) + 1n && number <= 2n ** 53n - 1n;

/** An integer as decode gives it. */
export const plain = number => (isSafe(number) ? Number(number) : number);

const CHARACTERS = ['a', '\0', 'é', '漢', '😀', '\ufeff'];

/** A random value, as deep as that. */
export function some(chance, depth) {
    const { below, from } = chance, inner = () => some(chance, depth - 1);
    switch (below(depth ? 11 : 7)) {
    case 0: return plain(from(EDGES));
    case 1: return plain(-1n - from(EDGES));
    case 2: return new Uint8Array(from([0, 1, 23, 24, 255, 256, 300])).fill(below(256));
    case 3: case 4: return Array.from({ length: below(40) }, () => from(CHARACTERS)).join('');
    case 5: return from(ORDINARY);
    case 6: return new Simple(from([0, 19, 32, 255]));
    case 7: case 8: return Array.from({ length: below(5) }, inner);
    case 9: {
        const pairs = Array.from({ length: below(6) }, () => [inner(), inner()]);
        return new Map(new Map(pairs.map(pair => [hex(encoded(pair[0])), pair])).values());
    }
    default: return new Tag(from(EDGES), inner());
    }
}

/** The same value in another encoding: long heads, indefinite lengths, chunks, pairs in any order. */
export function respelled(value, chance) {
    const { below, from } = chance, again = it => respelled(it, chance);
    const long = (major, number) => {
        const [information, size] = from(ARGUMENTS.filter(([, , end]) => BigInt(number) < end));
        return below(2) ? headOf(major, number) : [major * 32 + information, ...digits(number, size)];
    };
    const around = (major, count, content, parts) =>
        (below(2) ? [...long(major, count), ...content] : [major * 32 + 31, ...parts.flat(), 255]);
    const chunk = (major, part) => [...long(major, Buffer.from(part).length), ...Buffer.from(part)];
    if (isInteger(value)) return integer(value, long);
    if (typeof value === 'string') {
        return around(3, Buffer.byteLength(value), Buffer.from(value), [...value].map(character => chunk(3, character)));
    }
    if (value instanceof Uint8Array) return around(2, value.length, value, [...value].map(byte => chunk(2, [byte])));
    if (Array.isArray(value)) {
        const members = value.map(again);
        return around(4, members.length, members.flat(), members);
    }
    if (value instanceof Map) {
        const pairs = [...value].map(pair => pair.flatMap(again)).sort(() => below(3) - 1);
        return around(5, pairs.length, pairs.flat(), pairs);
    }
    return value instanceof Tag ? [...long(6, value.number), ...again(value.content)] : encoded(value);
}
