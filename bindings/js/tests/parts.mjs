// What the tests of checkers share.
import { bytes, rows } from './given.mjs';

export const LARGE = { maxBytes: 1 << 26, depth: 1024 };

/** Each row of the tables with the options of both orders, and the refusal by checkCanonical, or undefined. */
export function* byOrder() {
    for (const { given, depth, maxBytes, keys, results } of rows) {
        for (const [i, order] of ['bytewise', 'length'].entries()) {
            yield { data: bytes(given), options: { depth, maxBytes, keys, order }, result: results[i].strict ?? undefined };
        }
    }
}

export const cut = (data, size) => {
    const parts = [];
    for (let at = 0; at < data.length; at += size) parts.push(data.subarray(at, at + size));
    return parts;
};

/** A map of strings of this length as keys, each of them ending as the list says. */
export function mapOfLong(length, ends) {
    const parts = [Uint8Array.of(0xa0 + ends.length)];
    for (const end of ends) {
        const key = new Uint8Array(5 + length + 1), view = new DataView(key.buffer);
        view.setUint8(0, 0x5a);
        view.setUint32(1, length);
        key[4 + length] = end;
        parts.push(key);
    }
    return Uint8Array.from(Buffer.concat(parts));
}
