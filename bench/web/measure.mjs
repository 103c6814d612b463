// Times of the package's calls in an engine: `measure` is given the calls of the package, and two inputs by `bench/inputs.py`.

const bytes = hex => Uint8Array.from(hex.match(/../g), digits => parseInt(digits, 16));

// The claims of a token (RFC 8392, appendix A.1), and the same with the last claim first.
const CLAIMS = '0175636f61703a2f2f61732e6578616d706c652e636f6d02656572696b77037818636f61703a2f2f6c696768742e6578616d706c65'
    + '2e636f6d041a5612aeb0051a5610d9f0061a5610d9f0';
const LAST = '07420b71';
const canonical = bytes(`a7${CLAIMS}${LAST}`);
const unordered = bytes(`a7${LAST}${CLAIMS}`);

const isEqual = (a, b) => a.length === b.length && a.every((byte, i) => byte === b[i]);

/** The milliseconds of the quickest of some runs. */
function least(runs, now, run) {
    let best = Infinity;
    for (let i = 0; i < runs; i++) {
        const begin = now();
        run();
        best = Math.min(best, now() - begin);
    }
    return best;
}

const EACH = 10000;
const LARGE = { depth: 1024, maxBytes: 1n << 30n };

/** Numbers that are the same in every run. */
function numbers(seed) {
    let state = seed;
    return below => {
        state = Math.imul(state, 1664525) + 1013904223 | 0;
        return (state >>> 4) % below;
    };
}

/** 10,000 records of 9 members, as a service stores them: integers, texts, a hash, lists, a record within. */
function manyRecords() {
    const below = numbers(1), colors = ['red', 'green', 'blue', 'large'];
    return Array.from({ length: 10000 }, (_, i) => ({
        id: below(1 << 20) * (1 << 20) + below(1 << 20), name: `name-${i}`, active: below(2) === 1, parent: null,
        created: 1700000000 + below(1 << 24), balance: -below(1 << 20),
        tags: Array.from({ length: below(4) }, () => colors[below(4)]), hash: Uint8Array.from({ length: 32 }, () => below(256)),
        place: { street: `Hauptstraße ${below(99)}`, zip: below(99999) },
    }));
}

const hexOf = data => Array.from(data, byte => byte.toString(16).padStart(2, '0')).join('');

/** Milliseconds on 10,000 records, and on the same as JSON, in which the hash is hex digits. */
function onRecords({ decode, encode }, now) {
    const values = manyRecords(), data = encode(values, LARGE), plain = values.map(it => ({ ...it, hash: hexOf(it.hash) }));
    const json = JSON.stringify(plain), milliseconds = call => least(12, now, call);
    return {
        'encode 10,000 records, ms': milliseconds(() => encode(values, LARGE)),
        'JSON.stringify, ms': milliseconds(() => JSON.stringify(plain)),
        'decode 10,000 records, ms': milliseconds(() => decode(data, LARGE)),
        'decode them to objects, ms': milliseconds(() => decode(data, { ...LARGE, maps: 'object' })),
        'JSON.parse, ms': milliseconds(() => JSON.parse(json)),
    };
}

/** What was measured, by name: nanoseconds a call on the claims, megabytes a second on the records, milliseconds on 10,000. */
export function measure({ canonicalise, checkCanonical, decode, encode }, records, recordsCanonical, now = () => performance.now()) {
    const value = decode(canonical);
    const many = call => () => { for (let i = 0; i < EACH; i++) call(); };
    const nanoseconds = call => Math.round(least(20, now, many(call)) / EACH * 1e6);
    const speed = (data, call) => Math.round(data.length / least(12, now, () => call(data)) / 1e3);
    if (!isEqual(canonicalise(records, LARGE), recordsCanonical)) throw new Error('the records are canonicalised otherwise');
    if (!isEqual(encode(value), canonical)) throw new Error('the claims are encoded otherwise');
    return {
        'canonicalise, canonical claims, ns': nanoseconds(() => canonicalise(canonical)),
        'canonicalise, claims out of order, ns': nanoseconds(() => canonicalise(unordered)),
        'check canonical claims, ns': nanoseconds(() => checkCanonical(canonical)),
        'canonicalise, records, MB/s': speed(records, data => canonicalise(data, LARGE)),
        'canonicalise, canonical records, MB/s': speed(recordsCanonical, data => canonicalise(data, LARGE)),
        'check canonical records, MB/s': speed(recordsCanonical, data => checkCanonical(data, LARGE)),
        'encode claims, ns': nanoseconds(() => encode(value)),
        'decode claims, ns': nanoseconds(() => decode(canonical)),
        ...onRecords({ decode, encode }, now),
    };
}
