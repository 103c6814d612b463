// Integers that V8's Map would put into one of its buckets: its hash of an integer (ComputeUnseededHash) has no secret, and
// each of its steps can be inverted.

function inverse(odd) {
    let it = odd;
    for (let i = 0; i < 5; i++) it = Math.imul(it, 2 - Math.imul(odd, it));
    return it;
}

/** The number that `it ^ it >>> count` was made of. */
function unmixed(mixed, count) {
    let it = mixed;
    for (let i = 0; i < 32; i += count) it = mixed ^ it >>> count;
    return it;
}

const [BY_32767, BY_5, BY_2057] = [32767, 5, 2057].map(inverse);

/** The integer with this hash. */
function keyOf(hash) {
    let it = Math.imul(unmixed(hash, 16), BY_2057);
    it = Math.imul(unmixed(it, 4), BY_5);
    return Math.imul(unmixed(it, 12) + 1, BY_32767);
}

/** This many integers whose hashes differ only in the high bits, if that many exist. */
export function chosenIntegers(count) {
    const bits = 15, keys = new Set();
    for (let low = 0; keys.size < count; low++) {
        for (let high = 0; high < 1 << bits && keys.size < count; high++) keys.add(keyOf(high << 32 - bits | low));
    }
    return [...keys];
}

/** As many that nobody chose. */
export function harmlessIntegers(count) {
    const keys = new Set();
    for (let state = 1; keys.size < count; keys.add(state)) state = Math.imul(state, 1664525) + 1013904223 | 0;
    return [...keys];
}
