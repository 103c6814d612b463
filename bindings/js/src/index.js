// For browsers and bundlers: the module is fetched from next to this file.
import { hasMemory64, load } from './load.js';

export { DecodeError, EncodeError, Refused, Simple, SortedMap, Tag } from './load.js';

// Both addresses are written out, since bundlers look for them.
const address = hasMemory64()
    ? new URL('../wasm/naltvigo64.wasm', import.meta.url)
    : new URL('../wasm/naltvigo32.wasm', import.meta.url);
const naltvigo = await load(fetch(address));

export const {
    canonicalise, check, checkCanonical, Checker, checkStream, decode, diagnostic, encode, events, freeMemory, items,
    readItems, same, version,
} = naltvigo;
