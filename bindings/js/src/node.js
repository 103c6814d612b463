// For Node: the module is read from next to this file.
import { readFile } from 'node:fs/promises';
import { hasMemory64, load } from './load.js';

export { DecodeError, EncodeError, Refused, Simple, SortedMap, Tag } from './load.js';

const address = new URL(`../wasm/naltvigo${hasMemory64() ? 64 : 32}.wasm`, import.meta.url);
const naltvigo = await load(readFile(address));

export const {
    canonicalise, check, checkCanonical, Checker, checkStream, decode, diagnostic, encode, events, freeMemory, items,
    readItems, same, version,
} = naltvigo;
