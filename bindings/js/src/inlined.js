// The calls at once, over a module within the same file, for `require`: prepack.mjs makes cjs/naltvigo.cjs of it by esbuild,
// which writes the module's bytes into it.
import module from '../wasm/naltvigo32.wasm';
import { loadSync } from './load.js';

export * from './load.js';

export const {
    canonicalise, check, checkCanonical, Checker, checkStream, decode, diagnostic, encode, events, freeMemory, items,
    readItems, same, version,
} = loadSync(module);
