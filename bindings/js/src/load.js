// The calls over a module that the caller brings.
import { canonicalise, check, checkCanonical, diagnostic, same, version } from './calls.js';
import { checkerOf, checkStream } from './checker.js';
import { decode } from './decode.js';
import { encode } from './encode.js';
import { events } from './events.js';
import { Library } from './instance.js';
import { items, readItems } from './items.js';

export { Refused } from './refused.js';
export { SortedMap } from './sorted_map.js';
export { DecodeError, EncodeError, Simple, Tag } from './values.js';

// The smallest module with a memory of 64-bit addresses: a header, and a memory section of one page.
const MEMORY64 = Uint8Array.of(0, 97, 115, 109, 1, 0, 0, 0, 5, 3, 1, 4, 1);

/** Whether this engine can load naltvigo64.wasm; naltvigo32.wasm is for the others. */
export const hasMemory64 = () => WebAssembly.validate(MEMORY64);

async function compiled(source) {
    const given = await source;
    if (given instanceof WebAssembly.Module) return { module: given, instance: await WebAssembly.instantiate(given, {}) };
    if (given?.ok === false) throw new Error(`naltvigo: the module could not be fetched: ${given.url} has the status ${given.status}`);
    const bytes = typeof given?.arrayBuffer === 'function' ? await given.arrayBuffer() : given;
    return WebAssembly.instantiate(bytes, {});
}

/** The calls over a module, which comes as bytes, a WebAssembly.Module, a Response, or a promise of one of these. */
export async function load(source) {
    const { module, instance } = await compiled(source);
    return callsOver(new Library(module, instance));
}

/** The same at once, of bytes or a WebAssembly.Module: where nothing may be awaited. */
export function loadSync(source) {
    const module = source instanceof WebAssembly.Module ? source : new WebAssembly.Module(source);
    return callsOver(new Library(module, new WebAssembly.Instance(module, {})));
}

function callsOver(library) {
    const over = call => call.bind(undefined, library);
    return Object.freeze({
        canonicalise: over(canonicalise),
        check: over(check),
        checkCanonical: over(checkCanonical),
        Checker: checkerOf(library),
        checkStream: over(checkStream),
        decode: over(decode),
        diagnostic: over(diagnostic),
        encode: over(encode),
        events: over(events),
        freeMemory: () => library.freeMemory(),
        items: over(items),
        readItems: over(readItems),
        same: over(same),
        version: over(version),
    });
}
