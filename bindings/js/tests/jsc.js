// JavaScriptCore, the engine of Safari, by itself: jsc tests/jsc.js -- MODULE. It has no TextDecoder, so the package cannot
// be loaded there; the module's exports are called as the package calls them.
const { exports } = new WebAssembly.Instance(new WebAssembly.Module(readFile(arguments[0], 'binary')), {});
const bytes = hex => Uint8Array.from(hex.match(/../g), digits => parseInt(digits, 16));
const given = bytes('bf6346756ef563416d7421ff'), wanted = bytes('a263416d74216346756ef5');
const input = exports.allocate(16n), output = exports.allocate(16n), results = exports.allocate(48n);
new Uint8Array(exports.memory.buffer).set(given, Number(input));
const status = exports.naltvigo_canonicalise_raw(input, BigInt(given.length), 0, 0, 64, 1n << 20n, output, 16n, results, results + 16n);
const found = new Uint8Array(exports.memory.buffer, Number(output), Number(new DataView(exports.memory.buffer).getBigUint64(Number(results), true)));
if (status !== 0 || String(found) !== String(wanted)) throw new Error(`status ${status}, ${found}`);
print('the canonical bytes');
