// Plants bugs in the package, one at a time, in a copy of it, and shows that a test fails for each: planted.mjs [--all | NUMBER ..]
//
// Without an argument it tries every fourth bug, beginning with one that the commit decides, so that all come in turn.
import { execFileSync, spawn } from 'node:child_process';
import { cpSync, mkdirSync, mkdtempSync, readFileSync, rmSync, symlinkSync, writeFileSync } from 'node:fs';
import { tmpdir } from 'node:os';
import { join } from 'node:path';
import { fileURLToPath } from 'node:url';

const IN_TURN = 4;

/** The file of src/, a text that is there once, its replacement, and the test file that must fail. */
const BUGS = [
    ['calls.js', 'other = inputOf(right, given)', 'other = inputOf(left, given)', 'rows'],
    ['calls.js', 'instance.secondResult() === 0', 'instance.secondResult() !== 0', 'rows'],
    ['calls.js', 'isLeft ? a : b', 'a', 'calls'],
    ['instance.js', '{ reasonName, sentence, advice, path: input && path }', '{ reasonName, sentence, advice: sentence, path: input && path }', 'calls'],
    ['instance.js', 'reason, BigInt(offset), to, space', 'reason, BigInt(consumed), to, space', 'calls'],
    ['items.js', '{ pointer, length: window.length - at }', '{ pointer: input, length: window.length }', 'calls'],
    ['checker.js', 'subarray(used, used + WINDOW)', 'subarray(used)', 'checker_memory'],
    ['checker.js', 'if (used === bytes.length) break;', 'break;', 'checker'],
    ['checker.js', 'this.consumed += count;', 'this.consumed = count;', 'checker'],
    ['checker.js', 'else this.#error = this.#handle', 'else throw this.#handle', 'checker'],
    ['checker.js', '        this.#release();\n        this.#throwError();\n    }', '        this.#throwError();\n    }', 'checker_memory'],
    ['checker.js', 'unreachable.register(this, this.#handle, this.#handle);', '', 'checker_memory'],
    ['checker.js', 'if (this.feed(bytes) === bytes.length) return;', 'this.feed(bytes);\n        return;', 'check_stream'],
    ['checker.js', 'throw handle.instance.error(', 'throw this.#error = handle.instance.error(', 'checker'],
    ['checker.js', 'close: () => check.close(),', 'close: () => {},', 'check_stream'],
    ['checker.js', 'close: () => check.close(),', 'close: () => check.end(),', 'check_stream'],
    ['checker.js', 'while (!this.instance.isUsable) this.instance = this.library.heirOf(this.instance);', '', 'checker_memory'],
    ['checker.js', '        this.isWhole = false;\n', '', 'checker_memory'],
    ['instance.js', 'if (size > 0) release(pointer);\n        release(before.first);', 'if (false) release(pointer);', 'checker_memory'],
    ['decode.js', 'given.canonical) throw', '!given.canonical) throw', 'rows'],
    ['decode.js', 'high === 0 ? low : numberOf(low, high)', 'low', 'thresholds'],
    ['decode.js', 'new Array(argument); inner = argument;', 'new Array(argument); inner = argument & 0xffff;', 'thresholds'],
    ['decode.js', 'inner = 2 * argument;', 'inner = 2 * (argument & 0xffff);', 'maps'],
    ['decode.js', 'made[made.length - missing] = value;', 'made.push(value);', 'values'],
    ['decode.js', 'if (name in Object.prototype)', 'if (false)', 'maps'],
    ['decode.js', 'argument < Number.MAX_SAFE_INTEGER', 'argument <= Number.MAX_SAFE_INTEGER', 'values'],
    ['decode.js', "if (typeof key === 'string') return key;", "if (typeof key !== 'object') return key;", 'maps'],
    ['decode.js', 'this.bytes.slice(from', 'this.bytes.subarray(from', 'values'],
    ['output.js', 'text.isWellFormed ? !text.isWellFormed()', 'text.length > 65 ? false : text.isWellFormed ? !text.isWellFormed()', 'thresholds'],
    ['output.js', '/\\p{Surrogate}/u.test(text)', '/\\p{Surrogate}/u.test(text.slice(0, 65))', 'thresholds'],
    ['encode.js', 'open.length > depth', 'open.length >= depth', 'values'],
    ['encode.js', 'if (map instanceof SortedMap) map.forEach(take);', 'if (false) map.forEach(take);', 'maps'],
    ['encode.js', '!(at - 1 in members)', '!(at in members)', 'values'],
    ['encode.js', 'const why = problemOfTag(number);', 'const why = undefined;', 'values'],
    ['encode.js', 'mapSize.call(item);\n', '', 'values'],
    ['events.js', 'piece.number += event.number', 'piece.number = event.number', 'thresholds'],
    ['events.js', 'if (error) throw error;', '', 'streams'],
    ['input.js', '+ 1) : bytes', ') : bytes', 'rows'],
    ['input.js', 'bytes.length > maxBytes ?', 'false ?', 'hostile'],
    ['input.js', 'return viewOf(typedArrayName(data) ? ofTypedArray : ofDataView, data);', 'return data instanceof Uint8Array ? data : viewOf(typedArrayName(data) ? ofTypedArray : ofDataView, data);', 'thin'],
    ['input.js', 'if (isArrayBuffer(data))', "if (Object.prototype.toString.call(data).endsWith('ArrayBuffer]'))", 'thin'],
    ['instance.js', '        if (this.size > 0) release(this.pointer);\n        this.size = 0;\n', '        if (this.size > 0) release(this.pointer);\n', 'thin'],
    ['instance.js', 'this.size > 0 && count <= this.size', 'count <= this.size', 'thin'],
    ['instance.js', 'return Number(numberAt(this.words(), offset))', 'return Number(numberAt(this.words(), offset)) & 0xffff', 'thresholds'],
    ['instance.js', 'view.getUint32(4 * i, true)', 'view.getUint32(4 * i)', 'thin'],
    ['instance.js', 'this.isUsable = false;\n        const status = call();', 'const status = call();', 'memory'],
    ['instance.js', 'high < 0x200000', 'high < 0x400000', 'values'],
    ['items.js', 'if (ends.length === 0) size *= 2;', '', 'thresholds'],
    ['items.js', 'Math.min(size, this.most)', 'this.most', 'hostile'],
    ['items.js', 'item: this.count + ends.length + 1', 'item: ends.length + 1', 'hostile'],
    ['items.js', 'start: this.start + at', 'start: at', 'hostile'],
    ['items.js', 'if (isAll && !isEnd) break;', 'if (isAll && !isEnd) return data.subarray(0, 0);', 'read_items'],
    ['items.js', 'this.isAtEnd = this.#machine.isComplete || error !== undefined;', 'this.isAtEnd = this.#machine.isComplete;', 'read_items'],
    ['load.js', 'given?.ok === false', 'false', 'thin'],
    ['machine.js', 'this.consumed += used;', 'this.consumed = used;', 'streams'],
    ['output.js', 'if (this.bytes.length === KEPT) Output', 'Output', 'thin'],
    ['output.js', 'const begin = this.length, count = text.length;', 'const begin = 0, count = text.length;', 'values'],
    ['output.js', '| bytes[length + 1];', ';', 'thresholds'],
    ['output.js', 'Math.min(count, this.most)', 'count', 'hostile'],
    ['refused.js', "'name', { value: 'Refused'", "'name', { value: 'Error'", 'calls'],
    ['sorted_map.js', 'keys.some(isHashedByValue)', 'keys.every(isHashedByValue)', 'maps'],
    ['sorted_map.js', 'const PAIRS = 255;', 'const PAIRS = 100000;', 'hostile'],
    ['sorted_map.js', 'keys[sorted[low]] === key', 'keys[sorted[low]] == key', 'maps'],
    ['sorted_map.js', 'this.#others.get(key) ?? -1', '-1', 'maps'],
    ['sorted_map.js', 'Map.prototype.set.call(this, NO_CLONE);', '', 'maps'],
    ['texts.js', 'text.length === length && isSame', 'isSame', 'thresholds'],
    ['texts.js', ' && isSame(text, bytes, from)', '', 'thresholds'],
    ['copies.js', 'this === type ?', 'true ?', 'values'],
    ['texts.js', 'if (bits > 127)', 'if (bits > 255)', 'thresholds'],
];

const own = fileURLToPath(new URL('../', import.meta.url)), root = join(own, '../..');

/** A copy of the package in a folder, with what its tests read of the repository. */
function copyTo(folder) {
    const copy = join(folder, 'bindings/js');
    mkdirSync(copy, { recursive: true });
    for (const part of ['crates', 'c', 'include', 'LICENSE-MIT', 'LICENSE-APACHE']) symlinkSync(join(root, part), join(folder, part));
    for (const part of ['src', 'tests', 'package.json', 'README.md']) cpSync(join(own, part), join(copy, part), { recursive: true });
    symlinkSync(join(own, 'wasm'), join(copy, 'wasm'));
    return copy;
}

/** Whether a test file passes, within this many seconds. */
const passes = (copy, test, seconds) => new Promise(resolve => {
    const child = spawn(process.execPath, [...process.execArgv, '--test', join(copy, 'tests', `${test}.test.mjs`)], { stdio: 'ignore', timeout: Math.ceil(1000 * seconds) });
    child.on('exit', status => resolve(status === 0));
});

/** How long each of these test files may take with a bug: a few times as long as without one. */
async function limitsOf(copy, tests) {
    const limits = {};
    for (const test of new Set(tests)) {
        const begin = performance.now();
        if (!await passes(copy, test, 3600)) throw new Error(`${test} fails without a bug`);
        limits[test] = 30 + 3 * (performance.now() - begin) / 1000;
    }
    return limits;
}

async function isFound(copy, [file, old, planted, test], limits) {
    const path = join(copy, 'src', file), text = readFileSync(path, 'utf8');
    writeFileSync(path, text.replace(old, () => planted));
    const isPassed = await passes(copy, test, limits[test]);
    writeFileSync(path, text);
    if (isPassed) console.log(`planted: not found by ${test}: ${file}: ${old}`);
    return !isPassed;
}

function chosen(words) {
    if (words[0] === '--all') return [...BUGS.keys()];
    if (words.length > 0) return words.map(Number);
    let commit = '0';
    try {
        commit = execFileSync('git', ['-C', root, 'rev-parse', 'HEAD'], { encoding: 'utf8', stdio: ['ignore', 'pipe', 'ignore'] });
    } catch { /* no repository: the first in turn */ }
    return [...BUGS.keys()].filter(i => i % IN_TURN === parseInt(commit.slice(0, 4), 16) % IN_TURN);
}

const folder = mkdtempSync(join(tmpdir(), 'planted-'));
try {
    const copy = copyTo(folder), numbers = chosen(process.argv.slice(2));
    for (const [file, old] of BUGS) if (readFileSync(join(copy, 'src', file), 'utf8').split(old).length !== 2) throw new Error(`${file} has not this once: ${old}`);
    const limits = await limitsOf(copy, numbers.map(number => BUGS[number][3]));
    let found = 0;
    for (const number of numbers) found += await isFound(copy, BUGS[number], limits);
    console.log(`planted: ${found} of ${numbers.length} bugs are found, of ${BUGS.length} that there are`);
    process.exitCode = found === numbers.length ? 0 : 1;
} finally {
    rmSync(folder, { recursive: true });
}
