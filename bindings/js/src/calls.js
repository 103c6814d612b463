// The calls on whole items.
import { inputOf } from './input.js';
import { DIFFERENT, OK, REFUSED } from './numbers.js';
import { settings } from './options.js';

const TEXT = new TextDecoder('utf-8', { ignoreBOM: true });

/** The canonical bytes in the module's memory, which are valid up to its next call. `bytes` is within the limit, or one more. */
export function canonicalRegion(library, bytes, given) {
    const { order, keys, depth, maxBytes } = given, instance = library.instance(), { exports, first, refusal, output } = instance;
    const input = instance.left.put(bytes);
    const length = instance.write(output, bytes.length, (pointer, space) => exports.naltvigo_canonicalise_raw(
        input.pointer, input.size, order, keys, depth, maxBytes, pointer, space, first, refusal));
    if (length < 0) throw instance.error(REFUSED, given, input);
    return { instance, block: output, length };
}

export function canonicalBytes(library, bytes, given) {
    const { instance, block: { offset }, length } = canonicalRegion(library, bytes, given);
    return instance.bytes().slice(offset, offset + length);
}

export function canonicalise(library, data, options) {
    const given = settings(options);
    return canonicalBytes(library, inputOf(data, given), given);
}

export function check(library, data, options) {
    const given = settings(options), { keys, depth, maxBytes } = given, bytes = inputOf(data, given);
    const instance = library.instance(), { exports, refusal } = instance, input = instance.left.put(bytes);
    const status = instance.run(() =>
        exports.naltvigo_check_valid_raw(input.pointer, input.size, keys, depth, maxBytes, refusal));
    if (status !== OK) throw instance.error(status, given, input);
}

export function checkCanonical(library, data, options) {
    const given = settings(options), { order, keys, depth, maxBytes } = given, bytes = inputOf(data, given);
    const instance = library.instance(), { exports, refusal } = instance, input = instance.left.put(bytes);
    const status = instance.run(() =>
        exports.naltvigo_check_canonical_raw(input.pointer, input.size, order, keys, depth, maxBytes, refusal));
    if (status !== OK) throw instance.error(status, given, input);
}

export function same(library, left, right, options) {
    const given = settings(options), { keys, depth, maxBytes } = given, one = inputOf(left, given), other = inputOf(right, given);
    const instance = library.instance(), { exports, second, refusal } = instance;
    const a = instance.left.put(one), b = instance.right.put(other);
    const status = instance.run(() => exports.naltvigo_compare_raw(
        a.pointer, a.size, b.pointer, b.size, keys, depth, maxBytes, second, refusal));
    if (status === OK || status === DIFFERENT) return status === OK;
    const isLeft = instance.secondResult() === 0;
    throw instance.error(status, given, isLeft ? a : b, { side: isLeft ? 'left' : 'right' });
}

export function diagnostic(library, data, options) {
    const given = settings(options), { keys, depth, maxBytes } = given, bytes = inputOf(data, given);
    const instance = library.instance(), { exports, first, refusal, output } = instance, input = instance.left.put(bytes);
    const length = instance.write(output, bytes.length, (pointer, space) => exports.naltvigo_diagnostic_raw(
        input.pointer, input.size, keys, depth, maxBytes, pointer, space, first, refusal));
    if (length < 0) throw instance.error(REFUSED, given, input);
    return TEXT.decode(instance.bytes().subarray(output.offset, output.offset + length));
}

export function version(library) {
    const number = library.instance().exports.naltvigo_version_raw();
    return `${number >> 16}.${number >> 8 & 255}.${number & 255}`;
}
