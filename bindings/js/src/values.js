// The values that JavaScript has no type for, and the errors of values.
import { sharedByCopies } from './copies.js';

const WIDEST = (1n << 64n) - 1n;

/** Why this is not the number of a tag; undefined if it is one. */
export function problemOfTag(number) {
    const isInteger = typeof number === 'bigint' || Number.isSafeInteger(number);
    if (!isInteger) return "a tag's number is a safe integer or a bigint";
    return number < 0 || number > WIDEST ? `a tag's number is 0 to 2 ** 64 - 1, and not ${number}` : undefined;
}

/** Why this is not the number of a simple value; undefined if it is one. */
export function problemOfSimple(number) {
    const isOne = Number.isInteger(number) && number >= 0 && number <= 255 && (number < 20 || number >= 32);
    return isOne ? undefined : `a simple value's number is 0 to 19, or 32 to 255, and not ${String(number)}`;
}

/** A tag's number and its content. */
export class Tag {
    constructor(number, content) {
        const problem = problemOfTag(number);
        if (problem) throw new RangeError(`naltvigo: ${problem}`);
        this.number = number <= Number.MAX_SAFE_INTEGER ? Number(number) : number;
        this.content = content;
    }
}

/** A simple value: 0 to 19, or 32 to 255. The four between are false, true, null and undefined. */
export class Simple {
    constructor(number) {
        const problem = problemOfSimple(number);
        if (problem) throw new RangeError(`naltvigo: ${problem}`);
        this.number = number;
        Object.freeze(this);
    }
}

/** A noun with its article: 'a Date', 'an ArrayBuffer'. */
export const withArticle = noun => `${/^[aeio]/i.test(noun) ? 'an' : 'a'} ${noun}`;

class ValueError extends TypeError {
    constructor(path, problem) {
        super(`naltvigo: at ${path}: ${problem}`);
        this.path = path;
    }
}

/** A value that cannot be encoded. `path` leads to it, as in `$[2]."key"`. */
export class EncodeError extends ValueError {}

/** An item that has no value of the requested kind. `path` leads to it. */
export class DecodeError extends ValueError {}

// The names are written out, since tools that shorten code change those of classes.
for (const [type, name] of [[EncodeError, 'EncodeError'], [DecodeError, 'DecodeError']]) {
    Object.defineProperty(type.prototype, 'name', { value: name, writable: true, configurable: true });
    sharedByCopies(type, name);
}
sharedByCopies(Tag, 'Tag');
sharedByCopies(Simple, 'Simple');
