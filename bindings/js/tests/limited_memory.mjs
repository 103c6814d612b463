// A module whose memory may not grow beyond a number of pages of 64 KiB.

/** A number in LEB128 at an offset, and where it ends. */
function leb128(bytes, at) {
    let number = 0, factor = 1;
    for (; bytes[at] > 127; at++, factor *= 128) number += (bytes[at] - 128) * factor;
    return [number + bytes[at] * factor, at + 1];
}

function toLeb128(number) {
    const bytes = [];
    for (; number > 127; number = Math.floor(number / 128)) bytes.push(number % 128 + 128);
    return [...bytes, number];
}

const MEMORY_SECTION = 5;

/** The module's bytes with a maximum for its memory: the pages that it begins with, and this many more. */
export function limitedMemory(bytes, morePages) {
    for (let at = 8; at < bytes.length;) {
        const [size, content] = leb128(bytes, at + 1), end = content + size;
        if (bytes[at] === MEMORY_SECTION) {
            const flags = bytes[content + 1], [pages] = leb128(bytes, content + 2);
            const section = [1, flags | 1, ...toLeb128(pages), ...toLeb128(pages + morePages)];
            const limited = [MEMORY_SECTION, ...toLeb128(section.length), ...section];
            return Uint8Array.from([...bytes.subarray(0, at), ...limited, ...bytes.subarray(end)]);
        }
        at = end;
    }
    throw new Error('the module has no memory');
}
