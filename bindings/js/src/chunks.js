// Bytes that come in chunks.

/** The chunks as an iterable, for `for await`. `call` takes chunks, and `other` a buffer. */
export function iterableOf(chunks, call, other) {
    if (ArrayBuffer.isView(chunks)) throw new TypeError(`naltvigo: ${call} takes an iterable of chunks; ${other} takes a buffer`);
    if (typeof (chunks?.[Symbol.asyncIterator] ?? chunks?.[Symbol.iterator]) === 'function' && typeof chunks !== 'string') return chunks;
    if (typeof chunks?.getReader === 'function') return chunksOf(chunks.getReader());
    throw new TypeError('naltvigo: the chunks are an iterable or a ReadableStream of Uint8Arrays or other buffers');
}

/** Of a ReadableStream that is not an iterable, as in Safari. */
async function* chunksOf(reader) {
    try {
        for (let read = await reader.read(); !read.done; read = await reader.read()) yield read.value;
    } finally {
        await reader.cancel();
    }
}
