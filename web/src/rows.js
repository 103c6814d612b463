// The rows of annotated bytes, as the page shows them.
import { hexOf } from './bytes.js';
import { meaningOf } from './words.js';

const HEAD = 16; // how many bytes of a long row are shown
const AROUND = 4; // how many on each side of the marked one
const CONTROL = /["\\\u0000-\u001f\u007f]/g;

const escaped = character => (character === '"' || character === '\\'
    ? `\\${character}`
    : `\\u${character.charCodeAt(0).toString(16).padStart(4, '0')}`);

/** The bytes from `start` to `end` in hex: before the marked one, it, and after it. Long ones are cut. */
export function hexParts(bytes, start, end, marked) {
    const spaced = (from, to) => hexOf(bytes.subarray(from, to), ' ');
    const isLong = end - start > HEAD + 2 * AROUND, shown = isLong ? start + HEAD : end;
    const rest = isLong ? ` … (${end - start} bytes)` : '';
    if (marked === undefined || marked < start || marked > end) return { before: spaced(start, shown), mark: '', after: rest };
    if (marked === end) return { before: spaced(start, shown) + rest, mark: 'end', after: '' };
    const isFar = marked >= shown, from = isFar ? Math.max(shown, marked - AROUND) : start;
    const to = isFar ? Math.min(end, marked + 1 + AROUND) : shown;
    const skipped = isFar ? `${spaced(start, shown)} … ` : '';
    return { before: skipped + spaced(from, marked), mark: spaced(marked, marked + 1), after: spaced(marked + 1, to) + rest };
}

/** What a piece of a string holds. */
function contentOf(bytes, { offset, end, isText }) {
    const shown = Math.min(end, offset + 4 * HEAD), isCut = shown < end, part = bytes.subarray(offset, shown), rest = isCut ? '…' : '';
    if (!isText) return `h'${hexOf(part)}'${rest}`;
    // as a stream, so that a character that is cut is left out
    const text = new TextDecoder('utf-8', { ignoreBOM: true }).decode(part, { stream: isCut });
    return `"${text.replace(CONTROL, escaped)}"${rest}`;
}

export class Rows {
    constructor(inspection) {
        const { bytes, trace, refusal, notCanonical } = inspection;
        this.inspection = inspection;
        this.bytes = bytes;
        this.trace = trace;
        this.found = refusal ?? notCanonical;
        this.kind = refusal ? 'bad' : 'warn';
        /** A refused byte that has no event gets a row of its own, and so do the bytes after it. */
        this.extra = [];
        if (this.found?.row === trace.count) this.#addExtra();
        else if (trace.end < bytes.length) this.#addUnread(trace.end);
    }

    get count() {
        return this.trace.count + this.extra.length;
    }

    #addExtra() {
        const { bytes, trace, found } = this, { offset, float } = found;
        const end = float?.end ?? Math.min(bytes.length, offset + 1), depth = trace.nesting.open.length;
        const isAtEnd = offset >= bytes.length;
        const meaning = float ? `float ${float.value}, ${float.precision} precision` : isAtEnd ? 'the end of the input' : 'refused here';
        this.extra.push({ offset: trace.end, end, depth, meaning });
        if (end < bytes.length) this.#addUnread(end);
    }

    #addUnread(offset) {
        this.extra.push({ offset, end: this.bytes.length, depth: 0, meaning: 'not read' });
    }

    /** The row that shows the byte at this offset. */
    indexAt(offset) {
        const extra = this.extra.findLastIndex(it => it.offset <= offset);
        return extra >= 0 ? this.trace.count + extra : Math.max(0, this.trace.indexAt(offset));
    }

    row(index) {
        const { bytes, trace, found } = this, isExtra = index >= trace.count;
        const row = isExtra ? this.extra[index - trace.count] : trace.row(index);
        const meaning = isExtra ? row.meaning : row.kind === 'piece' ? contentOf(bytes, row) : meaningOf(row);
        const isMarked = found?.row === index;
        return {
            index,
            offset: row.offset,
            depth: row.depth,
            isKey: !!row.isKey,
            name: row.name ?? '',
            held: row.kind === 'piece' ? this.#heldIn(index, row) : undefined,
            hex: hexParts(bytes, row.offset, row.end, isMarked ? found.offset : undefined),
            meaning,
            note: isMarked ? `${found.name} at ${found.offset}: ${found.meaning}` : '',
            kind: isMarked ? this.kind : '',
        };
    }

    /** A byte string that holds one valid item: the offsets of its head, of its content, and after it. */
    #heldIn(index, { offset, end, isText }) {
        const head = isText ? undefined : this.trace.row(index - 1);
        const isWhole = head?.kind === 'bytes' && head.number === end - offset;
        return isWhole && this.inspection.isItem(offset, end) ? { head: head.offset, from: offset, end } : undefined;
    }

    page(from, count) {
        const rows = [];
        for (let index = from; index < Math.min(from + count, this.count); index++) rows.push(this.row(index));
        return rows;
    }
}
