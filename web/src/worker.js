// Inspects inputs in parallel to the page, which stays responsive. A message is { id, call, given }, a reply { id, result }.
import { hasMemory64, load } from '../../bindings/js/src/load.js';
import { bytesOfText, hexOf, TextError } from './bytes.js';
import { Inspection } from './inspection.js';
import { moduleBytes } from './module.js';
import { KNOWN } from './names.js';
import { Rows } from './rows.js';

const FILE_MAX = 2 ** 29;
const SHORT = 16384; // bytes of a file that the page shows as hex, and of an input that a link holds

const bits = hasMemory64() ? 64 : 32;
const library = load(moduleBytes(`naltvigo${bits}.wasm`));

const INNER = 200; // rows of an item in a byte string

let inspection;
let rows;
let opened; // inspections of the items in byte strings that were opened, and the offsets of their first bytes

async function bytesOf({ text, format, file }) {
    if (!file) return bytesOfText(text, format);
    if (file.size > FILE_MAX) throw new TextError(`The file has more than ${FILE_MAX} bytes.`);
    return new Uint8Array(await file.arrayBuffer());
}

const calls = {
    async inspect({ source, settings }) {
        const naltvigo = await library, bytes = await bytesOf(source);
        inspection = new Inspection(naltvigo, bytes, { ...settings, known: KNOWN[settings.known] });
        inspection.run((task, done) => postMessage({ progress: { task, done, total: bytes.length } }));
        rows = new Rows(inspection);
        opened = [{ inspection, base: 0 }];
        const hex = bytes.length <= SHORT ? hexOf(bytes) : undefined;
        return { ...inspection.report(), rowCount: rows.count, hex, bits, version: naltvigo.version() };
    },

    rows: ({ from, count }) => rows.page(from, count),

    /** The rows of an item in a byte string, whose row is `held`, in what was opened as number `within`. */
    inner({ held, within }) {
        const outer = opened[within], inner = outer.inspection.inner(held), base = outer.base + held.from;
        opened.push({ inspection: inner, base });
        const all = new Rows(inner), number = opened.length - 1;
        const shown = all.page(0, INNER).map(row => ({ ...row, offset: base + row.offset, within: number }));
        return { rows: shown, more: all.count - shown.length };
    },

    rowAt: ({ offset }) => rows.indexAt(offset),

    items({ from, count }) {
        const list = [], to = Math.min(from + count, inspection.ends.length);
        for (let item = from + 1; item <= to; item++) list.push(inspection.item(item));
        return list;
    },

    /** The whole of an output. The report has only its beginning. */
    whole({ name }) {
        const { diagnostic, canonical } = inspection;
        return name === 'diagnostic' ? { text: diagnostic } : { text: hexOf(canonical), bytes: canonical };
    },
};

onmessage = async ({ data: { id, call, given } }) => {
    try {
        postMessage({ id, result: await calls[call](given) });
    } catch (error) {
        postMessage({ id, problem: error instanceof TextError ? error.message : `The page failed: ${error.message}` });
    }
};
