// What tsc --strict must accept, and must refuse. It is compiled, and not run.
import {
    canonicalise, check, checkCanonical, Checker, checkStream, decode, DecodeError, diagnostic, encode, EncodeError, events,
    freeMemory, items, readItems, Refused, same, Simple, SortedMap, Tag, version,
} from 'naltvigo';
import type { Event, ObjectValue, Options, Value } from 'naltvigo';
import { hasMemory64, load, type Naltvigo } from 'naltvigo/load';

const options: Options = { depth: 8, maxBytes: 1n << 30n, order: 'length', keys: 'basic' };
const data: Uint8Array = encode({ a: [1, 2n, 'x', null, undefined, new Map([[1, new Tag(2, new Simple(3))]])] }, options);
const value: Value = decode(data, { canonical: true, ...options });
if (value instanceof Map) for (const [key, it] of value) if (typeof key === 'number' && Array.isArray(it)) it.push(key);
if (value instanceof Tag) encode(value.content);
if (value instanceof SortedMap) encode(new Map(value));
const object: ObjectValue = decode(data, { maps: 'object' });
if (typeof object === 'object' && object !== null && !Array.isArray(object)) encode(object);
const canonical: Uint8Array = canonicalise(data.buffer, { order: 'bytewise' });
const nothing: void = check(new DataView(data.buffer));
checkCanonical(canonical);
const isSame: boolean = same(data, canonical);
const text: string = diagnostic(data).toUpperCase();
for (const item of items(data, { canonical: true })) item.subarray(1);
for (const event of events([data, data.buffer])) {
    const it: Event = event;
    if (it.kind === 'piece') it.data?.byteLength;
    if (it.number !== undefined) BigInt(it.number);
}
try {
    check(data);
} catch (error) {
    if (error instanceof Refused) [error.reason + error.offset + error.consumed, error.reasonName + error.sentence, error.path?.length];
    if (error instanceof EncodeError || error instanceof DecodeError) error.path.length;
}
export async function readAll(stream: ReadableStream<Uint8Array>, chunks: AsyncIterable<Uint8Array>): Promise<void> {
    for await (const item of readItems(stream, { canonical: true })) decode(item);
    for await (const item of readItems(chunks)) item.subarray(1);
    for await (const item of readItems([data])) item.subarray(1);
    freeMemory();
}
const checker: Checker = new Checker(options);
const whole: boolean = checker.feed(data) + checker.consumed > 0 && checker.complete;
export async function checkAll(stream: ReadableStream<Uint8Array>, chunks: AsyncIterable<Uint8Array>): Promise<number> {
    await stream.pipeTo(checker.writable());
    const sink: WritableStream<Uint8Array> = checker.writable();
    await sink.getWriter().write(data);
    checker.end();
    checker.restart();
    checker.free();
    return await checkStream(stream, options) + await checkStream(chunks) + await checkStream([data, data.buffer]);
}
const loaded: Promise<Naltvigo> = load(fetch(hasMemory64() ? 'a' : 'b'));
loaded.then(({ encode: put, Checker: Own }) => put(version() + new Own().consumed));
interface Point { x: number; y: number }
const point: Point = { x: 1, y: 2 };
encode(point);
export const used = [nothing, isSame, text, whole];

// @ts-expect-error: there is no such order
canonicalise(data, { order: 'sorted' });
// @ts-expect-error: nor such an option
canonicalise(data, { max_bytes: 1 });
// @ts-expect-error: canonical is of decode and items alone
check(data, { canonical: true });
// @ts-expect-error: nor of a checker
new Checker({ canonical: true });
// @ts-expect-error: a buffer is checked by checkCanonical
checkStream(data);
// @ts-expect-error: nor such maps
decode(data, { maps: 'objects' });
// @ts-expect-error: a SortedMap is made by decode alone
new SortedMap([], []);
// @ts-expect-error: hex is not a buffer
decode('00');
// @ts-expect-error: a simple value's number is a number
new Simple(1n);
// @ts-expect-error: a list of numbers is not a buffer
canonicalise([1, 2]);
