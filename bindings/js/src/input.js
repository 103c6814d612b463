// The input of a call, as bytes.
import { withArticle } from './values.js';

const wrongType = data =>
    new TypeError(`naltvigo: the input is a Uint8Array or another buffer, not ${data == null ? data : withArticle(typeof data)}`);

// Getters of the built-in prototypes: a subclass, or a property of the object itself, may say something else.
const getter = (prototype, name) => Object.getOwnPropertyDescriptor(prototype, name).get;
const TypedArray = Object.getPrototypeOf(Uint8Array);
const ofTypedArray = {
    buffer: getter(TypedArray.prototype, 'buffer'),
    offset: getter(TypedArray.prototype, 'byteOffset'),
    length: getter(TypedArray.prototype, 'byteLength'),
};
const ofDataView = {
    buffer: getter(DataView.prototype, 'buffer'),
    offset: getter(DataView.prototype, 'byteOffset'),
    length: getter(DataView.prototype, 'byteLength'),
};
const arrayBufferLength = getter(ArrayBuffer.prototype, 'byteLength');
const sharedLength = typeof SharedArrayBuffer === 'undefined' ? undefined : getter(SharedArrayBuffer.prototype, 'byteLength');

/** The name of a typed array's class, as 'Uint8Array'; undefined for any other object. */
export const typedArrayName = (name => item => name.call(item))(getter(TypedArray.prototype, Symbol.toStringTag));

function viewOf({ buffer, offset, length }, data) {
    return new Uint8Array(buffer.call(data), offset.call(data), length.call(data));
}

/** Whether a getter of a built-in class accepts this object: then it is an object of this class, of any realm. */
function takes(get, object) {
    try {
        get.call(object);
        return true;
    } catch {
        return false;
    }
}

const isArrayBuffer = data => takes(arrayBufferLength, data) || sharedLength !== undefined && takes(sharedLength, data);

/** The bytes of a typed array, a DataView or an ArrayBuffer, as a plain Uint8Array over the same memory. */
export function bytesOf(data) {
    if (ArrayBuffer.isView(data)) return viewOf(typedArrayName(data) ? ofTypedArray : ofDataView, data);
    if (isArrayBuffer(data)) return new Uint8Array(data);
    throw wrongType(data);
}

/**
 * The bytes that a call on one item looks at: those within the limit, and the next one, which shows that there are more.
 * So no more than that is copied.
 */
export function inputOf(data, { maxBytes }) {
    const bytes = bytesOf(data);
    return bytes.length > maxBytes ? bytes.subarray(0, Number(maxBytes) + 1) : bytes;
}
