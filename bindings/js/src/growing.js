/** Bytes that grow: the first `length` of `bytes`. */
export class GrowingBytes {
    constructor(size) {
        this.bytes = new Uint8Array(size);
        this.length = 0;
    }

    /** Space for this many bytes more. */
    reserve(count) {
        if (this.length + count <= this.bytes.length) return;
        const bytes = new Uint8Array(Math.max(this.length + count, 2 * this.bytes.length));
        bytes.set(this.all());
        this.bytes = bytes;
    }

    append(bytes) {
        this.reserve(bytes.length);
        this.bytes.set(bytes, this.length);
        this.length += bytes.length;
    }

    all() {
        return this.bytes.subarray(0, this.length);
    }
}
