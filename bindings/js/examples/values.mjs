// Reads lines of hex digits from standard input, each an item, and prints the canonical bytes of the value that each
// decodes to, in hex digits; of an item that is refused, the refusal.
//
//     echo bf6346756ef563416d7421ff | node examples/values.mjs [bytewise | length [MAX_BYTES]]
import { createInterface } from 'node:readline';
import { decode, encode, Refused } from 'naltvigo';

const options = { order: process.argv[2] ?? 'bytewise', depth: 1024, maxBytes: Number(process.argv[3] ?? 2 ** 30) };

for await (const line of createInterface({ input: process.stdin })) {
    try {
        const value = decode(Buffer.from(line, 'hex'), options);
        console.log(Buffer.from(encode(value, options)).toString('hex'));
    } catch (error) {
        if (!(error instanceof Refused)) throw error;
        console.log(`refused ${error.reason} ${error.reasonName} at ${error.offset}`);
    }
}
