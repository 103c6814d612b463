// The events of an item whose bytes come in chunks.
import { bytesOf } from './input.js';
import { Machine, PART } from './machine.js';
import { MORE, TRAILING, TRUNCATED } from './numbers.js';
import { settings } from './options.js';

export function events(library, chunks, options) {
    const isOne = ArrayBuffer.isView(chunks) || typeof chunks?.[Symbol.iterator] !== 'function';
    return eventsOf(library, isOne ? [bytesOf(chunks)] : chunks, settings(options));
}

function* eventsOf(library, chunks, given) {
    const machine = new Machine(library, given);
    for (const chunk of chunks) yield* eventsIn(machine, bytesOf(chunk));
    // after the last byte the machine still finds that the byte limit was reached
    const { error } = machine.step(new Uint8Array(0));
    if (error) throw error;
    if (machine.status === MORE) throw machine.refused(TRUNCATED);
}

/** The events of the next bytes. Pieces that only PART separates are joined. */
function* eventsIn(machine, chunk) {
    const begin = machine.consumed;
    let piece;
    for (let at = 0; at < chunk.length;) {
        const { used, error, events: found } = machine.step(chunk.subarray(at, at + PART));
        at += used;
        for (const event of found()) {
            if (event.kind === 'piece') {
                if (piece) piece.number += event.number;
                else piece = event;
                continue;
            }
            if (piece) yield withData(piece, chunk, begin);
            piece = undefined;
            yield event;
        }
        if (error || machine.isComplete && at < chunk.length) {
            if (piece) yield withData(piece, chunk, begin);
            throw error ?? machine.refused(TRAILING);
        }
    }
    if (piece) yield withData(piece, chunk, begin);
}

function withData(piece, chunk, begin) {
    const at = piece.offset - begin;
    piece.data = chunk.subarray(at, at + piece.number);
    return piece;
}
