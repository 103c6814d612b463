// What the tests share: the package as Node loads it, hex digits, results, and numbers that are the same in every run.
import { execFileSync } from 'node:child_process';
import { fileURLToPath } from 'node:url';
import { Refused } from 'naltvigo';

const script = fileURLToPath(new URL('tables.py', import.meta.url));
export const { rows, pairs, events } = JSON.parse(execFileSync('python3', [script], { maxBuffer: 1 << 26 }));

export const bytes = hex => Uint8Array.from(hex.match(/../g) ?? [], digits => parseInt(digits, 16));
export const hex = given => Buffer.from(given).toString('hex');

/** What a call returns, or its refusal as three numbers. */
export function resultOf(call) {
    try {
        return call();
    } catch (error) {
        if (!(error instanceof Refused)) throw error;
        return [error.reason, error.offset, error.consumed];
    }
}

export function random(seed) {
    let state = seed;
    const below = most => {
        state = Math.imul(state ^ state >>> 15, 0x2c1b3c6d) + 0x9e3779b9 | 0;
        return (state >>> 0) % most;
    };
    return { below, from: list => list[below(list.length)] };
}
