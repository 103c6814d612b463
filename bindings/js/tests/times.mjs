// Times that are compared although other processes run as well: the processor time of this process, the least of some turns.
import process from 'node:process';

/** The processor time that this process took, in milliseconds. */
function spent() {
    const { user, system } = process.cpuUsage();
    return (user + system) / 1000;
}

/** The least time of some calls, in milliseconds. */
export function leastTime(call, turns = 3) {
    let least = Infinity;
    for (let i = 0; i < turns; i++) {
        const begin = spent();
        call();
        least = Math.min(least, spent() - begin);
    }
    return least;
}

/** The least of some attempts to measure, since other processes hold the processor. One that is no more than `enough` is the last. */
export function leastOf(measure, enough) {
    let least = Infinity;
    for (let attempt = 0; attempt < 5 && least > enough; attempt++) least = Math.min(least, measure());
    return least;
}

/** How many times as long as the other a call takes. */
export const ratioOf = (call, other, enough = 5) => leastOf(() => leastTime(call) / leastTime(other), enough);

/** How many milliseconds longer than the other a call takes. */
export const beyond = (call, other, enough) => leastOf(() => leastTime(call, 100) - leastTime(other, 100), enough);

/** A millisecond; or on a slower processor, what takes one here: 100 checks of 1,000 arrays. In milliseconds. */
export function millisecond(check) {
    const item = new Uint8Array(1001).fill(0x81, 0, 1000);
    return Math.max(1, leastTime(() => { for (let i = 0; i < 100; i++) check(item, { depth: 1024 }); }, 10));
}
