// A machine of the module, which reads one item in parts and reports its events.
import { numberAt } from './instance.js';
import { DEPTH_MAX, MORE, NO_ARGUMENT, OK } from './numbers.js';

const KINDS = ['unsigned', 'negative', 'bytes', 'text', 'array', 'map', 'tag', 'simple', 'chunk', 'piece', 'break'];

/** The most bytes that are passed to a call of the machine. Each byte makes at most one event, so the table has space for all. */
export const PART = 4096;

// Of struct naltvigo_event; of struct naltvigo_machine, five numbers of 8 bytes, two of 2, six of 1, six bytes of
// padding, and nine bytes for each level.
const EVENT_SIZE = 24;
const MACHINE_SIZE = 5 * 8 + 2 * 2 + 6 + 6 + 9 * DEPTH_MAX;

/** Its state is stored here, so that it outlives an instance, and nothing must be freed. */
export class Machine {
    constructor(library, { depth, maxBytes }) {
        this.library = library;
        this.given = { depth, maxBytes };
        this.consumed = 0;
        this.status = MORE;
        const instance = library.instance(), { pointer, offset } = instance.right.atLeast(MACHINE_SIZE);
        instance.run(() => instance.exports.naltvigo_machine_start_raw(depth, maxBytes, pointer));
        this.state = instance.bytes().slice(offset, offset + MACHINE_SIZE);
    }

    /** The error of a refusal that is not the machine's. */
    refused(reason) {
        return this.library.instance().refused(reason, this.consumed, this.consumed, this.given);
    }

    get isComplete() {
        return this.status === OK;
    }

    /** Consumes at most PART bytes. Returns their number, the error if the item is refused, and the events' reader. */
    step(part) {
        const instance = this.library.instance(), { exports, first, second, refusal } = instance;
        const input = instance.left.put(part), machine = instance.right.put(this.state), space = part.length + 1;
        const { pointer, offset } = instance.output.atLeast(space * EVENT_SIZE);
        this.status = instance.run(() => exports.naltvigo_machine_feed_raw(
            machine.pointer, input.pointer, input.size, first, pointer, BigInt(space), second, refusal));
        this.state.set(instance.bytes().subarray(instance.right.offset, instance.right.offset + MACHINE_SIZE));
        const used = instance.firstResult(), count = instance.secondResult();
        this.consumed += used;
        const error = this.status === OK || this.status === MORE ? undefined : instance.error(this.status, this.given);
        const events = () => Array.from({ length: count }, (_, i) => eventAt(instance, offset + i * EVENT_SIZE));
        return { used, error, events };
    }
}

function eventAt(instance, at) {
    const words = instance.words(), width = words.getUint32(at + 20, true), offset = instance.count(at);
    const kind = KINDS[words.getUint32(at + 16, true)];
    if (width === NO_ARGUMENT) return { offset, kind, number: undefined, width: undefined };
    return { offset, kind, number: numberAt(words, at + 8), width };
}
