import { sharedByCopies } from './copies.js';

/** An input is refused: it is not what the call requires. `texts` come from the module. */
export class Refused extends Error {
    /** @param where for `same` `{ side }`, for `items` `{ item, start }` */
    constructor(reason, offset, consumed, texts, where = {}) {
        const { reasonName, sentence, advice, path } = texts, { side, item, start } = where;
        const of = side ? `${side} ` : item ? `item ${item} ` : '';
        const at = path === undefined || path === '$' ? offset : `${offset} (${path})`;
        super(`${of}refused ${reason} ${reasonName} at ${at}: ${sentence} ${advice}`);
        Object.assign(this, { reason, reasonName, offset, consumed, sentence, advice, path, side, item, start });
    }
}
Object.defineProperty(Refused.prototype, 'name', { value: 'Refused', writable: true, configurable: true });
sharedByCopies(Refused, 'Refused');

/** The error of a call to which the engine gave no more memory. The call may be tried again. */
export const outOfMemory = () => new RangeError('naltvigo: out of memory');
