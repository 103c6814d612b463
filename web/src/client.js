// Calls the worker, and starts another one if the worker is busy with what nobody waits for.
import { startWorker } from './start_worker.js';

export class Client {
    #worker;
    #next = 1;
    #waiting = new Map();

    /** `progress({ task, done, total })` is called now and then while an input is inspected. */
    constructor(progress) {
        this.progress = progress;
        this.#start();
    }

    get isBusy() {
        return this.#waiting.size > 0;
    }

    #start() {
        this.#worker = startWorker();
        this.#worker.onmessage = ({ data }) => this.#take(data);
        this.#worker.onerror = ({ message }) => {
            const waiting = [...this.#waiting.values()];
            this.#waiting.clear();
            for (const { reject } of waiting) reject(new Error(message ?? 'The worker did not start.'));
        };
    }

    #take({ id, result, problem, progress }) {
        if (progress) {
            this.progress(progress);
            return;
        }
        const { resolve, reject } = this.#waiting.get(id);
        this.#waiting.delete(id);
        if (problem === undefined) resolve(result);
        else reject(new Error(problem));
    }

    /** The result of a call of the worker; it never comes if the work is dropped. */
    ask(call, given) {
        const id = this.#next++;
        return new Promise((resolve, reject) => {
            this.#waiting.set(id, { resolve, reject });
            this.#worker.postMessage({ id, call, given });
        });
    }

    /** Drops what the worker is at. */
    drop() {
        if (!this.isBusy) return;
        this.#worker.terminate();
        this.#waiting.clear();
        this.#start();
    }
}
