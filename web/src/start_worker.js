// A worker, from its file. A built page has its script within: ../inlined/start_worker.js.

export function startWorker() {
    // Firefox runs the page's scripts from a file, but no worker; so the page still says how to open it.
    if (location.protocol === 'file:') throw new Error('From a file only the built page runs.');
    return new Worker(new URL('worker.js', import.meta.url), { type: 'module' });
}
