// A worker, from its script, which scripts/bundle_page.py writes into the page.

const address = URL.createObjectURL(new Blob([WORKER], { type: 'text/javascript' }));

export const startWorker = () => new Worker(address);
