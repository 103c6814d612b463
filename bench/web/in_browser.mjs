// Runs measure.html in a browser, and prints what it found as a line of JSON: node in_browser.mjs INPUTS BROWSER WORD ..
import { spawn } from 'node:child_process';
import { existsSync, mkdtempSync, readFileSync, rmSync } from 'node:fs';
import { createServer } from 'node:http';
import { tmpdir } from 'node:os';
import { basename, extname, join } from 'node:path';
import { fileURLToPath } from 'node:url';

const [, , inputs, browser, ...words] = process.argv;
const here = fileURLToPath(new URL('.', import.meta.url));
const folders = {
    inputs: name => join(inputs, basename(name)),
    package: name => join(here, '../../bindings/js', name),
    bench: name => join(here, basename(name)),
};
const TYPES = { '.html': 'text/html', '.js': 'text/javascript', '.mjs': 'text/javascript', '.wasm': 'application/wasm' };
const MINUTES = 5;

const profile = mkdtempSync(join(tmpdir(), 'browser-'));
let child;

function end(status) {
    child?.kill();
    server.close();
    server.closeAllConnections();
    process.exitCode = status;
}

const server = createServer((request, response) => {
    if (request.method === 'POST') {
        let body = '';
        request.on('data', data => { body += data; }).on('end', () => {
            console.log(body);
            response.end();
            end(JSON.parse(body).found ? 0 : 1);
        });
        return;
    }
    const [, folder, name] = /^\/(inputs|package|bench)\/([\w./-]+)$/.exec(request.url) ?? [];
    const file = folder && !name.includes('..') ? folders[folder](name) : '';
    if (!file || !existsSync(file)) {
        response.writeHead(404).end();
        return;
    }
    response.writeHead(200, { 'content-type': TYPES[extname(file)] ?? 'application/octet-stream' }).end(readFileSync(file));
}).listen(0, '127.0.0.1', () => {
    const own = browser.includes('firefox') ? ['--profile', profile] : [`--user-data-dir=${profile}`];
    const page = `http://127.0.0.1:${server.address().port}/bench/measure.html`;
    child = spawn(browser, [...words, ...own, page], { stdio: 'ignore', env: { ...process.env, HOME: profile } });
    child.on('exit', () => rmSync(profile, { recursive: true, force: true, maxRetries: 5 }));
});
setTimeout(() => {
    console.log(JSON.stringify({ problem: `no result in ${MINUTES} minutes` }));
    end(1);
}, MINUTES * 60000).unref();
