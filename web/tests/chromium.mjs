// Drives Chromium by its DevTools protocol, over a pipe.
import { spawn } from 'node:child_process';
import { writeFileSync } from 'node:fs';
import { join } from 'node:path';

const KEYS = { Tab: [9, ''], Enter: [13, '\r'] };

const saidBy = ({ exception, text }) => exception?.description ?? text;

export class Chromium {
    static async start(folder) {
        const words = ['--headless=new', '--no-sandbox', '--disable-gpu', '--disable-dev-shm-usage', '--no-first-run'];
        const child = spawn('chromium', [...words, '--remote-debugging-pipe', `--user-data-dir=${join(folder, 'profile')}`, 'about:blank'], {
            stdio: ['ignore', 'ignore', 'ignore', 'pipe', 'pipe'],
            env: { ...process.env, HOME: folder },
        });
        const browser = new Chromium(child);
        const { targetInfos } = await browser.send('Target.getTargets');
        const { targetId } = targetInfos.find(({ type }) => type === 'page');
        ({ sessionId: browser.session } = await browser.send('Target.attachToTarget', { targetId, flatten: true }));
        await browser.send('Page.enable');
        await browser.send('Runtime.enable');
        await browser.send('Log.enable');
        await browser.send('Emulation.setScrollbarsHidden', { hidden: true });
        return browser;
    }

    constructor(child) {
        this.child = child;
        this.next = 1;
        this.waiting = new Map();
        /** What the page complained of: errors that nothing caught, and what its policy refused. */
        this.complaints = [];
        let left = '';
        child.stdio[4].setEncoding('utf8').on('data', text => {
            const messages = (left + text).split('\0');
            left = messages.pop();
            for (const message of messages) this.take(JSON.parse(message));
        });
        child.stdio[3].on('error', () => {});
        child.on('exit', () => { for (const { reject } of this.waiting.values()) reject(new Error('Chromium ended')); });
    }

    take({ id, result, error, method, params }) {
        if (method === 'Runtime.exceptionThrown') this.complaints.push(saidBy(params.exceptionDetails));
        if (method === 'Log.entryAdded' && params.entry.level === 'error') this.complaints.push(params.entry.text);
        if (method === 'Page.loadEventFired') this.whenLoaded?.();
        const waiting = this.waiting.get(id);
        if (!waiting) return;
        this.waiting.delete(id);
        if (error) waiting.reject(new Error(error.message));
        else waiting.resolve(result);
    }

    send(method, params = {}) {
        const id = this.next++;
        this.child.stdio[3].write(`${JSON.stringify({ id, method, params, sessionId: this.session })}\0`);
        return new Promise((resolve, reject) => this.waiting.set(id, { resolve, reject }));
    }

    async open(address) {
        for (const url of ['about:blank', address]) {
            const loaded = new Promise(resolve => { this.whenLoaded = resolve; });
            await this.send('Page.navigate', { url });
            await loaded;
        }
    }

    /** What a function gives in the page, as JSON. */
    async evaluate(call, ...given) {
        const expression = `(${call})(...${JSON.stringify(given)})`;
        const { result, exceptionDetails } = await this.send('Runtime.evaluate', { expression, awaitPromise: true, returnByValue: true });
        if (exceptionDetails) throw new Error(saidBy(exceptionDetails));
        return result.value;
    }

    async press(key) {
        const [code, text] = KEYS[key], event = { key, code: key, windowsVirtualKeyCode: code };
        await this.send('Input.dispatchKeyEvent', { type: text ? 'keyDown' : 'rawKeyDown', text, ...event });
        await this.send('Input.dispatchKeyEvent', { type: 'keyUp', ...event });
    }

    type(text) {
        return this.send('Input.insertText', { text });
    }

    async choose(selector, file) {
        const { root } = await this.send('DOM.getDocument');
        const { nodeId } = await this.send('DOM.querySelector', { nodeId: root.nodeId, selector });
        await this.send('DOM.setFileInputFiles', { nodeId, files: [file] });
    }

    setDark(isDark) {
        const value = isDark ? 'dark' : 'light';
        return this.send('Emulation.setEmulatedMedia', { features: [{ name: 'prefers-color-scheme', value }] });
    }

    resize(width, height) {
        return this.send('Emulation.setDeviceMetricsOverride', { width, height, deviceScaleFactor: 1, mobile: false });
    }

    async screenshot(file) {
        const { data } = await this.send('Page.captureScreenshot', { format: 'png', captureBeyondViewport: true });
        writeFileSync(file, Buffer.from(data, 'base64'));
    }

    async close() {
        const ended = new Promise(resolve => this.child.once('exit', resolve));
        this.session = undefined;
        this.send('Browser.close').catch(() => {});
        await ended;
    }
}
