// Drives Firefox by Marionette, the protocol of its own tests, over a socket.
import { spawn } from 'node:child_process';
import { existsSync, mkdirSync, readFileSync, writeFileSync } from 'node:fs';
import { connect } from 'node:net';
import { join } from 'node:path';
import { setTimeout as pause } from 'node:timers/promises';

const KEYS = { Tab: '\uE004', Enter: '\uE007' };
const ELEMENT = 'element-6066-11e4-a52e-4f735466cecf';

async function portOf(profile, child) {
    const file = join(profile, 'MarionetteActivePort');
    for (let i = 0; i < 600; i++) {
        if (existsSync(file)) return Number(readFileSync(file, 'utf8'));
        if (child.exitCode !== null) break;
        await pause(100);
    }
    throw new Error('Firefox did not start');
}

export class Firefox {
    static async start(folder) {
        const profile = join(folder, 'profile'), words = ['--headless', '--no-remote', '--marionette', '--remote-allow-system-access'];
        mkdirSync(profile, { recursive: true });
        writeFileSync(join(profile, 'user.js'), 'user_pref("marionette.port", 0);\n'); // any that is free
        const env = { ...process.env, HOME: folder };
        const child = spawn('firefox-esr', [...words, '--profile', profile], { stdio: 'ignore', env });
        const socket = connect(await portOf(profile, child), '127.0.0.1');
        const browser = new Firefox(child, socket);
        await browser.send('WebDriver:NewSession', { acceptInsecureCerts: false });
        await browser.send('WebDriver:SetTimeouts', { script: 120000 });
        return browser;
    }

    constructor(child, socket) {
        this.child = child;
        this.socket = socket;
        this.next = 1;
        this.waiting = new Map();
        this.left = Buffer.alloc(0);
        /** Marionette passes on nothing of the console. */
        this.complaints = [];
        socket.on('data', data => this.take(data)).on('error', () => {});
        child.on('exit', () => { for (const { reject } of this.waiting.values()) reject(new Error('Firefox ended')); });
    }

    /** A message is its length, a colon, and JSON: [1, id, error, result]. */
    take(data) {
        this.left = Buffer.concat([this.left, data]);
        for (let colon = this.left.indexOf(58); colon >= 0; colon = this.left.indexOf(58)) {
            const end = colon + 1 + Number(this.left.subarray(0, colon).toString());
            if (this.left.length < end) return;
            const message = JSON.parse(this.left.subarray(colon + 1, end).toString());
            this.left = this.left.subarray(end);
            if (Array.isArray(message)) this.settle(message);
        }
    }

    settle([, id, error, result]) {
        const waiting = this.waiting.get(id);
        if (!waiting) return;
        this.waiting.delete(id);
        if (error) waiting.reject(new Error(`${error.error}: ${error.message}`));
        else waiting.resolve(result && 'value' in result ? result.value : result);
    }

    send(name, params = {}) {
        const id = this.next++, text = JSON.stringify([0, id, name, params]);
        this.socket.write(`${Buffer.byteLength(text)}:${text}`);
        return new Promise((resolve, reject) => this.waiting.set(id, { resolve, reject }));
    }

    async open(address) {
        await this.send('WebDriver:Navigate', { url: 'about:blank' });
        await this.send('WebDriver:Navigate', { url: address });
    }

    async evaluate(call, ...given) {
        const script = `const [given, done] = arguments;
            Promise.resolve()
                .then(() => (${call})(...JSON.parse(given)))
                .then(it => done(JSON.stringify({ it })), error => done(JSON.stringify({ error: String(error) })));`;
        const args = [JSON.stringify(given)];
        const { it, error } = JSON.parse(await this.send('WebDriver:ExecuteAsyncScript', { script, args }));
        if (error) throw new Error(error);
        return it;
    }

    async press(key) {
        const value = KEYS[key], actions = [{ type: 'keyDown', value }, { type: 'keyUp', value }];
        await this.send('WebDriver:PerformActions', { actions: [{ type: 'key', id: 'keys', actions }] });
    }

    async type(text) {
        const found = await this.send('WebDriver:GetActiveElement');
        await this.send('WebDriver:ElementSendKeys', { id: found[ELEMENT], text });
    }

    async choose(selector, file) {
        const found = await this.send('WebDriver:FindElement', { using: 'css selector', value: selector });
        await this.send('WebDriver:ElementSendKeys', { id: found[ELEMENT], text: file });
    }

    async setDark(isDark) {
        await this.send('Marionette:SetContext', { value: 'chrome' });
        const script = `Services.prefs.setIntPref('layout.css.prefers-color-scheme.content-override', ${isDark ? 0 : 1});`;
        await this.send('WebDriver:ExecuteScript', { script, args: [] });
        await this.send('Marionette:SetContext', { value: 'content' });
    }

    resize(width, height) {
        return this.send('WebDriver:SetWindowRect', { width, height });
    }

    async screenshot(file) {
        writeFileSync(file, Buffer.from(await this.send('WebDriver:TakeScreenshot', { full: true, hash: false }), 'base64'));
    }

    async close() {
        const ended = new Promise(resolve => this.child.once('exit', resolve));
        this.send('Marionette:Quit', { flags: ['eForceQuit'] }).catch(() => {});
        await ended;
        this.socket.destroy();
    }
}
