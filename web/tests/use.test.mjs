// How the page is used, in a browser: with a keyboard, in the dark, in a narrow window, and while it works.
import assert from 'node:assert/strict';
import { writeFileSync } from 'node:fs';
import { join } from 'node:path';
import { test } from 'node:test';
import { setTimeout as pause } from 'node:timers/promises';
import { assertExample, BROWSER, browser, EXAMPLE, folder, open, picture, set, shown, until } from './driven.mjs';

/**
 * Begins to measure how long the page does not respond. Other processes may use the processor meanwhile, so a worker does
 * the same short work again and again, and finds how many times longer that may take; up to four times is allowed for.
 */
const beginToMeasure = () => browser.evaluate(() => {
    const script = `let least = Infinity, most = 0, runs = 0;
        function work() {
            const from = performance.now();
            for (let i = 0, sum = 0; i < 5e6; i++) sum += Math.sqrt(i);
            const took = performance.now() - from;
            if (++runs > 10) {
                least = Math.min(least, took);
                most = Math.max(most, took);
            }
            setTimeout(work, 10);
        }
        onmessage = () => postMessage(Math.min(4, Math.max(1, most / least)));
        work();`;
    window.control = new Worker(URL.createObjectURL(new Blob([script])));
    window.pauses = [];
    let before = performance.now();
    setInterval(() => {
        const now = performance.now();
        window.pauses.push(now - before);
        before = now;
    }, 4);
});

/** The longest time in ms that the page did not respond, on a processor of its own. */
const longestPause = () => browser.evaluate(() => new Promise(resolve => {
    window.control.onmessage = ({ data }) => resolve(Math.max(...window.pauses) / data);
    window.control.postMessage('');
}));

test('a file of 10 MB is inspected while the page responds within 100 ms', async () => {
    const file = join(folder, 'large.cbor'), record = Buffer.from('a263416d74216346756ef5', 'hex');
    const count = Math.ceil(10e6 / record.length), head = Buffer.from([0x9a, 0, 0, 0, 0]);
    head.writeUInt32BE(count, 1);
    const wrong = Buffer.from('a26346756ef563416d7421', 'hex'); // its keys are in the wrong order
    writeFileSync(file, Buffer.concat([head, ...Array(count - 1).fill(record), wrong]));
    const last = 5 + (count - 1) * record.length;
    let worst = Infinity, page;
    for (let attempt = 0; attempt < 6 && worst > 100; attempt++) {
        await open('');
        await beginToMeasure();
        await browser.choose('#file', file);
        page = await shown();
        worst = await longestPause();
    }
    assert.equal(page.headline, `Valid, but not canonical: first KeyOrder at ${last + 6}`);
    assert.equal(page.path, `$[${count - 1}], key 2 of the map at ${last}`);
    assert.deepEqual(page.marked.cells, [last + 6, '63', 'text string, 3 bytes']);
    assert.equal(page.hash, '');
    assert.ok(page.rows.length <= 200 && page.diagnostic.length <= 8192 && page.canonical.length <= 8192);
    assert.ok(worst <= 100, `the page did not respond for ${worst} ms`);
    await picture('large');
    // another input ends the work on this one
    await browser.choose('#file', file);
    await pause(500);
    await set('text', '01');
    assert.equal((await shown()).diagnostic, '1');
});

test('1 MB of hex is inspected while the page responds within 200 ms', async () => {
    let worst = Infinity, page;
    for (let attempt = 0; attempt < 6 && worst > 200; attempt++) {
        await open('');
        await beginToMeasure();
        await browser.evaluate(() => {
            const paste = new Event('paste', { bubbles: true, cancelable: true }), item = 'a263416d74216346756ef5';
            const count = 95325, text = `9a0001745d${item.repeat(count)}`;
            paste.clipboardData = { getData: () => text };
            document.getElementById('text').dispatchEvent(paste);
        });
        page = await shown();
        worst = await longestPause();
    }
    assert.deepEqual([page.headline, page.rows.length], ['Valid and canonical', 200]);
    assert.ok(worst <= 200, `the page did not respond for ${worst} ms`);
});

/** How light the page's background is, 0 to 1, and the elements whose contrast is less than WCAG 2 requires: 4.5. */
const colors = () => browser.evaluate(() => {
    document.getElementById('settings').open = true;
    const channels = color => color.match(/[\d.]+/g).map(Number);
    const light = color => channels(color).slice(0, 3).map(it => it / 255)
        .map(it => (it <= 0.04045 ? it / 12.92 : ((it + 0.055) / 1.055) ** 2.4))
        .reduce((sum, it, i) => sum + it * [0.2126, 0.7152, 0.0722][i], 0);
    const background = element => {
        const color = getComputedStyle(element).backgroundColor;
        return channels(color)[3] === 0 && element.parentElement ? background(element.parentElement) : color;
    };
    const contrast = element => {
        const [low, high] = [light(getComputedStyle(element).color), light(background(element))].sort((a, b) => a - b);
        return (high + 0.05) / (low + 0.05);
    };
    const names = 'h1, h2, p, a, label, legend, textarea, select, button, td, th, caption, mark, .note, .role, strong, pre, code, footer';
    const all = [...document.querySelectorAll(names)].filter(it => it.checkVisibility() && !it.disabled);
    return {
        back: light(getComputedStyle(document.body).backgroundColor),
        faint: all.filter(it => contrast(it) < 4.5).map(it => `${it.tagName} ${it.className}`),
        count: all.length,
    };
});

test('dark and light, with text that can be read in both', async () => {
    for (const isDark of [false, true]) {
        await browser.setDark(isDark);
        for (const [link, name] of [['01', 'good'], [EXAMPLE, 'warn'], ['a2616100616101', 'bad']]) {
            await open(`#hex=${link}`);
            const { back, faint, count } = await colors();
            assert.ok(isDark ? back < 0.1 : back > 0.9, `background: ${back}`);
            assert.deepEqual(faint, []);
            assert.ok(count > 40);
            await picture(`${isDark ? 'dark' : 'light'}-${name}`);
        }
    }
    await browser.setDark(false);
});

const focused = () => browser.evaluate(() => {
    const it = document.activeElement;
    return it.id || it.getAttribute('aria-label') || it.textContent.trim();
});

test('with the keyboard alone', async () => {
    await open('');
    const order = [];
    for (let i = 0; i < 10; i++) {
        await browser.press('Tab');
        order.push(await focused());
    }
    const examples = ['a map of indefinite length', 'a sequence', 'a repeated key', 'a float', 'a wrong chunk'];
    assert.deepEqual(order, ['text', ...examples, 'format', 'file', 'clear', 'Settings']);
    await browser.press('Enter');
    for (const id of ['order', 'keys', 'items', 'depth', 'bytes', 'labels']) {
        await browser.press('Tab');
        assert.equal(await focused(), id);
    }
    await open('');
    await browser.press('Tab');
    await browser.type(EXAMPLE);
    assertExample(await shown());
    for (let i = 0; i < 3; i++) await browser.press('Tab');
    await browser.press('Enter');
    await until(async () => (await shown()).text === 'a2616100616101');
    assert.equal((await shown()).headline, 'Refused: RepeatedKey at 4');
    for (let i = 0; i < 20 && (await focused()) !== 'to-mark'; i++) await browser.press('Tab');
    await browser.press('Enter');
    await until(() => browser.evaluate(() => document.activeElement.cells?.[0].textContent === '4'));
});

test('names and roles for a screen reader', async () => {
    await open('#hex=0182026161a0');
    const found = await browser.evaluate(() => {
        const all = selector => [...document.querySelectorAll(selector)];
        const isNamed = it => it.labels?.length || it.ariaLabel || it.textContent.trim();
        return {
            unnamed: all('input, select, textarea, button, [role=region], nav, form').filter(it => !isNamed(it)).map(it => it.outerHTML),
            levels: all('h1, h2, h3').map(it => it.tagName).join(' '),
            live: all('#verdict').map(it => `${it.role} ${it.ariaLive}`),
            heads: all('thead th').every(it => it.scope === 'col'),
            captions: all('table').every(it => it.caption.textContent),
            language: document.documentElement.lang,
            ids: all('[id]').length - new Set(all('[id]').map(it => it.id)).size,
        };
    });
    assert.deepEqual(found, {
        unnamed: [],
        levels: 'H1 H2 H2 H2 H2 H2',
        live: ['status polite'],
        heads: true,
        captions: true,
        language: 'en',
        ids: 0,
    });
});

test('a narrow window has no bar to scroll it sideways', async () => {
    await browser.resize(BROWSER === 'chromium' ? 360 : 500, 900);
    await open('#hex=a2616100616101');
    assert.ok(await browser.evaluate(() => document.documentElement.scrollWidth <= document.documentElement.clientWidth));
    await picture('narrow');
    await browser.resize(1100, 1200);
});
