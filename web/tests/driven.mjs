// A browser with the page in it. BROWSER is chromium or firefox, PAGE a built page as a file, SERVED the same over HTTP, SOURCE
// web/ over HTTP, ONLY32 the same in an engine without 64-bit memory. SCREENSHOTS is a folder for pictures, if there is one.
import assert from 'node:assert/strict';
import { mkdtempSync, rmSync } from 'node:fs';
import { tmpdir } from 'node:os';
import { join } from 'node:path';
import { after, before } from 'node:test';
import { setTimeout as pause } from 'node:timers/promises';
import { Chromium } from './chromium.mjs';
import { Firefox } from './firefox.mjs';

export const { BROWSER, PAGE, SERVED, SOURCE, ONLY32, SCREENSHOTS } = process.env;
export const folder = mkdtempSync(join(tmpdir(), 'page-'));
export let browser;

before(async () => {
    browser = await (BROWSER === 'chromium' ? Chromium : Firefox).start(folder);
    await browser.resize(1100, 1200);
});
after(async () => {
    await browser?.close();
    rmSync(folder, { recursive: true, force: true, maxRetries: 5 });
});

export const picture = name => (SCREENSHOTS ? browser.screenshot(join(SCREENSHOTS, `${BROWSER}-${name}.png`)) : undefined);

/** What the page shows once it is at rest. */
export const shown = () => browser.evaluate(async () => {
    const byId = id => document.getElementById(id), all = selector => [...document.querySelectorAll(selector)];
    const textOf = selector => document.querySelector(selector)?.textContent;
    for (let i = 0; byId('answer').ariaBusy === 'true'; i++) {
        if (i === 6000) throw new Error('the page does not come to rest');
        await new Promise(resolve => setTimeout(resolve, 20));
    }
    const rows = all('#events-pages tbody tr').map(row => {
        const [offset, bytes, meaning] = row.cells;
        return {
            cells: [Number(offset.textContent), bytes.textContent.trim(), meaning.querySelector('bdi').textContent],
            depth: meaning.querySelector('.unseen').textContent,
            isKey: meaning.querySelector('.role') !== null,
            note: meaning.querySelector('.note')?.textContent,
            mark: bytes.querySelector('mark')?.textContent,
        };
    });
    const items = all('#sequence-pages tbody tr').map(row => [...row.cells].map(cell => cell.textContent));
    return {
        headline: textOf('#verdict strong'),
        verdict: textOf('#verdict'),
        kind: byId('verdict').className,
        path: textOf('#verdict code.path'),
        hasResult: !byId('result').hidden,
        rows,
        marked: rows.find(it => it.mark !== undefined),
        items: byId('sequence').hidden ? [] : items,
        diagnostic: textOf('#diagnostic pre'),
        canonical: textOf('#canonical pre'),
        about: textOf('#about'),
        text: byId('text').value,
        hash: location.hash,
    };
});

/** Waits until a call gives true. */
export async function until(isSo) {
    for (let i = 0; !(await isSo()); i++) {
        assert.ok(i < 200, `never: ${isSo}`);
        await pause(50);
    }
}

export async function open(hash, address = PAGE) {
    await browser.open(`${address}${hash}`);
    return shown();
}

/** Gives a field a value, as a user would. */
export const set = (id, value) => browser.evaluate((id, value) => {
    const field = document.getElementById(id);
    field.value = value;
    field.dispatchEvent(new Event('input', { bubbles: true }));
    field.dispatchEvent(new Event('change', { bubbles: true }));
}, id, value);

/** Of RFC 8949, section 3.2.2, which annotates it. */
export const EXAMPLE = 'bf6346756ef563416d7421ff';
const EXAMPLE_ROWS = [
    [0, 'bf', 'map, indefinite length', 0],
    [1, '63', 'text string, 3 bytes', 1],
    [2, '46 75 6e', '"Fun"', 2],
    [5, 'f5', 'true', 1],
    [6, '63', 'text string, 3 bytes', 1],
    [7, '41 6d 74', '"Amt"', 2],
    [10, '21', 'negative integer -2', 1],
    [11, 'ff', 'break', 0],
];

export function assertExample(page) {
    assert.equal(page.headline, 'Valid, but not canonical: first Indefinite at 0');
    assert.equal(page.kind, 'warn');
    assert.match(page.verdict, /An item has an indefinite length, which canonical bytes never have\./);
    assert.deepEqual(page.rows.map(({ cells, depth }) => [...cells, Number(depth.match(/\d+/)[0])]), EXAMPLE_ROWS);
    assert.deepEqual(page.rows.map(it => it.isKey), [false, true, false, false, true, false, false, false]);
    assert.equal(page.marked.mark, 'bf');
    assert.equal(page.diagnostic, '{"Fun": true, "Amt": -2}');
    assert.equal(page.canonical, 'a263416d74216346756ef5');
}
