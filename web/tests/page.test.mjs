// What the page shows of an input, in a browser.
import assert from 'node:assert/strict';
import { writeFileSync } from 'node:fs';
import { join } from 'node:path';
import { test } from 'node:test';
import { assertExample, browser, EXAMPLE, folder, ONLY32, open, PAGE, picture, SERVED, set, shown, SOURCE, until } from './driven.mjs';

test('a link holds an input', async () => {
    const page = await open(`#hex=${EXAMPLE}`);
    assertExample(page);
    assert.equal(page.text, EXAMPLE);
    assert.match(page.about, /with 64-bit memory/);
    await picture('light');
});

test('over HTTP, from its source and as one file', async () => {
    assertExample(await open(`#hex=${EXAMPLE}`, SOURCE));
    assertExample(await open(`#hex=${EXAMPLE}`, SERVED));
});

test('from its source as a file it says how to open it', async () => {
    await browser.open(PAGE.replace('inspector.html', 'whole/web/index.html'));
    assert.match(await browser.evaluate(() => document.getElementById('verdict').textContent), /scripts\/build_page\.sh/);
    browser.complaints.length = 0; // the browser says that it loads no module from a file
});

test('in an engine that has 32-bit memory alone', async () => {
    const page = await open(`#hex=${EXAMPLE}`, ONLY32);
    assertExample(page);
    assert.match(page.about, /with 32-bit memory/);
});

test('what is typed is inspected, and set in the link with the settings', async () => {
    assert.equal((await open('')).hasResult, false);
    await set('text', '0xA2 63 41 6d 74, 21\n63:46:75:6e f5 # a comment');
    let page = await shown();
    assert.equal(page.headline, 'Valid and canonical');
    assert.equal(page.kind, 'good');
    assert.equal(page.hash, '#hex=a263416d74216346756ef5');
    await set('order', 'length');
    page = await shown();
    assert.equal(page.hash, '#hex=a263416d74216346756ef5&order=length');
    await set('text', Buffer.from(EXAMPLE, 'hex').toString('base64'));
    await set('order', 'bytewise');
    assertExample(await shown());
    await set('text', '');
    page = await shown();
    assert.deepEqual([page.hasResult, page.hash], [false, '']);
});

test('text that is not bytes is a problem', async () => {
    await open('');
    await set('text', 'a1!');
    let page = await shown();
    assert.deepEqual([page.headline, page.hasResult, page.kind], ['This is not hex, and character 3 is not of base64: "!".', false, 'bad']);
    await set('format', 'hex');
    assert.equal((await shown()).headline, 'Character 3 is not a hex digit: "!".');
    await set('text', 'a');
    assert.equal((await shown()).headline, 'The last byte has one hex digit; a byte has two.');
    await set('depth', '1025');
    page = await shown();
    assert.deepEqual([page.hasResult, page.headline.startsWith('A limit is out of its range')], [false, true]);
});

test('JSON and diagnostic notation get a sentence that says what to paste', async () => {
    await open('');
    await set('text', '{"a": [1, 2]}');
    let page = await shown();
    assert.match(page.headline, /^This is JSON.*Paste the bytes of the CBOR, as hex or base64/);
    assert.deepEqual([page.hasResult, page.kind], [false, 'bad']);
    await set('text', "{1: h'0102'}");
    assert.match((await shown()).headline, /^This looks like diagnostic notation\. Paste/);
});

test('the result is above the settings, which are folded', async () => {
    const placed = () => browser.evaluate(() => {
        const [verdict, settings] = ['verdict', 'settings'].map(id => document.getElementById(id));
        const isBefore = verdict.compareDocumentPosition(settings) & Node.DOCUMENT_POSITION_FOLLOWING;
        return [isBefore > 0, settings.open, document.getElementById('order').checkVisibility()];
    });
    await open(`#hex=${EXAMPLE}`);
    assert.deepEqual(await placed(), [true, false, false]);
    await open(`#hex=${EXAMPLE}&order=length`);
    assert.deepEqual(await placed(), [true, true, true]);
    await open(`#hex=${EXAMPLE}`);
    await set('depth', '5000');
    assert.match((await shown()).headline, /out of its range/);
    assert.deepEqual(await placed(), [true, true, true]);
});

test('a float is shown with its value, and why it is refused', async () => {
    const page = await open('#hex=82fb3ff199999999999a00');
    assert.equal(page.headline, 'Refused: Float at 1');
    assert.match(page.verdict, /floats are not accepted\..*Its value: 1\.1, in double precision\..*this library accepts none\./);
    assert.deepEqual(page.rows.map(it => it.cells), [
        [0, '82', 'array, 2 members'], [1, 'fb 3f f1 99 99 99 99 99 9a', 'float 1.1, double precision'], [10, '00', 'not read'],
    ]);
    await picture('float');
});

// A COSE_Sign1 whose protected header and payload, a map of the claims iss and exp, are in byte strings.
const CWT = 'd28443a10126a104423131581aa20175636f61703a2f2f61732e6578616d706c652e636f6d04004101';

test('names are next to numbers, and an item in a byte string opens in place', async () => {
    await open(`#hex=${CWT}`);
    const table = () => browser.evaluate(() => [...document.querySelectorAll('#events-pages tbody tr')].map(row => [
        row.cells[0].textContent, row.querySelector('bdi').textContent, row.querySelector('.name')?.textContent ?? '', row.querySelector('.unseen').textContent,
    ]));
    const press = number => browser.evaluate(number => document.querySelectorAll('button.held')[number].click(), number);
    const before = await table();
    assert.deepEqual(before[0].slice(0, 3), ['0', 'tag 18: COSE_Sign1', '']);
    assert.deepEqual(before.find(it => it[2]), ['7', 'unsigned integer 4', 'kid', 'depth 3: ']);
    await press(0);
    await until(async () => (await table()).length === before.length + 3);
    assert.deepEqual((await table()).slice(4, 7), [
        ['3', 'map, 1 pair', '', 'depth 3: '], ['4', 'unsigned integer 1', 'alg', 'depth 4: '], ['5', 'negative integer -7', 'ES256', 'depth 4: '],
    ]);
    await picture('opened');
    await press(0);
    await until(async () => (await table()).length === before.length);
    assert.deepEqual(await table(), before);
    // one within another, and both away at once
    const outer = await open('#hex=43424105');
    assert.equal(outer.rows.length, 2);
    await press(0);
    await until(async () => (await table()).length === 4);
    await press(1);
    await until(async () => (await table()).length === 6);
    assert.deepEqual((await table()).map(it => it.slice(0, 2)), [
        ['0', 'byte string, 3 bytes'], ['1', "h'424105'"], ['1', 'byte string, 2 bytes'], ['2', "h'4105'"], ['2', 'byte string, 1 byte'], ['3', "h'05'"],
    ]);
    await press(0);
    await until(async () => (await table()).length === 2);
    // of many rows the first are shown
    await open(`#hex=5901f79901f4${'17'.repeat(500)}`);
    await press(0);
    await until(() => browser.evaluate(() => document.querySelectorAll('#events-pages tbody tr').length === 203));
    assert.equal(await browser.evaluate(() => document.querySelector('#events-pages tbody tr:last-child').textContent), '301 rows more');
});

test('names of labels of an input that the settings name', async () => {
    const names = () => browser.evaluate(() => [...document.querySelectorAll('.name')].map(it => it.textContent));
    await open('#hex=a10126');
    assert.deepEqual(await names(), []);
    await open('#hex=a10126&labels=headers');
    assert.deepEqual(await names(), ['alg', 'ES256']);
    await set('labels', 'keys');
    await shown();
    assert.deepEqual(await names(), ['kty']);
});

test('a sequence is a list', async () => {
    const page = await open('#hex=01bf61610161629f0203ffff6449455446');
    assert.deepEqual(page.items, [
        ['1', '0', '1', 'yes', '1'],
        ['2', '1', '11', 'no: Indefinite at 1', '{"a": 1, "b": [2, 3]}'],
        ['3', '12', '5', 'yes', '"IETF"'],
    ]);
    assert.equal(page.headline, 'Valid, but not canonical: first Indefinite at 1');
    assert.equal(page.path, 'item 2, $');
    assert.equal(page.diagnostic, '1\n{"a": 1, "b": [2, 3]}\n"IETF"');
    assert.equal(page.canonical, '01a261610161628202036449455446');
    assert.deepEqual(page.rows.map(it => it.cells[0]), [0, 1, 2, 3, 4, 5, 6, 7, 8, 9, 10, 11, 12, 13]);
    await picture('sequence');
});

/** Refusals: link, headline, path, offset of the marked row, marked byte, rows. */
const REFUSED = [
    ['a2616100616101', 'Refused: RepeatedKey at 4', '$, key 2 of the map at 0', 4, '61', 7],
    ['8301f97c00', 'Refused: Float at 2', '$[1]', 2, 'f9', 3],
    ['7f4100ff', 'Refused: BadChunk at 1', '$', 1, '41', 3],
    ['9f82f5fb0000000000000000', 'Refused: Float at 3', '$[0][1]', 3, 'fb', 4],
    ['6341c080', 'Refused: InvalidText at 2', '$', 1, 'c0', 2],
    ['1903', 'Refused: Truncated at 2', '$', 0, 'end', 1],
    ['5bffffffffffffffff', 'Refused: Truncated at 9', '$', 9, 'end', 2],
    ['a1f800', 'Refused: BadSimple at 2', '$, key 1 of the map at 0', 1, '00', 2],
    ['a1626869c1a10181ff', 'Refused: StrayBreak at 8', '$."hi"(1).1[0]', 8, 'ff', 8],
    ['c1c100&depth=1', 'Refused: TooDeep at 1', '$(1)', 1, 'c1', 3],
    ['a2c101000101&keys=basic', 'Refused: KeyKind at 1', '$, key 1 of the map at 0', 1, 'c1', 6],
    ['9fffff&items=one', 'Refused: Trailing at 2', '$', 2, 'ff', 3],
    ['9fffff', 'Item 2 is refused: StrayBreak at 2', 'item 2, $', 2, 'ff', 3],
    ['4401020304&bytes=4', 'Refused: TooLong at 4', '$', undefined, undefined, undefined],
];

for (const [link, headline, path, offset, mark, count] of REFUSED) {
    test(`a refusal marks its byte: ${link}`, async () => {
        const page = await open(`#hex=${link}`);
        assert.equal(page.headline, headline);
        assert.equal(page.kind, 'bad');
        assert.equal(page.path, path);
        if (offset === undefined) return;
        assert.deepEqual([page.marked.cells[0], page.marked.mark, page.rows.length], [offset, mark, count]);
        assert.match(page.marked.note, new RegExp(`^${headline.replace(/.*: /, '')}: .+`));
        if (offset === 4) await picture('refused');
    });
}

// RFC 8949, section 4.2.1 and 4.2.3: the keys 10, 100, -1, "z", "aa", [100], [-1], false in both orders, each with value 0.
const BYTEWISE = 'a80a001864002000617a006261610081186400812000f400';
const SHORTER_FIRST = 'a80a002000f400186400617a008120006261610081186400';

test('both orders of keys', async () => {
    let page = await open(`#hex=${BYTEWISE}`);
    assert.deepEqual([page.kind, page.canonical], ['good', BYTEWISE]);
    await set('order', 'length');
    page = await shown();
    // -1 must be before 100, which is the longer key
    assert.equal(page.headline, 'Valid, but not canonical: first KeyOrder at 6');
    assert.deepEqual([page.marked.mark, page.canonical], ['20', SHORTER_FIRST]);
    assert.equal((await open(`#hex=${SHORTER_FIRST}&order=length`)).kind, 'good');
});

test('a small file is read, and set in the link', async () => {
    const file = join(folder, 'small.cbor');
    writeFileSync(file, Buffer.from(EXAMPLE, 'hex'));
    await open('');
    await browser.choose('#file', file);
    const page = await shown();
    assertExample(page);
    assert.deepEqual([page.hash, page.text], [`#hex=${EXAMPLE}`, EXAMPLE]);
});

test('a file and a text may be dropped', async () => {
    await open('');
    const drop = (kind, given) => browser.evaluate((kind, given) => {
        const dataTransfer = new DataTransfer();
        if (kind === 'file') dataTransfer.items.add(new File([Uint8Array.from(given)], 'dropped.cbor'));
        else dataTransfer.setData('text/plain', given);
        document.body.dispatchEvent(new DragEvent('drop', { dataTransfer, bubbles: true, cancelable: true }));
    }, kind, given);
    await drop('file', [...Buffer.from(EXAMPLE, 'hex')]);
    assertExample(await shown());
    await drop('text', '6449455446');
    assert.equal((await shown()).diagnostic, '"IETF"');
});

test('a long text is not put into the text field', async () => {
    await open('');
    await browser.evaluate(() => {
        const paste = new Event('paste', { bubbles: true, cancelable: true });
        paste.clipboardData = { getData: () => `5a00030d40${'00'.repeat(200000)}` }; // Firefox lets no script fill a real one
        document.getElementById('text').dispatchEvent(paste);
    });
    let page = await shown();
    assert.deepEqual([page.kind, page.text, page.rows.map(it => it.cells[2])[0]], ['good', '', 'byte string, 200000 bytes']);
    assert.equal(page.rows[1].cells[1], `${Array(16).fill('00').join(' ')}  … (200000 bytes)`);
    await set('text', '01');
    page = await shown();
    assert.deepEqual([page.text, page.diagnostic], ['01', '1']);
});

test('Save and Copy give all of an output', async () => {
    await open(`#hex=${EXAMPLE}`);
    const { saved, copied } = await browser.evaluate(async () => {
        const blobs = [], copied = [];
        URL.createObjectURL = blob => { blobs.push(blob); return '#'; };
        HTMLAnchorElement.prototype.click = () => {};
        Object.defineProperty(navigator, 'clipboard', { value: { writeText: async text => { copied.push(text); } } });
        for (const id of ['diagnostic', 'canonical']) {
            for (const button of document.querySelectorAll(`#${id} button`)) button.click();
        }
        while (blobs.length < 2 || copied.length < 2) await new Promise(resolve => setTimeout(resolve, 20));
        return { saved: await Promise.all(blobs.map(async blob => [...new Uint8Array(await blob.arrayBuffer())])), copied };
    });
    const diagnostic = '{"Fun": true, "Amt": -2}', canonical = 'a263416d74216346756ef5';
    assert.deepEqual(saved.map(it => Buffer.from(it).toString('hex')), [Buffer.from(diagnostic).toString('hex'), canonical]);
    assert.deepEqual(copied, [diagnostic, canonical]);
});

test('many rows are shown in pages', async () => {
    const page = await open(`#hex=9901f4${'17'.repeat(500)}`); // an array of 500 times 23
    assert.equal(page.rows.length, 200);
    const press = async (name, caption) => {
        await browser.evaluate(name => {
            [...document.querySelectorAll('#events-pages nav button')].find(it => it.textContent === name).click();
        }, name);
        await until(() => browser.evaluate(caption => document.querySelector('#events-pages caption').textContent === caption, caption));
        return (await shown()).rows;
    };
    // the head has 3 bytes, so row 201 is byte 202
    assert.equal((await press('Next', 'Rows 201 to 400 of 501'))[0].cells[0], 202);
    assert.equal((await press('Last', 'Rows 401 to 501 of 501')).at(-1).cells[0], 502);
    assert.equal((await press('First', 'Rows 1 to 200 of 501'))[0].cells[0], 0);
    await browser.evaluate(() => {
        document.getElementById('offset').value = '450';
        document.getElementById('goto').requestSubmit();
    });
    await until(() => browser.evaluate(() => document.activeElement.cells?.[0].textContent === '450'));
});

test('the built page loads nothing', async () => {
    await open(`#hex=${EXAMPLE}`);
    assert.deepEqual(browser.complaints, []); // up to the request below, which its policy refuses
    const loaded = await browser.evaluate(() => performance.getEntriesByType('resource').map(it => it.name));
    assert.deepEqual(loaded.filter(it => !it.startsWith('blob:') && !it.startsWith('data:')), []);
    assert.equal(await browser.evaluate(() => fetch('http://127.0.0.1:9/').then(() => 'sent', error => error.name)), 'TypeError');
});
