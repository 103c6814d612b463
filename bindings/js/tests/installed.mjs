// Both kinds of modules of the package as it is installed in the project PROJECT: they do the same, and know each other's values.
import assert from 'node:assert/strict';
import { createRequire } from 'node:module';
import { join } from 'node:path';
import { pathToFileURL } from 'node:url';
import { test } from 'node:test';

const { PROJECT } = process.env;

test('require and import', async () => {
    const require = createRequire(join(PROJECT, 'program.cjs')), required = require('naltvigo'), loading = require('naltvigo/load');
    const imported = await import(pathToFileURL(join(PROJECT, 'node_modules/naltvigo/src/node.js')));
    for (const name of Object.keys(imported)) assert.equal(typeof required[name], typeof imported[name], name);
    assert.equal(required.version(), imported.version());
    const large = new Map(Array.from({ length: 300 }, (_, i) => [i, i]));
    for (const [one, other] of [[required, imported], [imported, required]]) {
        const bytes = one.encode([new one.Tag(1, new one.Simple(5)), large]), value = other.decode(bytes);
        assert.ok(value[0] instanceof one.Tag && value[0].content instanceof one.Simple && value[1] instanceof one.SortedMap);
        assert.deepEqual(one.encode(value), bytes);
        assert.equal(await one.checkStream([bytes.subarray(0, 5), bytes.subarray(5)]), new other.Checker().feed(bytes));
        for (const [call, name] of [[() => other.check(new Uint8Array(0)), 'Refused'], [() => other.encode(0.5), 'EncodeError']]) {
            assert.throws(call, error => error instanceof one[name] && error.name === name && !(error instanceof one.DecodeError));
        }
        class Own extends one.Tag {}
        assert.ok(new Own(1, 2) instanceof other.Tag && new Own(1, 2) instanceof Own && !(new other.Tag(1, 2) instanceof Own));
        assert.ok(!({} instanceof one.Tag) && !(null instanceof one.Tag) && !(undefined instanceof one.Refused));
    }
    const { readFileSync } = await import('node:fs');
    const { encode } = loading.loadSync(readFileSync(require.resolve('naltvigo/naltvigo32.wasm')));
    assert.deepEqual([...encode([1])], [0x81, 1]);
});
