// The README's programs print what they say, each as a file of a project that has the package: PROJECT, where it is
// installed, or else a folder in which the package itself is linked.
import assert from 'node:assert/strict';
import { execFileSync } from 'node:child_process';
import { existsSync, mkdirSync, mkdtempSync, readFileSync, rmSync, symlinkSync, writeFileSync } from 'node:fs';
import { tmpdir } from 'node:os';
import { join } from 'node:path';
import { fileURLToPath } from 'node:url';
import { after, test } from 'node:test';

const root = fileURLToPath(new URL('../', import.meta.url));
const folder = mkdtempSync(join(process.env.PROJECT ?? tmpdir(), 'readme-'));
after(() => rmSync(folder, { recursive: true }));
if (!process.env.PROJECT) {
    mkdirSync(join(folder, 'node_modules'));
    symlinkSync(root, join(folder, 'node_modules/naltvigo'));
}

// node breaks long lines where it likes
const spaced = text => text.replace(/\s+/g, ' ').trim();
const isBuilt = !!process.env.PROJECT || existsSync(join(root, 'cjs'));

test('each program of the README', () => {
    const programs = [...readFileSync(join(root, 'README.md'), 'utf8').matchAll(/^```js\n(.*?)^```$/gms)].map(found => found[1]);
    assert.ok(programs.length >= 7);
    for (const [i, program] of programs.entries()) {
        const isCommon = program.includes('require(');
        if (isCommon && !isBuilt) continue; // prepack.mjs makes what it requires
        const file = join(folder, `program${i}.${isCommon ? 'cjs' : 'mjs'}`);
        writeFileSync(file, program);
        const wanted = [...program.matchAll(/(?:console\.log\(.*\); |^)\/\/ (.*)$/gm)].map(found => found[1]);
        assert.ok(wanted.length > 0);
        const printed = execFileSync(process.execPath, [...process.execArgv, file], { encoding: 'utf8' });
        assert.equal(spaced(printed), spaced(wanted.join('\n')));
    }
});
