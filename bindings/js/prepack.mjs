// What `npm pack` does first: the modules must exist; the package gets the licences, and cjs/ for `require`.
import { execFileSync } from 'node:child_process';
import { copyFileSync, existsSync, mkdirSync, readFileSync, writeFileSync } from 'node:fs';
import { fileURLToPath } from 'node:url';

const at = name => fileURLToPath(new URL(name, import.meta.url));

for (const module of ['naltvigo64.wasm', 'naltvigo32.wasm']) {
    if (!existsSync(at(`wasm/${module}`))) throw new Error(`wasm/${module} is missing: run scripts/build_web.sh first`);
}
for (const licence of ['LICENSE-MIT', 'LICENSE-APACHE']) copyFileSync(at(`../../${licence}`), at(licence));

const words = ['--bundle', '--format=cjs', '--platform=node', '--target=node20', '--loader:.wasm=binary', '--log-level=warning'];
try {
    execFileSync('esbuild', [at('src/inlined.js'), ...words, `--outfile=${at('cjs/naltvigo.cjs')}`], { stdio: 'inherit' });
} catch (error) {
    throw new Error(error.code === 'ENOENT' ? "esbuild is missing: it is Debian's package esbuild" : 'esbuild failed');
}
// The types of a CommonJS module are a file of their own.
mkdirSync(at('cjs'), { recursive: true });
for (const name of ['index', 'load']) {
    const types = readFileSync(at(`src/${name}.d.ts`), 'utf8').replaceAll("'./load.js'", "'./load.cjs'");
    writeFileSync(at(`cjs/${name}.d.cts`), types);
}
