// The module of WebAssembly, fetched from the package for JavaScript. A built page has it within: ../inlined/module.js.

export async function moduleBytes(name) {
    const response = await fetch(new URL(`../../bindings/js/wasm/${name}`, import.meta.url));
    if (!response.ok) throw new Error(`${name} is missing; scripts/build_web.sh makes it`);
    return response.arrayBuffer();
}
