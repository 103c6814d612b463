// The module of WebAssembly, which scripts/bundle_page.py writes into the worker's script as base64.

export async function moduleBytes(name) {
    return Uint8Array.from(atob(MODULES[name]), character => character.charCodeAt(0));
}
