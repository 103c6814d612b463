// The link to an input: its bytes in hex and the settings that are not the usual ones, after the # of the address.

/** The usual settings, by the ids of their fields. */
export const USUAL = Object.freeze({ order: 'bytewise', keys: 'any', items: 'sequence', depth: '256', bytes: '67108864', labels: 'auto' });

/** `hex` is undefined for an input that is too long for a link. */
export function linkOf(hex, settings) {
    if (!hex) return '';
    const words = new URLSearchParams({ hex });
    for (const [name, usual] of Object.entries(USUAL)) if (settings[name] !== usual) words.set(name, settings[name]);
    return `#${words}`;
}

/** The input and the settings of a link; undefined if it holds no input. */
export function ofLink(hash) {
    const words = new URLSearchParams(hash.replace(/^#/, '')), hex = words.get('hex');
    if (hex === null) return undefined;
    const settings = Object.fromEntries(Object.entries(USUAL).map(([name, usual]) => [name, words.get(name) ?? usual]));
    return { hex, settings };
}
