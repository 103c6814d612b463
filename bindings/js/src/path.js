// The path to an item of a value: `$` is the value itself, and each step leads from a container to what is in it.

/** `[2]` is the member of index 2 of an array. */
export const memberStep = index => `[${index}]`;

/** `(24)` is the content of a tag with this number. */
export const contentStep = number => `(${number})`;

/** `, key 1 of the map` is the first key of a map, as it is written. */
export const keyStep = number => `, key ${number} of the map`;

/** `."a"` is the value of the key "a" of a map, `.7` that of the key 7, `.(key 1)` that of the first key, an object. */
export function valueStep(key, number) {
    if (typeof key === 'string') return `.${JSON.stringify(key)}`;
    return typeof key === 'object' && key !== null ? `.(key ${number})` : `.${String(key)}`;
}
