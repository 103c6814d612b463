/**
 * Makes `instanceof` true for objects of another copy of this package, such as one that was loaded by `require` when this one
 * was imported. For a subclass it has the usual meaning.
 */
export function sharedByCopies(type, name) {
    const brand = Symbol.for(`naltvigo.${name}`);
    Object.defineProperty(type.prototype, brand, { value: true });
    Object.defineProperty(type, Symbol.hasInstance, {
        value(object) {
            return this === type ? object?.[brand] === true : Function.prototype[Symbol.hasInstance].call(this, object);
        },
    });
}
