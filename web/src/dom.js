// Elements in short.

export const byId = id => document.getElementById(id);

/** An element with properties and children, which are elements or texts. */
export function element(name, properties = {}, ...children) {
    const made = document.createElement(name);
    Object.assign(made, properties);
    made.append(...children);
    return made;
}

const NUMBER = new Intl.NumberFormat('en');

/** A number with commas. */
export const digits = number => NUMBER.format(number);

export const counted = (number, one, many) => `${digits(number)} ${number === 1 ? one : many}`;
