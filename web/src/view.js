// What the page shows of an inspection, besides its tables.
import { byId, counted, digits, element } from './dom.js';
import { WHY_NO_FLOATS } from './words.js';

const line = (...children) => element('p', {}, ...children);
const code = text => element('code', { textContent: text });

function show(className, headline, ...lines) {
    const verdict = byId('verdict');
    verdict.className = className;
    verdict.replaceChildren(line(element('strong', { textContent: headline })), ...lines);
}

/** Shows a sentence in place of a verdict and of what belongs to it. */
export function showNotice(text) {
    byId('result').hidden = true;
    byId('verdict').className = '';
    byId('verdict').replaceChildren(line(text));
}

/** Shows why there is nothing to judge. */
export function showProblem(text) {
    byId('result').hidden = true;
    show('bad', text);
}

const sentence = ({ meaning, advice }) => line(`${meaning} ${advice}`);

/** Of a float its value, and why it is refused. */
function aboutFloat({ float, name }) {
    if (name !== 'Float') return [];
    return [...(float ? [line('Its value: ', code(float.value), `, in ${float.precision} precision.`)] : []), line(WHY_NO_FLOATS)];
}

function way({ path, item }, isSequence) {
    const shown = code(isSequence ? `item ${item}, ${path}` : path);
    shown.className = 'path';
    return line('Path: ', shown);
}

function sizes({ length, itemCount, canonical, refusal }) {
    const bytes = counted(length, 'byte', 'bytes'), items = counted(itemCount, 'item', 'items');
    if (!refusal) return line(`${bytes}, ${items}, ${counted(canonical.length, 'canonical byte', 'canonical bytes')}.`);
    return line(itemCount ? `${bytes}; ${items} before it ${itemCount === 1 ? 'is' : 'are'} valid.` : `${bytes}.`);
}

export function showVerdict(report) {
    const { refusal, notCanonical, itemCount } = report, isSequence = itemCount + (refusal ? 1 : 0) > 1 && !report.isOne;
    if (refusal) {
        const where = isSequence ? `Item ${digits(refusal.item)} is refused` : 'Refused';
        const headline = `${where}: ${refusal.name} at ${refusal.offset}`;
        show('bad', headline, sentence(refusal), ...aboutFloat(refusal), way(refusal, isSequence), sizes(report));
    } else if (notCanonical) {
        const headline = `Valid, but not canonical: first ${notCanonical.name} at ${notCanonical.offset}`;
        show('warn', headline, sentence(notCanonical), way(notCanonical, isSequence), sizes(report));
    } else {
        show('good', 'Valid and canonical', sizes(report));
    }
}

function save(name, blob) {
    const address = URL.createObjectURL(blob), link = element('a', { href: address, download: name });
    link.click();
    setTimeout(() => URL.revokeObjectURL(address), 60000);
}

const button = (textContent, of, onclick) =>
    element('button', { type: 'button', textContent, ariaLabel: `${textContent} the ${of}`, onclick });

/** Shows the begin of an output; `whole()` resolves to all of it, as { text, bytes }. */
export function showOutput(id, { title, unit, file, output: { text, shown, length }, whole }) {
    if (!length) {
        byId(id).replaceChildren(line('None: no item is valid.'));
        return;
    }
    const said = element('span', { className: 'hint', role: 'status' });
    const copy = button('Copy', title, async () => {
        const all = await whole();
        try {
            await navigator.clipboard.writeText(all.text);
            said.textContent = 'Copied.';
        } catch {
            said.textContent = 'The browser does not let this page copy.';
        }
    });
    const store = button('Save', title, async () => {
        const all = await whole();
        save(file, new Blob([all.bytes ?? all.text]));
    });
    const box = element('pre', { tabIndex: 0, role: 'region', ariaLabel: `The ${title}`, textContent: text });
    const note = line(`The first ${digits(shown)} of ${digits(length)} ${unit}; Copy and Save give all.`);
    note.className = 'hint';
    note.hidden = shown === length;
    byId(id).replaceChildren(box, note, element('div', { className: 'row' }, copy, store, said));
}

/** In place of the rows of an item in a byte string that are not shown. */
export const moreRow = more => element('tr', {}, element('td', { colSpan: 3, textContent: `${counted(more, 'row', 'rows')} more` }));

/** A row of the table of annotated bytes. `toggle(given, row, button)` opens and closes the item in a byte string. */
export function eventRow(given, toggle) {
    const { offset, depth, isKey, hex, meaning, name, held, note, kind } = given;
    const bytes = element('td', { className: 'bytes' }, hex.before, ' ');
    if (hex.mark) bytes.append(element('mark', { textContent: hex.mark }), ' ');
    bytes.append(hex.after);
    const means = element('td', { className: 'meaning' });
    means.append(element('span', { className: 'unseen', textContent: `depth ${depth}: ` }));
    means.style.setProperty('--depth', depth);
    if (isKey) means.append(element('span', { className: 'role', textContent: 'key' }), ' ');
    means.append(element('bdi', { textContent: meaning }));
    if (name) means.append(' ', element('span', { className: 'name', textContent: name }));
    if (held) means.append(' ', heldButton(given, toggle));
    if (note) means.append(element('span', { className: 'note', textContent: note }));
    return element('tr', { className: kind }, element('td', { className: 'number', textContent: offset }), bytes, means);
}

function heldButton(given, toggle) {
    const button = element('button', { type: 'button', className: 'held', textContent: 'Item inside', ariaExpanded: 'false' });
    button.onclick = () => toggle(given, button.closest('tr'), button);
    return button;
}

/** A row of the list of items. */
export function itemRow({ number, offset, length, text, notCanonical }) {
    const verdict = notCanonical ? `no: ${notCanonical.name} at ${notCanonical.offset}` : 'yes';
    const cell = (className, content) => element('td', { className }, content);
    return element('tr', { className: notCanonical ? 'warn' : '' }, cell('number', digits(number)), cell('number', String(offset)),
        cell('number', digits(length)), cell('', verdict), cell('bytes', element('bdi', { textContent: text })));
}
