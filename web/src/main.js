// The page: takes an input, has the worker inspect it, and shows what it found.
import { Client } from './client.js';
import { byId, digits } from './dom.js';
import { linkOf, ofLink, USUAL } from './link.js';
import { Pages } from './pages.js';
import { eventRow, itemRow, moreRow, showNotice, showOutput, showProblem, showVerdict } from './view.js';

const PAUSE = 150; // ms after the last key stroke
const LONG_TEXT = 1 << 18; // characters; a text field is slow with more
const ABOUT = 'The library is proved, as compiled for x86-64. That this module does the same is tested; '
    + 'so is the page, which shows its results.';

const OUTPUTS = {
    diagnostic: { title: 'diagnostic text', unit: 'characters', file: 'diagnostic.txt' },
    canonical: { title: 'canonical bytes', unit: 'bytes', file: 'canonical.cbor' },
};

const form = byId('form'), settings = byId('settings'), limits = byId('options'), text = byId('text'), file = byId('file');
const result = byId('result'), progress = byId('progress');
const client = new Client(({ task, done, total }) => {
    progress.textContent = `${task}: ${digits(done)} of ${digits(total)} bytes`;
});
const events = new Pages('events-pages', {
    title: 'Annotated bytes',
    columns: [['Offset', 'number'], ['Bytes', 'bytes'], ['Meaning', '']],
    size: 200,
    load: (from, count) => client.ask('rows', { from, count }),
    rowOf: row => eventRow(row, toggleInner),
});
const items = new Pages('sequence-pages', {
    title: 'Items',
    columns: [['Item', 'number'], ['Offset', 'number'], ['Bytes', 'number'], ['Canonical', 'bytes'], ['Diagnostic text', '']],
    size: 50,
    load: (from, count) => client.ask('items', { from, count }),
    rowOf: itemRow,
});

/** Shows the rows of the item in a byte string after its row, or takes them away. */
async function toggleInner({ held, within = 0, depth }, row, button) {
    const isOpen = button.ariaExpanded === 'true';
    button.ariaExpanded = String(!isOpen);
    if (isOpen) {
        while (isWithin(row.nextElementSibling, row)) row.nextElementSibling.remove();
        return;
    }
    const { rows, more } = await client.ask('inner', { held, within });
    if (button.ariaExpanded !== 'true' || !row.isConnected) return;
    const made = rows.map(it => eventRow({ ...it, depth: depth + it.depth }, toggleInner));
    if (more) made.push(moreRow(more));
    for (const it of made) it.innerOf = row;
    row.after(...made);
}

function isWithin(row, outer) {
    for (let it = row?.innerOf; it; it = it.innerOf) if (it === outer) return true;
    return false;
}

let held; // an input that the text field does not hold: a file, or a long text
let timer;
let turn = 0;

function fields() {
    return Object.fromEntries(Object.keys(USUAL).map(name => [name, byId(name).value]));
}

function optionsOf({ order, keys, items: kind, depth, bytes, labels }) {
    return { order, keys, isOne: kind === 'one', depth: Number(depth), maxBytes: Number(bytes), known: labels };
}

function setLink(hex) {
    const link = linkOf(hex, fields());
    if (link !== location.hash) history.replaceState(null, '', link || location.href.replace(/#.*/, ''));
}

function showReport(report) {
    const { hex, itemCount, refusal, notCanonical, rowCount, bits, version } = report, marked = refusal ?? notCanonical;
    setLink(hex);
    if (held && hex !== undefined) {
        text.value = hex;
        byId('format').value = 'auto';
    }
    showVerdict(report);
    byId('about').textContent = `naltvigo ${version} as WebAssembly with ${bits}-bit memory. ${ABOUT}`;
    byId('sequence').hidden = report.isOne || itemCount < 2;
    for (const [name, words] of Object.entries(OUTPUTS)) {
        showOutput(name, { ...words, output: report[name], whole: () => client.ask('whole', { name }) });
    }
    result.hidden = false;
    byId('to-mark').hidden = !marked;
    byId('to-mark').onclick = () => events.focus(marked.row);
    return Promise.all([events.show(rowCount, marked?.row), items.show(itemCount)]);
}

/** Shows what the worker finds in the input; it may find out that the input is another by now. */
async function inspectSource(isCurrent) {
    const source = { text: text.value, format: byId('format').value, ...held };
    progress.textContent = 'Working';
    progress.hidden = false;
    try {
        const report = await client.ask('inspect', { source, settings: optionsOf(fields()) });
        if (isCurrent()) await showReport(report);
    } catch (error) {
        if (isCurrent()) showProblem(error.message);
    }
}

async function inspect() {
    const own = ++turn, isCurrent = () => own === turn;
    client.drop();
    if (!held && text.value.trim() === '') {
        setLink();
        showNotice('There is no input.');
    } else if (!limits.checkValidity()) {
        settings.open = true;
        showProblem('A limit is out of its range: the depth is 0 to 1024, the bytes 0 to 4294967296.');
    } else {
        await inspectSource(isCurrent);
    }
    if (!isCurrent()) return;
    progress.hidden = true;
    result.inert = false;
    byId('answer').ariaBusy = 'false';
}

function inspectSoon() {
    byId('answer').ariaBusy = 'true';
    result.inert = true; // it is still shown, but belongs to the previous input
    clearTimeout(timer);
    timer = setTimeout(inspect, PAUSE);
}

function take(source, value, placeholder) {
    held = source;
    text.value = value;
    text.placeholder = placeholder;
    inspectSoon();
}

const takeFile = given => take({ file: given }, '', `${given.name}, ${digits(given.size)} bytes`);

function takeText(given) {
    file.value = '';
    byId('format').value = 'auto';
    if (given.length > LONG_TEXT) take({ text: given }, '', `${digits(given.length)} characters`);
    else take(undefined, given, '');
}

function takeLink() {
    const link = ofLink(location.hash);
    if (!link) return;
    for (const [name, value] of Object.entries(link.settings)) {
        byId(name).value = value;
        if (!byId(name).value) byId(name).value = USUAL[name];
        settings.open ||= byId(name).value !== USUAL[name];
    }
    takeText(link.hex);
}

function takeDrop(event) {
    const { files } = event.dataTransfer, given = event.dataTransfer.getData('text');
    event.preventDefault();
    document.body.classList.remove('is-dropping');
    if (files.length) takeFile(files[0]);
    else if (given) takeText(given);
}

text.addEventListener('input', () => {
    if (held) takeText(text.value);
    else inspectSoon();
});
text.addEventListener('paste', event => {
    const pasted = event.clipboardData.getData('text');
    if (pasted.length <= LONG_TEXT) return;
    event.preventDefault();
    takeText(pasted);
});
file.addEventListener('change', () => { if (file.files.length) takeFile(file.files[0]); });
form.addEventListener('change', ({ target }) => { if (target !== text && target !== file) inspectSoon(); });
limits.addEventListener('change', inspectSoon);
for (const it of [form, limits]) it.addEventListener('submit', event => event.preventDefault());
byId('clear').addEventListener('click', () => {
    takeText('');
    text.focus();
});
byId('goto').addEventListener('submit', async event => {
    event.preventDefault();
    await events.focus(await client.ask('rowAt', { offset: Number(byId('offset').value) }));
});
document.addEventListener('dragover', event => {
    event.preventDefault();
    document.body.classList.add('is-dropping');
});
document.addEventListener('dragleave', event => { if (!event.relatedTarget) document.body.classList.remove('is-dropping'); });
document.addEventListener('drop', takeDrop);
addEventListener('hashchange', takeLink);

showNotice('There is no input.');
takeLink();
