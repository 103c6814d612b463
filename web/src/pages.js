// A table of many rows, which shows one page of them at a time.
import { byId, digits, element } from './dom.js';

export class Pages {
    #count = 0;
    #from = 0;
    #turn = 0;

    /** `load(from, count)` resolves to rows, and `rowOf(row)` returns the table row for one of them. */
    constructor(id, { title, columns, size, load, rowOf }) {
        Object.assign(this, { size, load, rowOf });
        this.caption = element('caption');
        this.body = element('tbody');
        const heads = columns.map(([text, className]) => element('th', { scope: 'col', className, textContent: text }));
        this.table = element('table', {}, this.caption, element('thead', {}, element('tr', {}, ...heads)), this.body);
        const scroll = element('div', { className: 'scroll', tabIndex: 0, role: 'region', ariaLabel: title }, this.table);
        this.buttons = [
            this.#button('First', () => 0),
            this.#button('Previous', () => this.#from - size),
            this.#button('Next', () => this.#from + size),
            this.#button('Last', () => this.#count - 1),
        ];
        this.bar = element('nav', { className: 'row', ariaLabel: `Pages of ${title.toLowerCase()}` }, ...this.buttons);
        byId(id).append(scroll, this.bar);
    }

    #button(text, target) {
        return element('button', { type: 'button', textContent: text, onclick: () => this.#show(target()) });
    }

    /** Shows a table of this many rows, at the page that has the row of this index. */
    async show(count, index = 0) {
        this.#count = count;
        await this.#show(index);
    }

    async #show(index) {
        const { size } = this, turn = ++this.#turn, from = Math.floor(Math.max(0, index) / size) * size;
        const rows = await this.load(from, size);
        if (turn !== this.#turn) return;
        this.#from = from;
        const to = from + rows.length, isAll = this.#count <= size, all = digits(this.#count);
        this.caption.textContent = isAll ? `${all} rows` : `Rows ${digits(from + 1)} to ${digits(to)} of ${all}`;
        this.table.setAttribute('aria-rowcount', this.#count + 1);
        this.body.replaceChildren(...rows.map((row, i) => {
            const made = this.rowOf(row);
            made.setAttribute('aria-rowindex', from + i + 2);
            return made;
        }));
        this.bar.hidden = isAll;
        const [first, previous, next, last] = this.buttons;
        first.disabled = previous.disabled = from === 0;
        next.disabled = last.disabled = to >= this.#count;
    }

    /** Shows the page with this row, and gives the row the focus. */
    async focus(index) {
        await this.#show(index);
        const row = this.body.children[index - this.#from];
        if (!row) return;
        row.tabIndex = -1;
        row.focus();
        row.scrollIntoView({ block: 'nearest' });
    }
}
