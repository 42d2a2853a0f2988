// Tables; of one with many rows only a page is made, so that ten thousand rows cost no more than a
// hundred.

import { button, fill, focusHeading, h, quiet } from './dom.js';
import { grouped } from '../formats/words.js';

/** @typedef {import('./dom.js').Child} Child */

// A table; a cell that is an array has a class first. What heads a row is its title, or else its
// first cell. `kind` has the table's classes: a `wide` one becomes cards where there is no room.
/** @param {{ caption: string, head: string[], kind?: string }} form @param {Child[][]} rows */
export function table({ caption, head, kind = 'wide' }, rows) {
    const body = rows.map((row) => {
        const first = Math.max(0, row.findIndex((one) => Array.isArray(one) && one[0] === 'title'));
        return h('tr', {}, row.map((cell, at) => cellOf(cell, head[at], at === first)));
    });
    return h(
        'table',
        { class: kind },
        h('caption', {}, caption),
        h('thead', {}, h('tr', {}, head.map((text) => h('th', { scope: 'col' }, text)))),
        h('tbody', {}, body),
    );
}

/** @param {Child} cell @param {string} label @param {boolean} isHead */
function cellOf(cell, label, isHead) {
    const [name, ...content] = Array.isArray(cell) ? cell : ['', cell];
    const role = isHead ? 'rowheader' : null;
    return h('td', { class: name || null, role, 'data-label': label }, ...content);
}

// How many rows a part of a view shows at once: few where each is a card.
export const few = () => (matchMedia('(max-width: 44rem)').matches ? 5 : 20);

/**
 * @template T
 * @param {{ caption: string, head: string[], row: (value: T) => Child[],
 *   empty: string | (() => string), size?: number, kind?: string,
 *   turned?: (from: number) => void }} form
 * `row` gives the cells, `size` is how many rows a page has; `turned` hears its first row.
 */
export function paged(form) {
    const place = h('div', { class: 'paged' });
    const size = form.size ?? 100;
    /** @type {T[]} */
    let rows = [];
    let from = 0;

    /** @param {number} first @param {boolean} [moved] by a button, which keeps the focus */
    function show(first, moved) {
        const last = Math.floor(Math.max(0, rows.length - 1) / size) * size;
        from = Math.max(0, Math.min(first, last));
        const { empty } = form;
        const none = () => (typeof empty === 'string' ? empty : empty());
        if (rows.length === 0) return fill(place, quiet(none()));
        const shown = table(form, rows.slice(from, from + size).map(form.row));
        const turns = { from, size, last, count: rows.length, caption: form.caption };
        fill(place, shown, rows.length > size ? pager(turns, (to) => show(to, true)) : null);
        if (!moved) return undefined;
        form.turned?.(from);
        place.scrollIntoView({ block: 'start' });
        return /** @type {HTMLElement} */ (place.querySelector('.pager'))?.focus();
    }

    /** @param {T[]} more @param {boolean | number} [at] the page that is shown, or that of a row */
    function set(more, at = 0) {
        rows = more;
        show(at === true ? from : Number(at));
    }
    return { place, set };
}

/**
 * The buttons that turn the pages of a table; `last` is the first row of the last one.
 * @param {{ from: number, size: number, last: number, count: number, caption: string }} turns
 * @param {(first: number) => void} show
 */
function pager({ from, size, last, count, caption }, show) {
    /** @type {(text: string, first: number, isOff: boolean) => Child} */
    const to = (text, first, isOff) => {
        const one = button(text, () => show(first));
        one.disabled = isOff;
        return one;
    };
    const end = grouped(Math.min(from + size, count));
    return h(
        'nav',
        { class: 'pager', tabindex: '-1', 'aria-label': `Pages of ${caption}` },
        to('First', 0, from === 0),
        to('Previous', from - size, from === 0),
        h('span', {}, `${grouped(from + 1)} to ${end} of ${grouped(count)}`),
        to('Next', from + size, from === last),
        to('Last', last, from === last),
    );
}

/**
 * A filter by state with counts, as a row of buttons of which one is pressed.
 * @param {string} label
 * @param {[value: string, text: string][]} all
 * @param {(value: string) => void} take
 */
export function choices(label, all, take) {
    const place = h('div', { class: 'choices', role: 'group', 'aria-label': label });
    /** @param {string} now @param {Record<string, number>} counts */
    function show(now, counts) {
        keepingFocus(place, () => fill(place, all.map(([value, text]) => {
            const count = h('span', { class: 'count' }, grouped(counts[value] ?? 0));
            const one = button(text, () => take(value));
            one.dataset.value = value;
            one.setAttribute('aria-pressed', String(value === now));
            one.append(' ', count);
            return one;
        })));
    }
    // Puts the focus on the pressed one, which `show` has made anew.
    function focus() {
        /** @type {HTMLElement | null} */ (place.querySelector('[aria-pressed="true"]'))?.focus();
    }
    return { place, show, focus };
}

/** @param {Element | null} one */
const nameOf = (one) => one?.getAttribute('href') ?? one?.getAttribute('data-value');

// Fills a place anew; a link or a choice in it that had the focus has it again, or the heading if
// that is gone.
/** @param {HTMLElement} place @param {() => void} make */
export function keepingFocus(place, make) {
    const focused = place.contains(document.activeElement) ? document.activeElement : null;
    make();
    if (!focused) return;
    const name = nameOf(focused);
    const found = [...place.querySelectorAll('a, button')].find((one) => nameOf(one) === name);
    if (name && found instanceof HTMLElement) found.focus({ preventScroll: true });
    else focusHeading(place);
}
