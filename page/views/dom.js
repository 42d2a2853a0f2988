// Elements are made here and nowhere else. A text becomes a text node: nothing on this page parses
// markup, whatever a title or a note says.

/** @typedef {Node | string | number | null | undefined | false | any[]} Child */

/**
 * An element. `given` has its attributes; a value of null, undefined or false leaves one out, and a
 * function under `onclick`, `oninput`, .. is a listener.
 * @template {keyof HTMLElementTagNameMap} Name
 * @param {Name} name
 * @param {Record<string, any>} [given]
 * @param {...Child} children
 */
export function h(name, given = {}, ...children) {
    const element = document.createElement(name);
    for (const [key, value] of Object.entries(given)) {
        if (value === null || value === undefined || value === false) continue;
        if (typeof value === 'function') element.addEventListener(key.slice(2), value);
        else element.setAttribute(key, value === true ? '' : String(value));
    }
    element.append(...shown(children));
    return element;
}

/** @param {any[]} children @returns {(Node | string)[]} */
function shown(children) {
    const given = children.flat(Infinity);
    return given.filter((child) => child !== null && child !== undefined && child !== false)
        .map((child) => (child instanceof Node ? child : String(child)));
}

/** @param {Element} element @param {...Child} children */
export function fill(element, ...children) {
    element.replaceChildren(...shown(children));
}

let fields = 0;

// A field with its label, a hint and what is wrong, tied together for those who hear the page.
/** @param {string} label @param {HTMLElement} input @param {Child} [hint] */
export function field(label, input, hint) {
    fields += 1;
    input.id ||= `field-${fields}`;
    const told = hint ? h('p', { class: 'hint', id: `${input.id}-hint` }, hint) : null;
    const fault = h('p', { class: 'fault', id: `${input.id}-fault`, role: 'status' });
    input.setAttribute('aria-describedby', told ? `${told.id} ${fault.id}` : fault.id);
    input.addEventListener('input', () => faultAt(input));
    return h('div', { class: 'field' }, h('label', { for: input.id }, label), told, fault, input);
}

/** @param {Element} input @returns {Element | null | undefined} where it stands what is wrong */
const faultOf = (input) => input.closest('.field')?.querySelector('.fault');

/** @param {Element} input */
export const faultIn = (input) => faultOf(input)?.textContent ?? '';

// Says what is wrong at a field, until it changes; nothing where nothing is.
/** @param {Element} input @param {string} [fault] */
export function faultAt(input, fault = '') {
    const place = faultOf(input);
    if (place) place.textContent = fault;
    if (fault) input.setAttribute('aria-invalid', 'true');
    else input.removeAttribute('aria-invalid');
}

/**
 * Says at each of these fields what is wrong there, and gives the focus to the first where
 * something is.
 * @param {...[input: HTMLElement, fault: string]} checked
 * @returns {boolean} whether something is
 */
export function faulty(...checked) {
    for (const [input, fault] of checked) faultAt(input, fault);
    const first = checked.find(([, fault]) => fault !== '');
    first?.[0].focus();
    return first !== undefined;
}

// A line to type in.
/** @param {Record<string, any>} [more] */
export function line(more = {}) {
    return h('input', { type: 'text', autocomplete: 'off', spellcheck: 'false', ...more });
}

// What makes an element of one kind, with these children.
/**
 * @template {keyof HTMLElementTagNameMap} Name
 * @param {Name} name @param {Record<string, any>} [given]
 */
const maker = (name, given) => (/** @type {Child[]} */ ...children) => h(name, given, ...children);

export const p = maker('p');
export const quiet = maker('p', { class: 'quiet' });
export const strong = maker('strong');
export const buttons = maker('div', { class: 'buttons' });
// Places that a screen reader speaks as they change.
export const status = maker('div', { role: 'status' });
export const answers = maker('div', { class: 'answer', role: 'status' });
export const quietStatus = maker('p', { class: 'quiet', role: 'status' });

// A box of one colour: `good`, `bad`, `care` or `note`.
/** @param {string} kind @param {...Child} children */
export const box = (kind, ...children) => h('div', { class: `box ${kind}` }, ...children);

// What was done, in a word, and what follows.
/** @param {string} word @param {...Child} children */
export const done = (word, ...children) => status(box('good', strong(word), ...children));

/** @param {string} href @param {...Child} children */
export const link = (href, ...children) => h('a', { href }, ...children);

/** @param {Child[][]} rows */
export const facts = (rows) => h('dl', { class: 'facts' }, rows.map(
    ([name, value]) => h('div', {}, h('dt', {}, name), h('dd', {}, value)),
));

/** @param {string} title @param {...Child} children */
export const section = (title, ...children) => h('section', {}, h('h2', {}, title), ...children);

// A part of a view that is to be acted in.
/** @param {string} title @param {...Child} children */
export const actSection = (title, ...children) => (
    h('section', { class: 'act' }, h('h2', {}, title), ...children)
);

/**
 * A button.
 * @param {string} text
 * @param {(event: Event) => void} onclick
 * @param {string} [kind] `main`, `danger`, `small`, or none
 */
export function button(text, onclick, kind) {
    return h('button', { type: 'button', class: kind, onclick }, text);
}

/** @param {string} text */
export const submitButton = (text) => h('button', { type: 'submit', class: 'main' }, text);

// The heading of a view, which takes the focus when the view is shown, and the title of the window.
/** @param {Element} place @param {string} text @param {...Child} beside */
export function heading(place, text, ...beside) {
    const title = h('h1', { tabindex: '-1' }, text);
    place.append(h('div', { class: 'heading' }, title, ...beside));
    titled(`${text} · Kovelamiru`);
}

// Gives the focus to the heading of the view, where a button that had it goes; the page isn't
// scrolled.
/** @param {Element} place in the view */
export function focusHeading(place) {
    place.closest('.view')?.querySelector('h1')?.focus({ preventScroll: true });
}

let [title, waits] = ['Kovelamiru', 0];

// The title of the window, with the count of what waits for the person.
/** @param {string} [text] @param {number} [count] */
export function titled(text = title, count = waits) {
    [title, waits] = [text, count];
    document.title = count > 0 ? `(${count}) ${text}` : text;
}

/**
 * Asks before something that can't be taken back: a dialog that says what it does. The focus is on
 * its heading, so that Enter does nothing yet and Escape leaves it.
 * @param {string} title
 * @param {Child[]} body
 * @param {string} yes what the button says that goes on
 * @param {string} [no]
 * @returns {Promise<boolean>}
 */
export function sure(title, body, yes, no = 'Go back') {
    const back = h('button', { type: 'submit', value: 'no' }, no);
    const on = h('button', { type: 'submit', value: 'yes', class: 'danger' }, yes);
    const name = h('h2', { id: 'sure-title', tabindex: '-1', autofocus: true }, title);
    const form = h('form', { method: 'dialog' }, name, ...body, buttons(back, on));
    const dialog = h('dialog', { 'aria-labelledby': 'sure-title' }, form);
    return new Promise((resolve) => {
        dialog.addEventListener('close', () => {
            dialog.remove();
            resolve(dialog.returnValue === 'yes');
        });
        document.body.append(dialog);
        dialog.showModal();
        name.focus();
    });
}

// Puts a question of ../desk/questions.js.
/** @param {import('../desk/questions.js').Question} question @returns {Promise<boolean>} */
export const asks = ({ title: of, lines, button: yes }) => (
    sure(of, lines.map((line) => p(line)), yes)
);
