// An image on its way to the desk: a bar shows how much has gone out, and a button stops it, above
// every view where its own is left. What arrived is compared by its SHA-256.

import { act } from './act.js';
import { box, button, facts, fill, h, p, strong } from './dom.js';
import { digest } from './marks.js';

// A place for the bar.
export const barPlace = () => h('div', { class: 'sending' });

/** @param {HTMLElement} place @param {string} label */
export function sendingBar(place, label) {
    const ends = new AbortController();
    const shown = h('progress', { max: 1, value: 0, 'aria-label': label });
    const percent = h('span', { class: 'percent', 'aria-hidden': 'true' });
    const stop = button('Stop', () => ends.abort());
    const bar = h('div', { class: 'bar' }, shown, percent, stop);
    fill(place, bar);
    const progress = (/** @type {number} */ some, /** @type {number} */ whole) => {
        shown.value = whole > 0 ? some / whole : 1;
        percent.textContent = `${Math.floor(shown.value * 100)} %`;
    };
    // (a newer upload may have put its own there)
    return { bar, stop: ends.signal, progress, end: () => bar.remove() };
}

/**
 * Sends a command with such a bar.
 * @param {import('../desk/journal.js').Command} command
 * @param {HTMLElement} place of the bar
 * @param {HTMLElement} said
 * @param {import('./act.js').Control[]} off
 */
export async function sent(command, place, said, off) {
    const { bar, end, ...how } = sendingBar(place, `${command.what}: how much is sent`);
    command.bar = bar;
    const reply = await act(command, said, { off, ...how });
    end();
    return reply;
}

// The SHA-256 of the page beside that of the desk.
/** @param {string} here @param {string} there */
export function compared(here, there) {
    const desk = digest(there, 'the desk’s SHA-256');
    if (here === '') {
        const told = 'This browser worked out none: compare it by eye.';
        return box('note', p('The desk’s SHA-256 of the file: ', desk), p(told));
    }
    const sums = facts([['Here', digest(here, 'the SHA-256 of this page')], ['At the desk', desk]]);
    const same = 'The SHA-256 is the same here and at the desk.';
    const other = 'The SHA-256 differs between this page and the desk.';
    return here === there
        ? box('good', p(strong('It arrived whole. '), same), sums)
        : box('bad', p(strong('It is another file. '), other), sums);
}
