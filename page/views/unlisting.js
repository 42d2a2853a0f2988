// For officers: an entry is taken off db, once its name was typed below what that costs.

import { act, refusalBox } from './act.js';
import { button, done, field, fill, line, p, quiet, sure } from './dom.js';
import { get } from '../desk/api.js';
import { minutes, readOn, slices } from '../desk/calls.js';
import { jsonCommand } from '../desk/journal.js';
import { unlistQuestion } from '../desk/questions.js';
import { me } from '../desk/session.js';
import { called, changed, standing } from '../desk/standing.js';
import { losingIn } from '../desk/unlisting.js';
import { SOME } from '../formats/words.js';

/** @typedef {import('../desk/questions.js').Question} Question */
/** @typedef {import('../desk/types.js').NoValue} NoValue */

// What is asked before it; a fault where it can't be known.
/** @param {string} hex @returns {Promise<Question | NoValue>} */
async function questionOf(hex) {
    changed();
    const [now, all] = await Promise.all([standing(), readOn()]);
    if (now.kind !== 'value') return now;
    if (all.kind !== 'value') return all;
    /** @type {number[]} */
    const numbers = [];
    await slices(0, minutes().lines.length, (row) => {
        const number = losingIn(now.value, row, hex);
        if (number !== null) numbers.push(number);
    }, () => true);
    const first = await Promise.all(numbers.slice(0, SOME).map((one) => get(`/requests/${one}`)));
    const fault = first.find(({ kind }) => kind !== 'value');
    if (fault && fault.kind !== 'value') return fault;
    const requests = first.flatMap((one) => (one.kind === 'value' ? [one.value] : []));
    const { certificates } = now.value.listed;
    const name = called(certificates.get(hex) ?? { tbs: hex, subject: '' });
    return unlistQuestion(name, numbers.length, requests);
}

// Puts a question whose button works once its word was typed.
/** @param {Question} question */
function typed({ title, lines, button: text, typed: what }) {
    const input = line();
    const answer = sure(title, [lines.map((one) => p(one)), field(what?.label ?? '', input)], text);
    const on = /** @type {HTMLButtonElement} */ (input.closest('form')?.querySelector('.danger'));
    on.disabled = true;
    input.addEventListener('input', () => (on.disabled = input.value.trim() !== what?.wanted));
    // (Enter would press the first button, which goes back)
    input.addEventListener('keydown', (event) => event.key === 'Enter' && event.preventDefault());
    return answer;
}

/**
 * A button that takes an entry off db.
 * @param {'digest' | 'certificate'} kind
 * @param {string} hex
 * @param {string} what
 * @param {HTMLElement} said
 * @param {(done: HTMLElement) => void} again shows the lists anew
 */
export function unlistButton(kind, hex, what, said, again) {
    if (!me.officer) return '';
    const one = button('Unlist…', async () => {
        one.disabled = true;
        fill(said, quiet('Reading from the desk…'));
        const question = await questionOf(hex);
        one.disabled = false;
        fill(said);
        if ('kind' in question) return fill(said, refusalBox(question));
        if (!(await typed(question))) return undefined;
        const command = jsonCommand(`Unlist ${what}`, '/db/unlist', { digest: hex, kind });
        const reply = await act(command, said, { off: [one] });
        changed();
        return reply ? again(done('Unlisted.')) : undefined;
    }, 'small');
    one.setAttribute('aria-label', `Unlist ${what}`);
    return one;
}
