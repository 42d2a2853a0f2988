// Why a proposal was made: what officers said so far, a field for it beside a proposal, and a form
// that says more.

import { act } from './act.js';
import {
    answers, buttons, done, faulty, field, h, line, quiet, strong, submitButton,
} from './dom.js';
import { get } from '../desk/api.js';
import { matching } from '../desk/answers.js';
import { jsonCommand } from '../desk/journal.js';
import { wire } from '../formats/wire.js';
import { counted, textFault } from '../formats/words.js';

/** @typedef {import('./dom.js').Child} Child */
/** @typedef {import('../desk/reasons.js').Reason} Reason */
/** @typedef {import('../desk/types.js').Proposal} Proposal */

/** So many of the newest are shown, and of one in a list so many characters. */
const [SHOWN, SHORT] = [20, 60];

// The reasons, each with who gave it and when; nothing where there are none.
/** @param {Reason[]} reasons */
export function reasonList(reasons) {
    if (reasons.length === 0) return null;
    const rows = reasons.slice(-SHOWN).map(({ officer, time, text }) => (
        h('li', {}, strong(officer), time ? `, ${time}` : '', ': ', h('q', {}, text))
    ));
    const more = reasons.length - SHOWN;
    const older = more > 0 ? quiet(`And ${counted(more, 'older one')}, in History.`) : null;
    return h('div', {}, older, h('ul', {}, rows));
}

// The newest one in short, as a list has it.
/** @param {Reason[]} [reasons] */
export function shortReason(reasons = []) {
    const text = reasons.at(-1)?.text ?? '';
    const some = text.length > SHORT ? `${text.slice(0, SHORT - 1)}…` : text;
    return h('div', { class: 'quiet' }, some);
}

// A field for a reason.
/** @param {string} label */
export function whyField(label) {
    const most = wire.limits.reason;
    const input = line({ maxlength: most, spellcheck: null });
    const hint = `Up to ${most} characters of ASCII, which the minutes keep for good.`;
    const text = () => input.value.trim();
    /** @returns {[HTMLElement, string]} */
    const fault = () => [input, textFault(text(), most, 'reason')];
    return { place: field(label, input, hint), input, text, fault };
}

/**
 * @param {number} number
 * @param {string | undefined} tag the proposal's, unless it couldn't be asked for
 * @param {string} text
 * @param {HTMLElement} place where its answers are shown
 * @param {import('./act.js').Control[]} off
 */
function explain(number, tag, text, place, off) {
    const path = `/proposals/${number}/explain`;
    const about = tag === undefined ? {} : matching(tag);
    const command = jsonCommand(`Explain proposal ${number}`, path, { text }, about);
    return act(command, place, { off });
}

// Sends the reason of a proposal that was just made.
/** @param {number} number @param {string} text @param {HTMLElement} place */
export async function explainMade(number, text, place) {
    const made = await get(`/proposals/${number}`);
    const tag = made.kind === 'value' ? made.value.tag : undefined;
    const told = (await explain(number, tag, text, place, []))
        ? 'The minutes have your reason.'
        : `Proposal ${number} is made, without your reason. Its view has a form for it.`;
    place.append(quiet(told));
}

// A form that says why, of a proposal in any state.
/** @param {Proposal} proposal @param {(said: Child) => void} again shows the proposal anew */
export function explainForm({ number, tag }, again) {
    const why = whyField('Why, or why not');
    const said = answers();
    const go = submitButton('Explain');
    const onsubmit = async (/** @type {Event} */ event) => {
        event.preventDefault();
        const none = why.text() === '' ? 'Say why.' : '';
        if (go.disabled || faulty(none ? [why.input, none] : why.fault())) return;
        const reply = await explain(number, tag, why.text(), said, [go]);
        if (reply) again(done('Explained. ', 'It changed nothing else.'));
    };
    const form = h('form', { novalidate: true, onsubmit }, why.place, buttons(go));
    return h('details', {}, h('summary', {}, 'Explain'), form, said);
}
