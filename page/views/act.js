// How a command is shown while it is under way, and its answer: one place for all forms.

import {
    box, button, buttons, fill, focusHeading, h, p, quiet, quietStatus, strong,
} from './dom.js';
import { tell } from '../desk/journal.js';
import { explained } from '../desk/refusals.js';
import { changed } from '../desk/standing.js';

/** @typedef {import('./dom.js').Child} Child */
/** @typedef {import('../desk/journal.js').Command} Command */
/** @typedef {import('../desk/types.js').Answer} Answer */
/** @typedef {import('../desk/types.js').NoValue} NoValue */
/** @typedef {{ disabled: boolean }} Control */

/**
 * Runs a command; the place shows how it goes. The controls are off until it is over.
 * @param {Command} command
 * @param {HTMLElement} place of role status
 * @param {{ off?: Control[] } & import('../desk/api.js').How} [how]
 * @returns {Promise<any>} the desk's reply, or null where it gave none
 */
export async function act(command, place, how = {}) {
    const off = (how.off ?? []).filter((control) => !control.disabled);
    for (const control of off) control.disabled = true;
    const answer = await command.run((now) => shows(now, place), told(command, place, how));
    for (const control of off) control.disabled = false;
    if (command.isGone()) return null;
    // (what was read came from another desk)
    const isOther = answer.kind === 'refused' && answer.name === 'Mismatch';
    if (isOther) changed();
    const look = isOther && place.isConnected ? buttons(button('Look again', lookAgain)) : null;
    fill(place, answer.kind === 'value' ? null : outcome(command, answer, look));
    tell();
    if (!place.isConnected) elsewhere(command, answer);
    return answer.kind === 'value' ? answer.value : null;
}

// How a command goes out whose body takes its time: the place says so once all of it is sent.
/** @param {Command} command @param {HTMLElement} place @param {import('../desk/api.js').How} how */
function told(command, place, { stop, progress: shown }) {
    const progress = shown && ((/** @type {number} */ some, /** @type {number} */ whole) => {
        shown(some, whole);
        if (some === whole && command.state === 'sending') fill(place, quiet(sentWords(command)));
    });
    return { stop, progress };
}

/** @param {Command} command */
const sentWords = ({ what }) => `${what}: sent, waiting for the desk…`;

// Shows the view anew, as its address does.
const lookAgain = () => dispatchEvent(new Event('hashchange'));

/** @param {Command} command @param {NoValue} answer @param {Child} [more] */
function outcome(command, answer, more) {
    if (answer.kind !== 'stopped') return refusalBox(answer, more);
    return command.answered ? givenUp(command) : stopped(command, answer.sent);
}

// The answer to a command whose view the person has left: it is shown above every view.
/** @param {Command} command @param {Answer} answer */
function elsewhere(command, answer) {
    const close = button('Close', () => told.remove(), 'small');
    const shown = answer.kind === 'value'
        ? box('good', p(strong(`${command.what}: done.`)))
        : [p(strong(command.what)), outcome(command, answer)];
    const told = h('div', {}, shown, close);
    document.getElementById('elsewhere')?.append(told);
}

// Empties a view to show it anew, below what was just answered, which takes the focus; without it
// the heading does.
/** @param {HTMLElement} place @param {Child[]} first what was answered, if anything */
export function anew(place, first) {
    const said = h('div', { tabindex: '-1' }, first);
    fill(place, first.length > 0 ? said : null);
    tell();
    if (first.length > 0) said.focus();
    else focusHeading(place);
}

/** @param {Command} command @param {HTMLElement} place */
function shows(command, place) {
    const { state, what, lost, bar } = command;
    if (state === 'sending') fill(place, quiet(bar ? `${what}: sending…` : sentWords(command)));
    if (state === 'again') {
        fill(place, box('care', p(`${lostWords(lost)} Asking again with the same key…`)));
    }
    if (state === 'lost') fill(place, (command.box = lostBox(command)));
}

// What is shown above every view of an upload that goes on while its own view is left.
/** @param {Command} command */
export const underWay = ({ what, bar }) => box('note', p(strong(`${what}: under way.`)), bar);

// What is shown of a command whose answer is still missing after all tries.
/** @param {Command} command */
export function lostBox(command) {
    const open = ' The desk may have accepted it or not.'
        + ' Asking again is safe: it has the same key, so it takes effect once.';
    return box(
        'care',
        p(strong(`${command.what}: no answer.`), ` ${lostWords(command.lost)}`, open),
        buttons(
            button('Ask again', () => command.askAgain(), 'main'),
            button('Give up', () => command.forget()),
        ),
    );
}

/** @param {Command} command @param {boolean} sent */
function stopped({ what }, sent) {
    const open = sent
        ? 'The desk may have accepted it.'
        : 'As far as the browser tells, it hadn’t been sent whole; if so, the desk took nothing.';
    const same = 'Done again on this page, it has the same key, so it takes effect once.';
    return box('care', p(strong(`${what}: stopped.`), ` ${open} ${same}`));
}

// What is shown of one whose key has a reply: the next one has another key.
/** @param {Command} command */
function givenUp({ what }) {
    const told = 'The same command was given again meanwhile, and has its answer. '
        + 'Done once more, it takes effect once more.';
    return box('note', p(strong(`${what}: given up.`), ` ${told}`));
}

/** @type {Record<number, string>} by status */
const LOST = {
    200: 'Something else answered in the desk’s place (200).',
    429: 'Too many requests came from here at once (429), so the proxy refused this one.',
    502: 'The proxy couldn’t reach the desk (502): it may be restarting.',
    503: 'The desk is closed (503): somebody works on it. Nothing is lost by waiting.',
    504: 'The desk didn’t answer the proxy in time (504).',
};

// Why there is no answer that tells what the desk did.
/** @param {Omit<import('../desk/types.js').Lost, 'kind'>} lost */
export function lostWords({ status, name, number }) {
    const by = number ? `: ${name} (${number})` : '';
    if (status === 503 && by) return `The desk has no memory, or its disk failed (503)${by}.`;
    if (LOST[status]) return LOST[status];
    if (status >= 500) return `The proxy failed (${status}).`;
    if (status < 400) return 'The connection was lost.';
    const unread = `This try was refused unread (${status})${by}.`;
    return `${unread} That doesn’t tell what came of the one before.`;
}

// A refusal, or a read without an answer, in words.
/** @param {NoValue} answer @param {Child} [more] what stands below, unless nothing would help */
export function refusalBox(answer, more) {
    if (answer.kind !== 'refused') {
        const words = lostWords(answer.kind === 'lost' ? answer : { status: 0 });
        return box('care', p(strong('No answer. '), words), more);
    }
    const { why, todo } = explained(answer);
    const number = answer.number ? ` (${answer.number})` : '';
    const isFinal = ['NoRoute', 'NoHashing'].includes(answer.name);
    return box(
        'bad',
        p(strong(`Refused: ${answer.name}${number}. `), why),
        todo ? p(todo) : null,
        isFinal ? null : more,
    );
}

// What stands where something is still to come.
export const reading = () => quietStatus('Reading from the desk…');

/**
 * Reads something for a view: says that it does, and shows what came or why nothing did.
 * @template T
 * @param {HTMLElement} place
 * @param {() => Promise<import('../desk/types.js').Answer<T>>} ask
 * @param {(value: T) => void} show
 * @returns {Promise<void>}
 */
export async function read(place, ask, show) {
    const note = reading();
    place.append(note);
    const answer = await ask();
    if (answer.kind === 'value') {
        note.remove();
        show(answer.value);
        return;
    }
    const again = button('Try again', () => {
        said.remove();
        focusHeading(place);
        read(place, ask, show);
    });
    const said = h('div', { role: 'alert' }, refusalBox(answer, buttons(again)));
    note.replaceWith(said);
}
