// Whoever leaves the page for half an hour finds it covered: the token is forgotten, nothing is
// sent, and what was typed stays below. With the token it goes on; where a certificate signs the
// person in, by a press.

import { refusalBox } from './act.js';
import { answers, button, buttons, faulty, field, fill, h, p, submitButton } from './dom.js';
import { AWAY, idle, touch } from '../desk/idle.js';
import { unanswered } from '../desk/journal.js';
import { comesBack, leaves, me, tokenFault } from '../desk/session.js';

/** How often the clock is looked at, in milliseconds. */
const EACH = 1000;
const TOUCHES = ['keydown', 'pointerdown', 'wheel', 'input'];
const MINUTES = AWAY / 60000;
const SOON = `Nobody has touched this page for ${MINUTES - 1} minutes. In a minute it is covered, `
    + 'until you sign in again; what you typed stays. ';
const COVERED = `Nobody touched this page for ${MINUTES} minutes, so it is covered. `
    + 'What you typed is still there.';
const OTHER = 'This is another person’s token. Sign out first.';

/** @type {HTMLElement | null} */
let warning = null;
/** @type {HTMLDialogElement | null} */
let cover = null;
let timer = 0;
let signsOut = () => {};

/** @param {() => void} leave signs out */
export function beginWatch(leave) {
    signsOut = leave;
    touch();
    timer = setInterval(looks, EACH);
    for (const kind of TOUCHES) addEventListener(kind, touched, { capture: true, passive: true });
    document.addEventListener('visibilitychange', looks);
}

// The person signs out: nothing is covered any more.
export function endWatch() {
    clearInterval(timer);
    for (const kind of TOUCHES) removeEventListener(kind, touched, { capture: true });
    document.removeEventListener('visibilitychange', looks);
    uncovers();
}

// (a touch behind the time doesn't count: the machine may have slept)
function touched() {
    looks();
    if (cover) return;
    touch();
    looks();
}

function looks() {
    if (cover) return;
    const isBusy = [...unanswered].some(({ state }) => state !== 'lost');
    if (isBusy) touch();
    const now = idle();
    if (now !== 'soon') warning?.remove();
    if (now === 'soon' && !warning?.isConnected) warns();
    if (now === 'away') covers();
}

function warns() {
    warning = h('div', { class: 'soon', role: 'alert' }, p(SOON), button('Stay', touched, 'small'));
    // (what is outside an open dialog isn't heard)
    ([...document.querySelectorAll('dialog[open]')].pop() ?? document.body).append(warning);
}

function covers() {
    leaves();
    const token = h('input', { type: 'password', autocomplete: 'current-password' });
    const said = answers();
    const onsubmit = (/** @type {Event} */ event) => {
        event.preventDefault();
        goesOn(token, said);
    };
    const title = h('h2', { id: 'cover-title', tabindex: '-1' }, `Are you there, ${me.name}?`);
    // (a keeper of passwords wants a name)
    const name = h('input', { value: 'desk', autocomplete: 'username', hidden: true });
    const form = h(
        'form',
        { novalidate: true, onsubmit },
        title,
        p(COVERED),
        me.hasToken ? [name, field('Your token', token)] : null,
        buttons(submitButton('Go on'), button('Sign out', signsOut)),
        said,
    );
    const mine = h('dialog', { class: 'cover', 'aria-labelledby': 'cover-title' }, form);
    // (an Escape would close the question below it, too)
    mine.addEventListener('keydown', (event) => event.key === 'Escape' && event.preventDefault());
    mine.addEventListener('close', () => cover === mine && mine.showModal());
    cover = mine;
    document.body.append(mine);
    mine.showModal();
    (me.hasToken ? token : title).focus();
}

function uncovers() {
    warning?.remove();
    const mine = cover;
    cover = null;
    mine?.close();
    mine?.remove();
}

/** @param {HTMLInputElement} token @param {HTMLElement} said */
async function goesOn(token, said) {
    fill(said);
    const typed = me.hasToken ? token.value.trim() : '';
    const none = me.hasToken && typed === '' ? 'Give your token.' : tokenFault(typed);
    if (me.hasToken && faulty([token, none])) return;
    const answer = await comesBack(typed);
    if (!cover) return;
    if (answer === 'other') faulty([token, OTHER]);
    else if (answer) fill(said, refusalBox(answer));
    else {
        touch();
        uncovers();
    }
}
