// The page: who is signed in, which view is shown, and the commands that wait for an answer. The
// page isn't proved and decides nothing; what it shows is what the desk answered.

import { forgetMinutes } from './desk/calls.js';
import { forgetKeys, onChange, unanswered } from './desk/journal.js';
import { me, signIn, signOut, tokenFault } from './desk/session.js';
import { changed } from './desk/standing.js';
import { look } from './desk/waiting.js';
import { readWire } from './formats/wire.js';
import { isNumber } from './formats/words.js';
import { lostBox, refusalBox, underWay } from './views/act.js';
import { beginWatch, endWatch } from './views/cover.js';
import { box, faultAt, faulty, fill, h, p, quiet, strong, sure } from './views/dom.js';
import { historyView } from './views/history.js';
import { inboxView } from './views/inbox.js';
import { listsView } from './views/lists.js';
import { proposalView } from './views/proposal.js';
import { proposalsView } from './views/proposals.js';
import { proposeView } from './views/propose.js';
import { reportView } from './views/report.js';
import { requestView } from './views/request.js';
import { requestsView } from './views/requests.js';
import { submitView } from './views/submit.js';
import { uploadView } from './views/upload.js';
import { verdictView } from './views/verdict.js';
import { beginWaiting, counts, endWaiting } from './views/waiting.js';
import { whyView } from './views/why.js';

/** @param {string} id @returns {any} */
const part = (id) => document.getElementById(id);

/** @typedef {(place: HTMLElement, words: string[]) => any} Shows */

/** @type {(one: Shows, all: Shows) => Shows} a view of the one that an address names, or of all */
const oneOrAll = (one, all) => (place, words) => (isNumber(words[0]) ? one : all)(place, words);

/** @type {Shows} a reviewer's view of the upload of a request, the request, or all */
const anyRequest = (place, words) => {
    const isUpload = words[1] === 'upload' && me.reviewer && isNumber(words[0]);
    return (isUpload ? uploadView : oneOrAll(requestView, requestsView))(place, words);
};

/** @type {Shows} */
const anyHistory = (place, words) => (words.length > 0 ? whyView : historyView)(place, words);

/** @type {[name: string, title: string, isFor: () => boolean, shows: Shows][]} in the navigation */
const VIEWS = [
    ['inbox', 'For you', () => true, inboxView],
    ['requests', 'Requests', () => true, anyRequest],
    ['submit', 'Submit', () => me.submitter, submitView],
    ['proposals', 'Proposals', () => me.officer, oneOrAll(proposalView, proposalsView)],
    ['propose', 'Propose', () => me.officer, proposeView],
    ['lists', 'Lists', () => true, listsView],
    ['check', 'Check an image', () => true, verdictView],
    ['history', 'History', () => me.officer, anyHistory],
    ['report', 'Report', () => me.officer, reportView],
];

// Keeps the count of what waits at the link of the first view.
const tellCount = counts(() => part('views').querySelector('.count'));

// Shows the view anew that is shown: what it reads is read again.
const showAnew = () => dispatchEvent(new HashChangeEvent('hashchange'));

function show() {
    part('sign-in').hidden = me.known;
    part('frame').hidden = !me.known;
    if (!me.known) return;
    const [, asked, ...words] = location.hash.split('/');
    const mine = VIEWS.filter(([, , isFor]) => isFor());
    const [view, , , shows] = mine.find(([name]) => name === asked) ?? VIEWS[0];
    fill(part('views'), mine.map(([name, title]) => {
        const current = name === view ? 'page' : null;
        const count = name === 'inbox' ? h('span', { class: 'count' }) : null;
        const onclick = () => location.hash === `#/${name}` && showAnew();
        return h('a', { href: `#/${name}`, 'aria-current': current, onclick }, title, count);
    }));
    tellCount();
    part('who').textContent = `${me.name}, ${me.role}`;
    const place = h('div', { class: 'view' });
    fill(part('main'), place);
    scrollTo(0, 0);
    shows(place, view === asked ? words : []);
}

/** How many commands were under way. */
let under = 0;

// The commands whose answer is missing, and uploads, on whatever view the person is.
function waiting() {
    const all = [...unanswered];
    const isHere = (/** @type {HTMLElement | null} */ at) => part('main').contains(at);
    const lost = all.filter((one) => one.state === 'lost' && !isHere(one.box));
    const sent = all.filter(({ state, bar }) => state !== 'lost' && bar && !isHere(bar));
    fill(part('waiting'), lost.map(lostBox), sent.map(underWay));
    if (unanswered.size < under && me.known) look(true);
    under = unanswered.size;
}

const NOT_WHOLE = 'A part of this page didn’t come. ';
const AGAIN = 'Sign in once more; if this comes back, tell the desk’s administrator.';

async function enter(/** @type {Event} */ event) {
    event.preventDefault();
    const field = part('token');
    const token = field.value.trim();
    const said = part('sign-in-answer');
    fill(said);
    if (faulty([field, tokenFault(token)])) return undefined;
    part('enter').disabled = true;
    fill(said, quiet('Asking the desk…'));
    const missing = await readWire();
    const answer = missing ?? await signIn(token);
    part('enter').disabled = false;
    if (answer) {
        fill(said, missing ? box('care', p(strong(NOT_WHOLE), AGAIN)) : refusalBox(answer));
        return field.focus();
    }
    return goIn();
}

// The person is known: the view is shown that the address names.
function goIn() {
    part('token').value = '';
    fill(part('sign-in-answer'));
    show();
    beginWaiting();
    beginWatch(leave);
    part('main').querySelector('h1')?.focus();
}

// Signs in without a press where the site knows people by their certificates: it answers without a
// token. Not behind a sign-out.
async function goInByCertificate() {
    if (await signIn('') === null) goIn();
}

const KEY_LOST = 'A command still waits for its answer. '
    + 'Its key is lost with this page’s memory, so it can’t be asked for again.';

async function leave() {
    const waits = unanswered.size > 0;
    if (waits && !(await sure('Sign out now?', [p(KEY_LOST)], 'Sign out', 'Stay'))) return;
    forget();
    history.replaceState(null, '', location.pathname);
    part('token').focus();
}

// Signs out: nothing of the person is left on the page or in its memory.
function forget() {
    forgetKeys();
    signOut();
    changed();
    forgetMinutes();
    endWaiting();
    endWatch();
    for (const open of document.querySelectorAll('dialog')) open.close();
    const places = ['main', 'elsewhere', 'waiting', 'views', 'who', 'sign-in-answer'];
    for (const place of places) fill(part(place));
    part('token').value = '';
    part('enter').disabled = false;
    show();
}

onChange(waiting);
addEventListener('hashchange', () => {
    show();
    waiting();
    part('main').querySelector('h1')?.focus();
});
addEventListener('beforeunload', (event) => {
    if (unanswered.size > 0) event.preventDefault();
});
// Whoever comes back to a page that the browser kept signs in anew, and to no view of before.
addEventListener('pagehide', forget);
addEventListener('pageshow', (event) => {
    if (event.persisted) history.replaceState(null, '', location.pathname);
});
// A file that misses its field must not replace the page.
addEventListener('dragover', (event) => event.preventDefault());
addEventListener('drop', (event) => event.preventDefault());
part('sign-in-form').addEventListener('submit', enter);
part('leave').addEventListener('click', leave);
part('skip').addEventListener('click', (/** @type {Event} */ event) => {
    event.preventDefault();
    part(me.known ? 'main' : 'token').focus();
});
part('token').addEventListener('input', () => faultAt(part('token')));
show();
// Until here the form can't be sent: nobody would have kept the browser from sending it.
fill(part('sign-in-answer'));
part('enter').disabled = false;
part('token').focus();
goInByCertificate();
