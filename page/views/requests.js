// The queue: the requests that the desk shows the caller, by state, oldest first.

import { read } from './act.js';
import { field, h, heading, quiet } from './dom.js';
import { badge, barredBadge, requestLink } from './marks.js';
import { choices, keepingFocus } from './table.js';
import { barredOf, uploadsTable } from './uploads.js';
import { listed } from '../desk/lists.js';
import { requestMatches } from '../desk/search.js';
import { me, withYou } from '../desk/session.js';
import { barredBy, standing } from '../desk/standing.js';
import { withWaiting } from '../desk/waiting.js';
import { wire } from '../formats/wire.js';
import { counted, size, stateChoices, stateCounts, voteWords } from '../formats/words.js';

/** @typedef {import('../desk/types.js').Request} Request */

// The state that the caller works on.
function first() {
    return me.signer ? 'approved' : me.reviewer ? 'open' : 'all';
}

/** @param {HTMLElement} place */
export function requestsView(place) {
    const submit = h('a', { href: '#/submit', class: 'button main' }, 'Submit an image');
    heading(place, 'Requests', me.submitter ? submit : null);
    const own = me.submitter && !me.reviewer;
    if (own) place.append(quiet('You see the requests that you submitted.'));
    /** @type {ReturnType<typeof queue> | null} */
    let shows = null;
    const show = (/** @type {Request[]} */ some, isWhole = false) => {
        shows ??= queue(place);
        shows(isWhole ? some : withWaiting(some), isWhole);
    };
    read(place, () => listed('requests', (some) => show(some)), (all) => {
        show(all, true);
        if (!place.isConnected || me.queue.scroll === 0) return;
        scrollTo(0, me.queue.scroll);
        me.queue.scroll = 0;
    });
    if (withWaiting([]).length > 0) show([]);
}

// What says how many of some requests are barred today, once it is known; it is asked for at the
// first that goes on.
function barring() {
    /** @type {ReturnType<typeof standing> | null} */
    let now = null;
    return (/** @type {Request[]} */ some, /** @type {(count: number) => Node} */ mark) => {
        const place = h('span', {});
        const going = some.filter(({ state }) => state === 'open' || state === 'approved');
        if (going.length === 0) return place;
        now ??= standing();
        now.then((answer) => {
            if (answer.kind !== 'value') return;
            const count = going.filter((one) => barredBy(answer.value, one) !== null).length;
            if (count > 0) place.append(' ', mark(count));
        });
        return place;
    };
}

/** @param {() => string} empty what is said where no row is shown */
function queueTable(empty) {
    const barred = barring();
    return uploadsTable({
        caption: 'Requests, oldest first',
        kind: 'wide queue',
        head: ['No', 'Title', 'From', 'State', 'Votes', 'Size'],
        empty,
        turned: (from) => (me.queue.from = from),
        barred: (files) => barred(files, barredOf),
        row: (request) => [
            ['number', request.number],
            [
                'title',
                requestLink(request.number, request.title),
                barred([request], () => barredBadge()),
            ],
            ['from', withYou(request.submitter)],
            badge(request.state),
            ['from', voteWords(request.votes, request.state)],
            ['size', size(request.length).replace(/ \(.*/, '')],
        ],
    });
}

// Places the queue, with the filter and the page that it had.
/**
 * @param {HTMLElement} place
 * @returns {(some: Request[], isWhole: boolean) => void} shows these, the whole list or not yet
 */
function queue(place) {
    const last = me.queue;
    last.state ||= first();
    /** @type {Request[]} */
    let requests = [];
    let isRead = false;
    const table = queueTable(() => {
        if (!isRead) return 'None so far: the list is still being read.';
        return requests.length === 0 ? 'There is no request yet.'
            : 'No request is like this. Choose another state, or change the text.';
    });
    const again = () => {
        last.from = 0;
        show();
    };
    const oninput = () => {
        last.text = search.value;
        again();
    };
    const search = h('input', { type: 'search', autocomplete: 'off', value: last.text, oninput });
    const all = stateChoices(wire.words.requests);
    const states = choices('Requests by state', all, (value) => {
        last.state = value;
        again();
        states.focus();
    });
    const told = h('p', { class: 'unseen', role: 'status' });
    const filter = field('Filter by title, name, number or digest', search);
    place.append(h('div', { class: 'tools' }, states.place, filter), told, table.place);
    // (where a request is opened from, Back comes back to)
    table.place.addEventListener('click', ({ target }) => {
        if (target instanceof HTMLAnchorElement) last.scroll = scrollY;
    });

    function show() {
        const like = requests.filter((request) => requestMatches(request, last.text));
        const rows = like.filter(({ state }) => last.state === 'all' || state === last.state);
        states.show(last.state, stateCounts(like));
        table.set(rows, last.from);
        told.textContent = counted(rows.length, 'request');
    }
    return (some, isWhole) => {
        [requests, isRead] = [some, isWhole];
        keepingFocus(table.place, show);
    };
}
