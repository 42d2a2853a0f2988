// "For you", the first view: what waits for the person, which of their own requests changed, and
// those that are under way.

import { read } from './act.js';
import { fill, h, heading, quiet } from './dom.js';
import { named } from './impact.js';
import { badge, barredBadge, proposalLink, requestLink } from './marks.js';
import { shortReason } from './reasons.js';
import { keepingFocus, paged } from './table.js';
import { barredOf, uploadsTable } from './uploads.js';
import { namesOf } from '../desk/proposals.js';
import { lately, ownProposals, times } from '../desk/proposed.js';
import { me, withYou } from '../desk/session.js';
import { barredBy, standing } from '../desk/standing.js';
import { inbox, listen, look } from '../desk/waiting.js';
import { ageWords, counted, votesBy } from '../formats/words.js';

/** @typedef {import('./dom.js').Child} Child */
/** @typedef {import('../desk/types.js').Request} Request */
/** @typedef {import('../desk/types.js').ProposalRow} ProposalRow */
/** @typedef {import('../desk/standing.js').Standing} Standing */

/**
 * What is known besides: the lists of today, an officer's own open proposals, when proposals were
 * made, why, and what they name.
 * @typedef {{ now: Standing | null, own: ProposalRow[] | null, times: Map<number, string>,
 *   reasons: Awaited<ReturnType<typeof lately>>, names: Map<number, string> }} Beside
 */

/** @param {HTMLElement} place */
export function inboxView(place) {
    const submit = h('a', { href: '#/submit', class: 'button main' }, 'Submit an image');
    heading(place, 'For you', me.submitter ? submit : null);
    const told = h('p', { class: 'unseen', role: 'status' });
    const lists = h('div', {});
    place.append(told, lists);
    /** @type {Beside} */
    const beside = {
        now: null, own: null, times: new Map(), reasons: new Map(), names: new Map(),
    };
    const parts = partsOf(beside);
    const show = () => {
        const all = inbox();
        if (!all) return;
        keepingFocus(lists, () => fill(lists, parts.map((part) => part(all))));
        const { requests, proposals, changed } = all;
        const waits = counted(requests.length + proposals.length, 'waits', 'wait');
        const said = `${waits} for you${changed.length > 0 ? `, ${changed.length} changed` : ''}`;
        if (told.textContent !== said) told.textContent = said;
    };
    const more = async () => {
        const all = inbox();
        if (!all) return;
        beside.own = await ownProposals();
        beside.times = await times();
        beside.reasons = await lately();
        const some = all.requests.length + all.changed.length + all.under.length > 0;
        const now = some ? await standing() : null;
        if (now?.kind === 'value') beside.now = now.value;
        if (place.isConnected) show();
        if (all.proposals.length === 0 && !beside.own) return;
        beside.names = await namesOf([...all.proposals, ...(beside.own ?? [])]);
        if (place.isConnected) show();
    };
    const end = listen(() => {
        if (!place.isConnected) return end();
        show();
        return more();
    });
    if (!inbox()) return read(lists, look, () => {});
    show();
    more();
    return look();
}

/** @type {Record<string, string>} what is said where nothing waits, by role */
const NOTHING = {
    officer: 'No proposal waits for you.',
    reviewer: 'No request waits for your vote.',
    signer: 'No approved request waits for you.',
};

/**
 * The parts of the view that the person has, each with a table that keeps its page.
 * @param {Beside} beside
 * @returns {((all: NonNullable<ReturnType<typeof inbox>>) => Child)[]}
 */
function partsOf(beside) {
    const empty = NOTHING[me.role] ?? '';
    const requests = requestTable('Requests, oldest first', empty, beside, false);
    const proposals = proposalTable('Proposals, oldest first', empty, beside);
    const noOwn = 'None of your proposals is open.';
    const own = proposalTable('Your own proposals, oldest first', noOwn, beside);
    const changed = requestTable('Requests that changed', '', beside, true);
    const none = 'You have no request under way.';
    const under = requestTable('Your own requests, oldest first', none, beside, true);
    return [
        (all) => {
            if (me.role === 'submitter') return null;
            if (!me.officer) return part('Waits for you', requests, all.requests);
            return part('Waits for you', proposals, all.proposals);
        },
        (all) => (all.changed.length > 0
            ? part('Yours that changed', changed, all.changed, 'Since you signed in.') : null),
        (all) => (me.submitter ? part('Yours under way', under, all.under) : null),
        () => (beside.own ? part('Yours under way', own, beside.own) : null),
    ];
}

/**
 * @template T
 * @param {string} title
 * @param {{ place: HTMLElement, set: (rows: T[], at?: boolean) => void }} table
 * @param {T[]} rows
 * @param {string} [hint]
 */
function part(title, table, rows, hint) {
    table.set(rows, true);
    const count = h('span', { class: 'count' }, rows.length > 0 ? ` ${rows.length}` : '');
    const head = h('h2', {}, title, count);
    return h('section', {}, head, hint ? quiet(hint) : null, table.place);
}

/** @param {string} caption @param {string} empty @param {Beside} beside @param {boolean} own */
function requestTable(caption, empty, beside, own) {
    const isBarred = (/** @type {Request} */ request) => (
        beside.now !== null && barredBy(beside.now, request) !== null
    );
    return uploadsTable({
        caption,
        kind: 'wide queue',
        head: ['No', 'Title', own ? 'State' : 'From', 'Votes'],
        empty,
        barred: (files) => {
            const count = files.filter(isBarred).length;
            return count > 0 ? barredOf(count) : null;
        },
        row: (request) => {
            const { number, title, submitter, state, votes } = request;
            return [
                ['number', number],
                ['title', requestLink(number, title), ' ', isBarred(request) && barredBadge()],
                own ? badge(state) : ['from', withYou(submitter)],
                votesBy(votes, state),
            ];
        },
    });
}

/** @param {string} caption @param {string} empty @param {Beside} beside */
function proposalTable(caption, empty, beside) {
    return paged({
        caption,
        kind: 'wide queue',
        head: ['No', 'It names', 'By', 'Proposed'],
        empty,
        row: (/** @type {ProposalRow} */ proposal) => {
            const { number, officer } = proposal;
            const names = beside.names.get(number) || named(proposal);
            return [
                ['number', number],
                ['title', proposalLink(number, names), shortReason(beside.reasons.get(number))],
                ['from', withYou(officer)],
                ['from', ageWords(beside.times.get(number) ?? '')],
            ];
        },
    });
}
