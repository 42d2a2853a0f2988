// One request: what it is, what the lists of today say of it, what the caller may do, its facts.

import { anew, read } from './act.js';
import { whyLink } from './calls.js';
import { fill, h, heading, link, p, quiet, section } from './dom.js';
import { comparePart, componentsPart, factsPart } from './facts.js';
import { badge } from './marks.js';
import { returnForm } from './returning.js';
import { reviewForm, withdrawForm } from './review.js';
import { get } from '../desk/api.js';
import { me } from '../desk/session.js';
import { barredBy, standing } from '../desk/standing.js';
import { seen } from '../desk/waiting.js';
import { wire } from '../formats/wire.js';
import { counted, filled, ruleWords, size } from '../formats/words.js';

/** @typedef {import('./dom.js').Child} Child */
/** @typedef {import('../desk/types.js').Request} Request */
/** @typedef {import('../desk/standing.js').Standing} Standing */

/** @param {HTMLElement} place @param {string[]} words the number */
export function requestView(place, [number]) {
    const inner = h('div', {});
    heading(place, `Request ${Number(number)}`, link('#/requests', 'All requests'));
    place.append(inner);
    show(inner, Number(number));
}

/** @param {HTMLElement} place @param {number} number @param {Child[]} first what is shown above */
async function show(place, number, ...first) {
    anew(place, first);
    await read(place, () => get(`/requests/${number}`), (request) => whole(place, request));
}

/** @param {HTMLElement} place @param {Request} request */
function whole(place, request) {
    const { number, title, state, submitter } = request;
    seen(request);
    const again = (/** @type {Child} */ said) => show(place, number, said);
    const today = section('What the lists say today');
    const looked = { like: '' };
    const facts = h('div', {}, factsPart(request, null));
    const components = h('div', {}, componentsPart(request, null));
    place.append(
        h('h2', { class: 'title' }, title),
        p(badge(state), ` ${wire.words.requests[state]?.means ?? ''}`),
        quiet(
            `Submitted by ${submitter}. ${size(request.length)}. `,
            'The desk keeps facts of the image, not its bytes: ',
            submitter === me.name
                ? 'pass the file on yourself.'
                : `get the file from ${submitter}.`,
        ),
        today,
        comparePart(request, looked),
        votesPart(request),
        ...actions(request, looked, again),
        facts,
        components,
        withdrawPart(request, again),
    );
    read(today, standing, (now) => {
        today.append(findings(request, now));
        fill(facts, factsPart(request, now));
        fill(components, componentsPart(request, now));
    });
}

/**
 * @param {Request} request
 * @param {{ like: string }} looked
 * @param {(said: Child) => void} again
 */
function actions(request, looked, again) {
    const { state, number, digest, signing, file } = request;
    const parts = [];
    if (state === 'open' && me.reviewer) parts.push(reviewForm(request, looked, again));
    if (state === 'approved' && me.signer) parts.push(returnForm(request, again));
    const both = 's, both the one of today and the one that a padded signature holds';
    if (me.officer) parts.push(section(
        'For officers',
        p(
            link(`#/propose/image/${number}`, 'Propose to revoke this image'),
            `. It is named by its digest${digest === signing ? '' : both}`,
            '; another officer has to confirm it.',
        ),
        p(whyLink({ hex: file }, `request ${number}`), ' it is barred or allowed, by the minutes.'),
    ));
    return parts;
}

/** @param {Request} request @param {(said: Child) => void} again */
function withdrawPart(request, again) {
    const may = ['open', 'approved'].includes(request.state) && me.name === request.submitter;
    return may ? withdrawForm(request, again) : '';
}

const NO_COMPONENT = 'It has no SBAT component: no level can bar it, and as shim’s own second '
    + 'stage shim refuses it.';
const NOT_LOW = 'Each of its components is at the level or above it, or isn’t in the level.';

// What stands out, worked out in the page.
/** @param {Request} request @param {Standing} now */
function findings(request, now) {
    const barred = barredBy(now, request);
    const found = [];
    if (barred) found.push(['bad', `Barred today: ${ruleWords(barred)}.`]);
    found.push(request.returned ? ['note', returnedWords()] : listed(request, now));
    if (request.components.length === 0) found.push(['care', NO_COMPONENT]);
    else if (!barred) found.push(['good', NOT_LOW]);
    if (request.gap > 0) {
        const bytes = `${counted(request.gap, 'byte')} of it are in no header and no section`;
        found.push(['care', `${bytes}: other tools may work out another digest.`]);
    }
    return h(
        'div',
        {},
        h('ul', { class: 'findings' }, found.map(([kind, text]) => h('li', { class: kind }, text))),
        quiet(
            'Worked out in this page from /db, /dbx and /level. ',
            'The desk decides, and checks no signature.',
        ),
    );
}

// What the desk said of the file that was returned.
const returnedWords = () => filled(wire.words.returned, { check: '“Check an image”' });

/** @param {Request} request @param {Standing} now */
function listed({ carried, digest, state }, now) {
    const { certificates, digests } = now.listed;
    const names = carried.filter((one) => certificates.has(one))
        .map((one) => certificates.get(one)?.subject || `${one.slice(0, 12)}…`);
    if (names.length === 1) return ['good', `It carries a listed certificate (${names[0]}).`];
    if (names.length > 1) {
        return ['good', `It carries ${names.length} listed certificates (${names.join(', ')}).`];
    }
    if (digests.has(digest)) return ['good', 'Its digest is listed.'];
    const waits = ['open', 'approved'].includes(state);
    const isSigned = carried.length > 0;
    const what = isSigned
        ? 'It is signed, but with no listed certificate.'
        : 'It is unsigned, as a request usually is.';
    const wanted = ` The signed file has to carry ${isSigned ? 'one' : 'a listed certificate'}.`;
    return ['note', `${what}${waits ? wanted : ''}`];
}

/** @param {Request} request */
function votesPart({ votes }) {
    const rows = votes.map(({ vote, reviewer, note }) => {
        const kind = vote === 'yes' ? 'signed' : 'rejected';
        const mark = h('span', { class: `badge ${kind}` }, wire.words.votes[vote]);
        return h('li', {}, mark, ` ${reviewer}`, note ? h('q', {}, note) : null);
    });
    const none = quiet('Nobody has voted yet.');
    return section('Votes', rows.length > 0 ? h('ul', { class: 'votes' }, rows) : none);
}
