// Why an image, a certificate or a component is barred or allowed, and what became of a proposal:
// each call that speaks of it, the requests that it touches, and what stands.

import { read, refusalBox } from './act.js';
import { callTable, inWords } from './calls.js';
import { box, fill, h, heading, link, p, quietStatus, section } from './dom.js';
import { badge, digest, proposalLink, requestLink } from './marks.js';
import { paged } from './table.js';
import { answerOf } from '../desk/answering.js';
import { askedAt, minutes } from '../desk/calls.js';
import { storyOf } from '../desk/why.js';
import { timeOf } from '../formats/sentences.js';
import { counted, grouped, isNumber } from '../formats/words.js';

/** @typedef {import('../desk/calls.js').Asked} Asked */
/** @typedef {import('../desk/why.js').Story} Story */
/** @typedef {import('../desk/why.js').Touched} Touched */

/** @param {HTMLElement} place @param {string[]} words what was asked about, by a number */
export function whyView(place, [word, number]) {
    const asked = word === 'proposal' && isNumber(number) ? { proposal: number } : askedAt(word);
    heading(place, 'Why', link('#/history', 'All of history'));
    if (!asked) {
        const forgotten = 'What this address asked about is forgotten. Ask again in History.';
        place.append(box('note', p(forgotten)));
        return;
    }
    const told = quietStatus();
    place.append(nameOf(asked), told);
    const progress = () => {
        const { known, lines } = minutes();
        const some = `Read so far: ${grouped(known)} of ${grouped(lines.length)} calls…`;
        told.textContent = known < lines.length ? some : '';
    };
    read(place, () => storyOf(asked, () => place.isConnected, progress), (story) => {
        fill(told);
        place.append(...storyParts(asked, story));
    });
}

/** @param {Asked} asked */
function nameOf({ hex, component, proposal, image }) {
    if (image) {
        return p('The image ', image.name, ', of the digest ', digest(image.digest, 'the digest'));
    }
    if (hex) return p('SHA-256 ', digest(hex, 'what is asked about'));
    if (component) return p('The component ', h('code', {}, component));
    return p(proposalLink(Number(proposal), `Proposal ${Number(proposal)}`));
}

/** @param {Asked} asked @param {Story} story */
function storyParts(asked, story) {
    const { calls, requests, now } = story;
    if (calls.length === 0 && requests.size === 0) {
        return [box('note', p('The minutes don’t speak of it. Is it spelt right?'))];
    }
    const caption = counted(calls.length, 'call');
    const table = callTable(caption, 'No call listed, proposed or confirmed it.', 20);
    table.set(calls.map(({ number }) => minutes().lines[number - 1]));
    const parts = [section('Calls', table.place)];
    if (!asked.proposal && now.size > 0) {
        parts.unshift(h('ul', { class: 'findings' }, [...now].map(finding)));
    }
    if (requests.size > 0) parts.push(section('Requests', requestsPart(requests)));
    const answer = answerOf(story);
    if (answer) parts.unshift(box(answer.startsWith('Allowed') ? 'good' : 'bad', p(`${answer}.`)));
    return parts;
}

/** @type {Record<string, string>} */
const KINDS = { revoked: 'bad', listed: 'good', raised: 'care', open: 'note' };

/** @param {[name: string, text: string]} one */
function finding([name, text]) {
    const kind = text.includes('taken off') ? 'note' : KINDS[name.split(' ')[0]];
    return h('li', { class: kind }, `${text[0].toUpperCase()}${text.slice(1)}.`);
}

/** @param {Story['requests']} requests */
function requestsPart(requests) {
    const table = paged({
        caption: counted(requests.size, 'request'),
        head: ['No', 'Title', 'From', 'State', 'How'],
        kind: 'wide queue',
        empty: '',
        size: 20,
        row: (/** @type {Touched} */ { number, title, submitter, state, how }) => [
            ['number', number],
            ['title', requestLink(number, title)],
            ['from', submitter],
            badge(state),
            how,
        ],
    });
    table.set([...requests.values()].sort((one, other) => one.number - other.number));
    return table.place;
}

// Who closed a proposal, when, and by which call: it is filled in once the minutes are read.
/** @param {number} proposal */
export function closedBy(proposal) {
    const place = quietStatus('Who closed it is read from the minutes…');
    storyOf({ proposal: String(proposal) }, () => true).then((answer) => {
        if (answer.kind !== 'value') return fill(place, refusalBox(answer));
        const isEnd = (word = '') => word === 'confirm' || word === 'drop';
        const ends = answer.value.calls.filter(({ said }) => isEnd(said?.row.command[0]));
        const last = ends.pop();
        if (!last) return fill(place, 'The minutes don’t say who closed it.');
        const time = timeOf(last.key);
        const call = `call ${grouped(last.number)}${time ? `, ${time}` : ''}`;
        return fill(place, inWords(last), ` (${call}).`);
    });
    return place;
}
