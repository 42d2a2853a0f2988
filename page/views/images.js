// An image at hand: its facts by the desk, its signatures by the page, and how both are shown
// beside a request and the lists of today.

import { refusalBox } from './act.js';
import { whyLink } from './calls.js';
import { box, h, p, quiet, strong } from './dom.js';
import { digest, requestLink } from './marks.js';
import { sendingBar } from './sending.js';
import { table } from './table.js';
import { post } from '../desk/api.js';
import { differences, entries, likeness } from '../desk/compare.js';
import { requestOf } from '../desk/known.js';
import { withName } from '../desk/signer.js';
import { standing } from '../desk/standing.js';
import { authenticode } from '../formats/pe.js';
import { algorithmDoubt, signatureWords, signaturesOf } from '../formats/pkcs7.js';
import { wire } from '../formats/wire.js';

/** @typedef {import('./files.js').Chosen} Chosen */
/** @typedef {import('../desk/types.js').Facts} Facts */
/** @typedef {import('../desk/types.js').Request} Request */
/** @typedef {import('../formats/pkcs7.js').Signature} Signature */

// Posts an image, with a bar and a button that stops it. Nothing of it is kept.
/** @param {string} path @param {Chosen} chosen @param {HTMLElement} place of the bar */
export async function postImage(path, chosen, place) {
    const { end, ...how } = sendingBar(place, 'How much is sent');
    const answer = await post(path, {}, chosen.bytes, how);
    end();
    return answer;
}

/** @param {import('../desk/types.js').NoValue} answer */
export function noFacts(answer) {
    if (answer.kind !== 'stopped') return refusalBox(answer);
    return box('note', 'Stopped. The desk keeps nothing of the image.');
}

/** Refusals of an image whose layout is good: its digests are there, though it can’t be judged. */
const UNREAD = ['Der', 'TwoSbat', 'SbatRow', 'TooLong'];

// Why the desk told nothing of an image, and how it is revoked all the same.
/** @param {import('../desk/types.js').NoValue} answer @param {Chosen} chosen */
export async function unreadPart(answer, { bytes }) {
    const isUnread = answer.kind === 'refused' && UNREAD.includes(answer.name);
    const digests = isUnread ? await authenticode(bytes).catch(() => []) : [];
    const rows = [...new Set(digests)].filter((one) => one !== '')
        .map((one) => h('li', {}, digest(one, 'the digest')));
    const part = box('note', p(wire.words.brought.unread), h('ul', {}, rows));
    return [noFacts(answer), rows.length > 0 ? part : null];
}

// The certificates that signatures carry, each with its name.
/** @param {Signature[]} signatures */
function carriedBy(signatures) {
    return Promise.all(signatures.flatMap((one) => one.certificates).map(withName));
}

/** @param {Chosen} chosen @param {Facts} facts */
export async function besideOf({ file, bytes }, { carried }) {
    return { file: file.name, carried, certificates: await carriedBy(signaturesOf(bytes)) };
}

// A digest or a text, fit for a narrow cell.
/** @param {string} text */
const cell = (text) => (/^[0-9a-f]{64}/.test(text) ? h('code', { class: 'digest' }, text) : text);

const DIFFERS = {
    caption: 'What differs from the submitted file',
    head: ['What', 'Submitted', 'This file'],
    kind: 'short wide compare',
};

// How a file is like the image of a request, and what differs.
/** @param {Request} request @param {Facts} here @param {Map<string, string>} whose */
function likenessPart(request, here, whose) {
    const { kind, text } = likeness(request, here);
    if (kind === 'file') return box('good', strong('The same file. '), text);
    const rows = differences(request, here, whose).map((row) => row.map(cell));
    const more = rows.length > 0 ? table(DIFFERS, rows) : null;
    if (kind === 'other') {
        return [box('bad', strong('Another file. '), text, ' Don’t vote by it.'), more];
    }
    const same = kind === 'returned' ? 'The same file. ' : 'The same image. ';
    return [box(kind === 'padding' ? 'care' : 'good', strong(same), text), more];
}

// What the lists say of an image today, entry by entry.
/** @param {import('../desk/standing.js').Answer} answer @param {Facts} here */
function todayPart(answer, here) {
    if (answer.kind !== 'value') return refusalBox(answer);
    const found = entries(answer.value, here);
    if (found.length === 0) return p('Today neither dbx nor db nor the level speaks of it.');
    return h('ul', { class: 'findings' }, found.map(({ where, text, asked, bars }) => {
        const kind = bars ? 'bad' : where === 'db' ? 'good' : 'note';
        return h('li', { class: kind }, `${where}: ${text} `, whyLink(asked, text));
    }));
}

const TWO_DIGESTS = 'Its length is no multiple of 8, so it has two digests: of an unsigned image '
    + 'firmware looks at its digest, and shim at its digest in a signature. List or revoke both.';

/** @param {Signature[]} signatures @param {Facts} here */
function signaturesPart(signatures, here) {
    const odd = here.digest === here.signing ? '' : TWO_DIGESTS;
    const doubts = [algorithmDoubt(signatures), odd].filter((text) => text !== '');
    const rows = signatures.map((one) => h('li', {}, signatureWords(one, here)));
    const shown = doubts.map((text) => box('care', text));
    if (rows.length === 0) return [p('It is unsigned.'), shown];
    const note = 'Read in this page, which isn’t proved; none of them is checked.';
    return [h('ol', { class: 'signatures' }, rows), shown, quiet(note)];
}

/**
 * All that is told of a file at hand.
 * @param {Chosen} chosen
 * @param {Facts} here
 * @param {Request | null} request that it is compared with
 */
export async function lookPart(chosen, here, request) {
    const signatures = signaturesOf(chosen.bytes);
    const [certificates, now] = await Promise.all([carriedBy(signatures), standing()]);
    const whose = new Map(certificates.map(({ name, subject }) => [name, subject]));
    return [
        request ? likenessPart(request, here, whose) : null,
        h('h3', {}, 'What the lists say of this file today'),
        todayPart(now, here),
        h('h3', {}, 'Its signatures'),
        signaturesPart(signatures, here),
    ];
}

// All that is told of a file at hand, beside the request whose image it is.
/** @param {Chosen} chosen @param {Facts} here */
export async function matchPart(chosen, here) {
    const found = await requestOf(here);
    if (found.kind !== 'value') return [refusalBox(found), await lookPart(chosen, here, null)];
    const request = found.value;
    const whose = request
        ? p('Compared with ', requestLink(request.number), `: ${request.title}`)
        : p('No request that you see has this image.');
    return [whose, await lookPart(chosen, here, request)];
}
