// Images to be revoked: by a file at hand, by a request, by their digests.

import { read } from './act.js';
import { form } from './asking.js';
import { answers, field, fill, h, quiet, status } from './dom.js';
import { UNREAD, fileField } from './files.js';
import { matchPart, postImage, unreadPart } from './images.js';
import { barPlace } from './sending.js';
import { get } from '../desk/api.js';
import { colonDoubts, digestDoubts, digestsOf } from '../desk/doubts.js';
import { Command, jsonCommand } from '../desk/journal.js';
import { digestTyped } from '../formats/digests.js';
import { isNumber } from '../formats/words.js';

/** @typedef {import('../desk/types.js').Facts} Facts */

// The digests of an image behind those that are typed already, each once.
/** @param {string} typed @param {Facts} facts */
function added(typed, facts) {
    const lines = typed.split('\n').map((line) => line.trim()).filter((line) => line !== '');
    return [...new Set([...lines, ...digestsOf(facts)])].join('\n');
}

// A field for an image, whose digests are filled in, and what is known of it. `isUnread` says that
// one is chosen, and no answer of the desk is there yet.
/** @param {(facts: Facts) => void} take */
function imagePart(take) {
    const said = answers();
    const bar = barPlace();
    let turn = 0;
    let answered = false;
    const hint = 'Its digests are filled in below. The desk reads it, and keeps nothing of it.';
    const { place, input } = fileField('An image', hint, async (chosen) => {
        const mine = ++turn;
        answered = false;
        fill(said);
        if (!chosen) return;
        fill(said, quiet('The desk reads it…'));
        const answer = await postImage('/facts', chosen, bar);
        if (mine !== turn) return;
        answered = true;
        if (answer.kind !== 'value') return fill(said, await unreadPart(answer, chosen));
        take(answer.value);
        const told = await matchPart(chosen, answer.value);
        if (mine === turn) fill(said, told);
    });
    const isUnread = () => !answered && input.files?.length !== 0;
    return { parts: [place, bar, said], input, isUnread };
}

/** @param {string} [number] of the request whose image is meant */
export function imagesForm(number) {
    const input = h('textarea', { rows: 3, spellcheck: 'false', class: 'mono' });
    const meant = status();
    if (isNumber(number)) read(meant, () => get(`/requests/${number}`), (request) => {
        input.value ||= digestsOf(request).join('\n');
        meant.append(quiet(`For request ${request.number}: ${request.title}`));
    });
    const image = imagePart((facts) => (input.value = added(input.value, facts)));
    const hint = 'Authenticode digests, as a request or “desk facts” has them. '
        + 'Several become one proposal.';
    const body = [image.parts, meant, field('Digests, one a line', input, hint)];
    return form('Revoke images by their digests', body, () => (
        image.isUnread() ? { faults: [[image.input, UNREAD]] } : revocation(input)
    ));
}

/** @param {HTMLTextAreaElement} input digests, one a line @returns {import('./asking.js').Made} */
function revocation(input) {
    const lines = input.value.split('\n');
    const wrong = lines.findIndex((line) => line.trim() !== '' && !digestTyped(line));
    const odd = `Line ${wrong + 1} isn’t 64 hexadecimal digits.`;
    if (wrong >= 0) return { faults: [[input, odd]] };
    const given = [...new Set(lines.flatMap((line) => digestTyped(line) ?? []))];
    const [first] = given;
    if (!first) return { faults: [[input, 'Give a digest.']] };
    const rows = given.map((digest) => `sha256,${digest},\n`);
    const csv = `kind,value,generation\n${rows.join('')}`;
    return {
        named: { digests: given, certificates: [], components: [] },
        doubts: (all) => [
            ...lines.flatMap((line) => colonDoubts(line, 'image')),
            // Both digests of an image are there: the doubt that there are two is settled.
            ...given.flatMap((digest) => digestDoubts(digest, all))
                .filter(({ use }) => !use?.every((digest) => given.includes(digest))),
        ],
        command: () => (given.length === 1
            ? jsonCommand('Propose to revoke a digest', '/dbx/digests', { digest: first })
            : new Command(`Propose to revoke ${given.length} digests`, '/imports/csv', csv)),
    };
}
