// What waits next for a person who has done with something.

import { fill, p } from './dom.js';
import { proposalLink, requestLink, uploadLink } from './marks.js';
import { me } from '../desk/session.js';
import { groupOf } from '../desk/titles.js';
import { uploadKey, waitsForVote } from '../desk/uploads.js';
import { inbox, look } from '../desk/waiting.js';
import { counted } from '../formats/words.js';

/** @typedef {import('./dom.js').Child} Child */
/** @typedef {import('../desk/types.js').Request} Request */
/** @typedef {import('../desk/types.js').ProposalRow} ProposalRow */

// What waits next for the person who has done with this one, and how many are left; the place fills
// as it is read.
/** @param {number} number of a request or a proposal */
export function nextPart(number) {
    const place = p();
    look(true).then(({ kind }) => {
        const all = inbox();
        if (kind !== 'value' || !all) return;
        /** @type {(Request | ProposalRow)[]} */
        const rows = me.officer ? all.proposals : all.requests;
        const next = rows.find((row) => row.number > number) ?? rows[0];
        if (!next) return fill(place, 'Nothing else waits for you.');
        const link = 'title' in next ? requestPart(next, all.requests) : proposalLink(next.number);
        return fill(place, 'Next: ', link, `; ${counted(rows.length, 'waits', 'wait')} for you.`);
    });
    return place;
}

// A request, and for a reviewer the files of its upload that wait too.
/** @param {Request} next @param {Request[]} all @returns {Child} */
function requestPart(next, all) {
    const { number, title } = next;
    const one = requestLink(number, `request ${number}, ${title}`);
    const key = uploadKey(next);
    const files = all.filter((other) => waitsForVote(other) && uploadKey(other) === key);
    if (files.length < 2) return one;
    const upload = `${groupOf(title)}, ${counted(files.length, 'file')}`;
    return [uploadLink(number, upload), ', or ', one];
}
