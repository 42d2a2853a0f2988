// The Confirm of a proposal. It is bound to what its officer saw: the desk is named, the proposal
// and its impact are read again before the last question and once more behind its answer, and a
// Confirm goes out only if nothing is otherwise than it was shown.

import { act } from './act.js';
import { doubtList } from './asking.js';
import { answers, box, button, done, fill, h, p, quiet, status, strong, sure } from './dom.js';
import { harmed, impactBox, named } from './impact.js';
import { shortly } from './items.js';
import { nextPart } from './next.js';
import { reasonList } from './reasons.js';
import { get } from '../desk/api.js';
import { itemDoubts } from '../desk/doubts.js';
import { matching } from '../desk/answers.js';
import { Command } from '../desk/journal.js';
import { known } from '../desk/known.js';
import { reasonsOf } from '../desk/reasons.js';
import { changed } from '../desk/standing.js';

/** @typedef {import('../desk/types.js').Impact} Impact */
/** @typedef {import('../desk/types.js').Proposal} Proposal */
/** @typedef {import('../desk/doubts.js').Doubt} Doubt */

/**
 * What is shown of an open proposal before a Confirm.
 * @typedef {{ proposal: Proposal, impact: Impact, doubts: Doubt[],
 *   reasons: import('../desk/reasons.js').Reason[] }} Seen
 */

/** @param {Proposal} proposal @param {import('../desk/doubts.js').Known} all */
export function proposalDoubts(proposal, all) {
    // (whether its stamp is above the level's is said by the desk, with the impact)
    return itemDoubts(proposal, all, 0);
}

// Reads it anew, nothing from what was read before; null where one part doesn't come.
/** @param {number} number @returns {Promise<Seen | null>} */
async function seen(number) {
    changed();
    const [named, impact, reasons] = await Promise.all([
        doubted(number),
        get(`/proposals/${number}/impact`),
        reasonsOf(number),
    ]);
    if (!named || impact.kind !== 'value' || reasons.kind !== 'value') return null;
    return { ...named, impact: impact.value, reasons: reasons.value };
}

// The proposal, and the doubts of what it names.
/** @param {number} number @returns {Promise<Pick<Seen, 'proposal' | 'doubts'> | null>} */
async function doubted(number) {
    const answer = await get(`/proposals/${number}`);
    if (answer.kind !== 'value') return null;
    const proposal = answer.value;
    const all = await known(proposal);
    return 'kind' in all ? null : { proposal, doubts: proposalDoubts(proposal, all) };
}

/** @param {any} one @param {any} other */
const same = (one, other) => JSON.stringify(one) === JSON.stringify(other);

/**
 * The button of a Confirm, and where its answers stand.
 * @param {Proposal} shown the proposal as the view has it
 * @param {import('./act.js').Control[]} off other controls that are off meanwhile
 * @param {(...first: import('./dom.js').Child[]) => void} again shows the view anew, below these
 */
export function confirmation(shown, off, again) {
    const { number } = shown;
    const said = answers();
    const look = async (/** @type {string} */ text) => {
        confirm.disabled = true;
        fill(said, quiet(text));
        const now = await seen(number);
        confirm.disabled = false;
        fill(said);
        return now;
    };
    const confirm = button('Confirm…', async () => {
        const now = await look('Reading it once more…');
        if (!now || !same(now.proposal, shown)) return again(otherwise(now));
        if (!(await lastLook(now))) return undefined;
        const then = await look('Comparing with what was shown…');
        if (!same(now, then)) return again(otherwise(then));
        const path = `/proposals/${number}/confirm`;
        const about = matching(now.proposal.tag);
        const command = new Command(`Confirm proposal ${number}`, path, '', about);
        const reply = await act(command, said, { off: [confirm, ...off] });
        changed();
        return reply ? again(confirmed(reply), nextPart(number)) : undefined;
    }, 'danger');
    return { confirm, said };
}

/** @param {Seen | null} now what was read instead of what was shown */
function otherwise(now) {
    const why = now
        ? 'What it names, what it would do or what officers say of it isn’t what was shown.'
        : 'It couldn’t be read once more.';
    const told = `${why} Look at it anew, and decide again.`;
    return status(box('care', p(strong('Not confirmed. '), told)));
}

// The second question before a Confirm.
/** @param {Seen} now */
function lastLook({ proposal, impact, doubts, reasons }) {
    const doubt = box('care', p(strong('Is that what was meant?')), doubtList(doubts));
    const desk = h('strong', { class: 'desk' }, location.host);
    return sure(
        `Confirm proposal ${proposal.number} for good?`,
        [
            p('At the desk ', desk, '. ', shortly(proposal)),
            reasonList(reasons),
            impactBox(impact),
            harmed(impact),
            doubts.length > 0 ? doubt : null,
            p('It is in force at once, and nothing takes it back.'),
        ],
        'Confirm for good',
        'Leave it open',
    );
}

/** @param {import('../desk/types.js').Counts} reply */
function confirmed(reply) {
    const { digests, certificates, components } = reply;
    const nothing = digests + certificates + components === 0;
    return done('Confirmed. ', nothing
        ? 'It added nothing: all that it names was in force already.'
        : `New in force: ${named(reply)}. Mirrors and machines get it by the next publication.`);
}
