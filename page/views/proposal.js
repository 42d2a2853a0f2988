// One proposal: everything that it names, what a Confirm of it would do, and the decision.

import { act, anew, read, reading, refusalBox } from './act.js';
import { doubtList } from './asking.js';
import { whyLink } from './calls.js';
import { confirmation, proposalDoubts } from './confirm.js';
import {
    actSection, asks, box, button, buttons, done, fill, h, heading, link, p, section, strong,
} from './dom.js';
import { impactPart } from './impact.js';
import { itemsPart } from './items.js';
import { badge } from './marks.js';
import { nextPart } from './next.js';
import { explainForm, reasonList } from './reasons.js';
import { closedBy } from './why.js';
import { get } from '../desk/api.js';
import { matching } from '../desk/answers.js';
import { Command } from '../desk/journal.js';
import { known } from '../desk/known.js';
import { plainQuestion } from '../desk/questions.js';
import { reasonsOf } from '../desk/reasons.js';
import { explained } from '../desk/refusals.js';
import { me } from '../desk/session.js';
import { wire } from '../formats/wire.js';

/** @typedef {import('./dom.js').Child} Child */
/** @typedef {import('../desk/types.js').Proposal} Proposal */
/** @typedef {import('../desk/doubts.js').Doubt} Doubt */

/** @param {HTMLElement} place @param {string[]} words the number */
export function proposalView(place, [number]) {
    heading(place, `Proposal ${Number(number)}`, link('#/proposals', 'All proposals'));
    const inner = h('div', {});
    place.append(inner);
    show(inner, Number(number));
}

/** @param {HTMLElement} place @param {number} number @param {Child[]} first */
async function show(place, number, ...first) {
    anew(place, first);
    await read(place, () => get(`/proposals/${number}`), (proposal) => whole(place, proposal));
}

/** @param {HTMLElement} place @param {Proposal} proposal */
async function whole(place, proposal) {
    const { number, officer, state } = proposal;
    const isOpen = state === 'open';
    const items = h('div', {}, reading());
    const impact = h('div', {}, isOpen ? reading() : null);
    const decision = h('div', {});
    const reasons = h('div', {}, reading());
    const again = (/** @type {Child[]} */ ...said) => show(place, number, ...said);
    const told = isOpen
        ? 'It changes nothing until another officer confirms it.'
        : wire.words.proposals[state]?.means ?? '';
    const why = whyLink({ proposal: String(number) }, `proposal ${number}`);
    place.append(
        p(badge(state), ` ${officer} proposed it. ${told} `, why),
        isOpen ? '' : closedBy(number),
        section('Why', reasons, explainForm(proposal, again)),
        impact,
        section('What it names', items),
        decision,
    );
    reasonsOf(number).then((answer) => fill(reasons, whyPart(answer)));
    const impactOf = isOpen ? get(`/proposals/${number}/impact`) : null;
    const [all, looked] = await Promise.all([known(proposal), impactOf]);
    const isKnown = !('kind' in all);
    fill(items, itemsPart(proposal, isKnown ? all : null), isKnown ? null : refusalBox(all));
    if (!looked) return;
    const can = looked.kind === 'value';
    const doubts = isKnown ? doubtPart(proposalDoubts(proposal, all)) : null;
    fill(impact, can ? impactPart(looked.value) : refusedNow(looked), doubts);
    fill(decision, actions(proposal, can, isKnown, again));
}

/** @param {import('../desk/types.js').Answer<import('../desk/reasons.js').Reason[]>} answer */
function whyPart(answer) {
    if (answer.kind !== 'value') return refusalBox(answer);
    return reasonList(answer.value) ?? p('Nobody said why.');
}

/** @param {import('../desk/types.js').NoValue} answer */
function refusedNow(answer) {
    const title = 'If it is confirmed now';
    if (answer.kind !== 'refused') return section(title, refusalBox(answer));
    const { name, number } = answer;
    const { why, todo } = explained(answer);
    const then = name === 'Full' ? todo : 'Drop it, and propose anew what is still needed.';
    const refused = strong(`A Confirm would be refused: ${name} (${number}). `);
    return section(title, box('care', p(refused, why), p(then)));
}

/** @param {Doubt[]} doubts */
function doubtPart(doubts) {
    if (doubts.length === 0) return null;
    return section('Is that what was meant?', box('care', doubtList(doubts)));
}

/**
 * @param {Proposal} proposal
 * @param {boolean} can whether the desk would take a Confirm
 * @param {boolean} compared whether the page could compare what it names with the desk's requests
 * and lists
 * @param {(...said: Child[]) => void} again
 */
function actions(proposal, can, compared, again) {
    const { number, officer, tag } = proposal;
    const own = officer === me.name;
    const drop = button('Drop…', async () => {
        if (!(await asks(plainQuestion('drop', number)))) return;
        const path = `/proposals/${number}/drop`;
        const command = new Command(`Drop proposal ${number}`, path, '', matching(tag));
        const reply = await act(command, said, { off: [confirm, drop] });
        if (reply) again(done('Dropped.', ' It changed nothing.'), nextPart(number));
    });
    const { confirm, said } = confirmation(proposal, [drop], again);
    const look = button('Look again', () => again());
    return actSection(
        'Your decision',
        p(decisionWords(own, can, compared)),
        buttons(own ? null : can && compared ? confirm : look, drop),
        said,
    );
}

/** @param {boolean} own @param {boolean} can @param {boolean} compared */
function decisionWords(own, can, compared) {
    if (own) return 'You proposed it, so another officer has to confirm it. You may drop it.';
    const drop = 'A Drop leaves everything as it is.';
    if (!can) return `It can’t be confirmed now. ${drop}`;
    if (compared) return `A Confirm puts it into force at once, for good. ${drop}`;
    const blind = 'It couldn’t be compared with the desk’s requests and lists, '
        + 'so no Confirm is offered.';
    return `${blind} ${drop}`;
}
