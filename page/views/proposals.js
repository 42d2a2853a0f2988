// The proposals: what officers want to put into force.

import { read } from './act.js';
import { button, field, h, heading, quiet } from './dom.js';
import { named } from './impact.js';
import { badge, proposalLink } from './marks.js';
import { shortReason } from './reasons.js';
import { choices, paged } from './table.js';
import { listed } from '../desk/lists.js';
import { DESCRIBED, described } from '../desk/proposals.js';
import { lately, ownProposals, times } from '../desk/proposed.js';
import { proposalMatches } from '../desk/search.js';
import { me, withYou } from '../desk/session.js';
import { standing } from '../desk/standing.js';
import { look } from '../desk/waiting.js';
import { wire } from '../formats/wire.js';
import { ageWords, counted, stateChoices, stateCounts } from '../formats/words.js';

/** @typedef {import('../desk/types.js').ProposalRow} ProposalRow */

/** @param {HTMLElement} place */
export function proposalsView(place) {
    heading(place, 'Proposals', h('a', { href: '#/propose', class: 'button main' }, 'Propose'));
    place.append(quiet(
        'What one officer revokes, raises or imports changes nothing ',
        'until another officer confirms it.',
    ));
    read(place, () => listed('proposals'), (proposals) => list(place, proposals));
}

// What a row says of a proposal, whose words come later: the same elements each time.
function marksOf() {
    /** @type {Map<number, Record<'link' | 'age' | 'why', HTMLElement>>} */
    const all = new Map();
    const of = (/** @type {ProposalRow} */ proposal) => {
        const { number } = proposal;
        const made = all.get(number) ?? {
            link: proposalLink(number, named(proposal)),
            age: h('span'),
            why: shortReason(),
        };
        all.set(number, made);
        return made;
    };
    const words = (/** @type {number} */ number) => {
        const { link, why } = all.get(number) ?? {};
        return `${link?.textContent ?? ''} ${why?.textContent ?? ''}`;
    };
    return { of, words };
}

/**
 * Says of the open ones what they are, and how old.
 * @param {HTMLElement} place
 * @param {ProposalRow[]} open
 * @param {ReturnType<typeof marksOf>} marks
 */
async function tellMore(place, open, marks) {
    await look();
    await ownProposals();
    const made = await times();
    const said = await lately();
    for (const row of open) {
        const { age, why } = marks.of(row);
        age.textContent = ageWords(made.get(row.number) ?? '');
        why.textContent = shortReason(said.get(row.number)).textContent;
    }
    const now = await standing();
    for (const row of now.kind === 'value' ? open.slice(0, DESCRIBED) : []) {
        if (!place.isConnected || now.kind !== 'value') return;
        const words = await described(row, now.value);
        if (words) marks.of(row).link.textContent = words;
    }
}

/** @param {HTMLElement} place @param {ProposalRow[]} proposals */
function list(place, proposals) {
    const marks = marksOf();
    const told = h('p', { class: 'unseen', role: 'status' });
    const table = paged({
        caption: 'Proposals',
        kind: 'wide queue',
        head: ['No', 'It names', 'By', 'State', 'Proposed'],
        empty: 'No proposal is like this. Choose another state, or change the text.',
        row: (/** @type {ProposalRow} */ proposal) => {
            const { number, officer, state } = proposal;
            const { link, age, why } = marks.of(proposal);
            return [
                ['number', number],
                ['title', link, why],
                ['from', withYou(officer)],
                badge(state),
                ['from', age],
            ];
        },
    });
    let [wanted, isOthers] = ['open', false];
    const show = () => {
        const like = proposals.filter((row) => (
            !(isOthers && row.officer === me.name)
            && proposalMatches(row, search.value, marks.words(row.number))
        ));
        const rows = like.filter(({ state }) => wanted === 'all' || state === wanted);
        states.show(wanted, stateCounts(like));
        table.set(rows);
        told.textContent = counted(rows.length, 'proposal');
    };
    const states = choices('Proposals by state', stateChoices(wire.words.proposals), (value) => {
        wanted = value;
        show();
        states.focus();
    });
    const search = h('input', { type: 'search', autocomplete: 'off', oninput: show });
    const filter = field('Filter by number, name or what it names', search);
    const others = button('Not mine', () => {
        isOthers = !isOthers;
        others.setAttribute('aria-pressed', String(isOthers));
        show();
    });
    others.setAttribute('aria-pressed', 'false');
    const tools = [states.place, h('div', { class: 'choices' }, others), filter];
    place.append(h('div', { class: 'tools' }, tools), told, table.place);
    show();
    tellMore(place, proposals.filter(({ state }) => state === 'open'), marks);
}
