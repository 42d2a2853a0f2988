// What is asked before something goes out: whether the officer means what looks like a slip, what
// comes after a proposal, and the form of one.

import { act, refusalBox } from './act.js';
import {
    actSection, answers, box, buttons, faultAt, faulty, fill, h, p, quiet, strong, submitButton,
    sure,
} from './dom.js';
import { digest, proposalLink } from './marks.js';
import { explainMade, whyField } from './reasons.js';
import { known } from '../desk/known.js';
import { openDoubts, openProposals } from '../desk/proposals.js';
import { changed } from '../desk/standing.js';
import { wire } from '../formats/wire.js';
import { grouped } from '../formats/words.js';

/** @typedef {import('./dom.js').Child} Child */
/** @typedef {import('../desk/doubts.js').Doubt} Doubt */
/** @typedef {import('../desk/doubts.js').Known} Known */
/** @typedef {import('../desk/journal.js').Command} Command */
/**
 * What a form makes of its fields: what is wrong with each; or a command, what it names, and
 * doubts.
 * @typedef {{ faults: [input: HTMLElement, fault: string][] }
 *   | { named: Named, doubts: (all: Known) => Doubt[], command: () => Command }} Made
 * @typedef {import('../desk/proposals.js').Named} Named
 */

/** The label of the field for a reason. */
export const WHY = 'Why (if you like)';

/** How many doubts are shown. */
const SHOWN = 12;

/** @param {Doubt[]} doubts @returns {Child[]} */
export function doubtList(doubts) {
    const rows = doubts.slice(0, SHOWN).map(({ text, use }) => {
        const meant = use?.map((one) => digest(one, 'what was probably meant'));
        return h('li', {}, text, meant ? h('div', {}, 'Probably meant: ', meant) : null);
    });
    const left = doubts.length - SHOWN;
    return [h('ul', { class: 'doubts' }, rows), left > 0 ? p(`And ${grouped(left)} more.`) : null];
}

// Asks back if there is a doubt.
/** @param {Doubt[]} doubts @param {string} [yes] what the button says that goes on */
export async function settled(doubts, yes = wire.questions.propose.button) {
    if (doubts.length === 0) return true;
    return sure(wire.questions.propose.title, doubtList(doubts), yes, 'Change it');
}

/**
 * Asks back where there is a doubt, or an open proposal names it; sends the proposal, and says what
 * comes next. Its form goes then: one that is still there is soon sent twice.
 * @param {Named} named
 * @param {Doubt[]} doubts
 * @param {() => Command} make
 * @param {HTMLElement} said behind the form
 * @param {import('./act.js').Control[]} off
 * @param {string} reason sent behind it, if there is one
 */
export async function propose(named, doubts, make, said, off, reason) {
    const others = await openProposals(named);
    if (others.kind !== 'value') return fill(said, refusalBox(others));
    if (!(await settled([...doubts, ...openDoubts(named, others.value)]))) return undefined;
    const command = make();
    const reply = await act(command, said, { off });
    if (!reply) return undefined;
    changed();
    const form = said.parentElement?.querySelector('form');
    if (form) form.hidden = true;
    const next = command.open
        ? 'The desk may have taken it before: see whether it is still open.'
        : 'It changes nothing until another officer confirms it.';
    const { proposal } = reply;
    const onclick = () => dispatchEvent(new HashChangeEvent('hashchange'));
    const another = h('a', { href: location.hash, onclick }, 'propose something else');
    const look = proposalLink(proposal, `Look at proposal ${proposal}`);
    const why = h('div', {});
    fill(said, box(
        'good',
        p(strong(`This is proposal ${proposal}. `), next),
        p(look, ' or ', another, '.'),
    ), why);
    look.focus();
    return reason ? explainMade(proposal, reason, why) : undefined;
}

// What a form's button does, once at a time: a press meanwhile does nothing, and the button keeps
// the focus.
/** @param {() => any} run */
export function onceAtATime(run) {
    let busy = false;
    return async (/** @type {Event} */ event) => {
        event.preventDefault();
        if (busy) return;
        busy = true;
        try {
            await run();
        } finally {
            busy = false;
        }
    };
}

/**
 * A part of a view that is one form, with the place of its answers below it.
 * @param {string} title
 * @param {(event: Event) => void} onsubmit
 * @param {Child[]} body
 * @param {Child} said
 */
export const formPart = (title, onsubmit, body, said) => (
    actSection(title, h('form', { novalidate: true, onsubmit }, ...body), said)
);

/**
 * A form whose button proposes what `make` reads from its fields.
 * @param {string} title
 * @param {Child[]} body
 * @param {() => Made} make
 */
export function form(title, body, make) {
    const said = answers();
    const why = whyField(WHY);
    const go = submitButton('Propose');
    const submit = onceAtATime(async () => {
        fill(said);
        for (const one of place.querySelectorAll('[aria-invalid]')) faultAt(one);
        const made = make();
        if ('faults' in made) return faulty(...made.faults, why.fault());
        if (faulty(why.fault())) return undefined;
        fill(said, quiet('Reading from the desk…'));
        const all = await known(made.named);
        fill(said);
        if ('kind' in all) return fill(said, refusalBox(all));
        return propose(made.named, made.doubts(all), made.command, said, [go], why.text());
    });
    const place = formPart(title, submit, [body, why.place, buttons(go)], said);
    return place;
}
