// One answer for the files of an upload that are chosen: each has a vote of its own, which goes out
// behind the one before.

import { act, refusalBox } from './act.js';
import {
    actSection, answers, asks, box, button, buttons, faulty, field, fill, h, p, strong,
} from './dom.js';
import { badge } from './marks.js';
import { nextPart } from './next.js';
import { matching } from '../desk/answers.js';
import { jsonCommand } from '../desk/journal.js';
import { severalQuestion } from '../desk/questions.js';
import { standing } from '../desk/standing.js';
import { apartIn } from '../desk/titles.js';
import { wire } from '../formats/wire.js';
import { counted, textFault } from '../formats/words.js';

/** @typedef {import('./dom.js').Child} Child */
/** @typedef {import('../desk/types.js').Request} Request */
/** @typedef {{ one: Request, check: HTMLInputElement }} Choice */
/** @typedef {{ said: Child, out: number[] }} Told and the numbers of those that were left out */
/** @typedef {'yes' | 'no'} Vote */

const HINT = 'characters of ASCII; everybody who sees a request reads it.';

/** @param {Request[]} files */
export const named = (files) => files.map(({ title }) => apartIn(title)).join(', ');

/** @param {Choice[]} all @param {(told: Told) => void} again shows the view anew */
export function voteForm(all, again) {
    const note = h('textarea', { rows: 2, maxlength: wire.limits.note });
    const said = answers();
    const those = (/** @type {boolean} */ isIn) => (
        all.filter(({ check }) => check.checked === isIn).map(({ one }) => one)
    );
    const gives = async (/** @type {Vote} */ vote) => {
        const text = note.value.replace(/\s*\n\s*/g, ' ');
        if (faulty([note, textFault(text, wire.limits.note, 'note')])) return undefined;
        const [files, out] = [those(true), those(false)];
        if (!(await agrees(files, out.length, vote, said))) return undefined;
        const controls = [yes, no, note, ...all.map(({ check }) => check)];
        for (const one of controls) one.disabled = true;
        const told = await votes(files, vote, text, said);
        if (!said.isConnected) return undefined;
        return again({ said: told, out: out.map(({ number }) => number) });
    };
    const yes = button('', () => gives('yes'), 'main');
    const no = button('', () => gives('no'), 'danger');
    const tell = () => {
        const { length: count } = those(true);
        yes.textContent = `Vote yes on ${counted(count, 'file')}`;
        no.textContent = `Vote no on ${counted(count, 'file')}`;
        yes.disabled = no.disabled = count === 0;
    };
    for (const { check } of all) check.addEventListener('change', tell);
    tell();
    return actSection(
        'Your vote on each',
        p('Leave out what you don’t vote on now. ', meaning(all.map(({ one }) => one))),
        field('Note on each (if you like)', note, `Up to ${wire.limits.note} ${HINT}`),
        buttons(yes, no),
        said,
    );
}

// What the votes do.
/** @param {Request[]} files */
function meaning(files) {
    const agreed = files.filter(({ votes }) => votes.some(({ vote }) => vote === 'yes')).length;
    const [no, one] = [' No: each is rejected at once.', 'since one reviewer has agreed already'];
    if (agreed === 0) return `Yes: each may be signed; another reviewer has to agree.${no}`;
    if (agreed === files.length) return `Yes: each is approved, ${one}.${no}`;
    const some = counted(agreed, 'file is', 'files are');
    return `Yes: ${some} approved, ${one}; for the others another one has to agree.${no}`;
}

// Whether the votes are meant, by what the lists say now; they are read for it.
/** @param {Request[]} files @param {number} left @param {Vote} vote @param {HTMLElement} said */
async function agrees(files, left, vote, said) {
    const now = await standing();
    if (now.kind !== 'value') {
        fill(said, refusalBox(now));
        return false;
    }
    const question = severalQuestion(files, vote, now.value);
    const out = left > 0 ? `; ${counted(left, 'file')} left out` : '';
    return asks({ ...question, lines: [`${named(files)}${out}.`, ...question.lines] });
}

/**
 * Votes on each in turn, none behind one that isn't recorded.
 * @param {Request[]} files @param {Vote} vote @param {string} note @param {HTMLElement} said
 * @returns {Promise<Child>} what was recorded, and why the rest wasn't
 */
async function votes(files, vote, note, said) {
    const [list, answer] = [h('ul', { class: 'recorded' }), h('div', {})];
    fill(said, list, answer);
    for (const [at, one] of files.entries()) {
        const { number, file, title } = one;
        const path = `/requests/${number}/review`;
        const what = `Vote ${vote} on request ${number}`;
        const command = jsonCommand(what, path, { note, vote }, matching(file));
        const reply = await act(command, answer);
        if (!reply) return stoppedAt(files, at, vote, list, answer);
        const whole = `request ${number}, ${apartIn(title)}: `;
        list.append(h('li', {}, `${vote} on ${whole}`, badge(reply.state)));
    }
    const last = files[files.length - 1].number;
    const done = strong(`Your vote of ${vote} is in on ${counted(files.length, 'file')}. `);
    return box('good', p(done), list, nextPart(last));
}

/**
 * @param {Request[]} files @param {number} at where the votes stopped
 * @param {Vote} vote @param {HTMLElement} list what was recorded @param {HTMLElement} answer
 */
function stoppedAt(files, at, vote, list, answer) {
    const { number, title } = files[at];
    const behind = files.slice(at + 1);
    const recorded = at > 0
        ? box('good', p(strong(`Your vote of ${vote} is in on ${counted(at, 'file')}. `)), list)
        : null;
    return [
        recorded,
        p(strong(`It stopped at request ${number}, ${apartIn(title)}.`)),
        answer,
        behind.length > 0 ? p(`Nothing was sent for ${named(behind)}.`) : null,
    ];
}
