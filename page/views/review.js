// A vote, and a withdrawal.

import { act, refusalBox } from './act.js';
import {
    actSection, answers, asks, box, button, buttons, faulty, field, fill, h, p, section, strong,
} from './dom.js';
import { nextPart } from './next.js';
import { matching } from '../desk/answers.js';
import { Command, jsonCommand } from '../desk/journal.js';
import { plainQuestion, yesQuestion } from '../desk/questions.js';
import { me } from '../desk/session.js';
import { standing } from '../desk/standing.js';
import { wire } from '../formats/wire.js';
import { textFault } from '../formats/words.js';

/** @typedef {import('./dom.js').Child} Child */
/** @typedef {import('../desk/types.js').Request} Request */

const OWN = 'You submitted this request, so another reviewer has to vote.';
const VOTED = 'You have voted. A vote stands as it was given.';
const HINT = 'characters of ASCII; everybody who sees the request reads it.';

/**
 * @param {Request} request
 * @param {{ like: string }} looked how the file that was looked at last is like it
 * @param {(said: Child) => void} again shows the request anew
 */
export function reviewForm(request, looked, again) {
    const { file, number, submitter, votes } = request;
    const title = 'Your vote';
    if (submitter === me.name) return section(title, p(OWN));
    if (votes.some(({ reviewer }) => reviewer === me.name)) return section(title, p(VOTED));
    const note = h('textarea', { rows: 2, maxlength: wire.limits.note });
    const said = answers();
    const gives = async (/** @type {'yes' | 'no'} */ vote) => {
        const text = note.value.replace(/\s*\n\s*/g, ' ');
        if (faulty([note, textFault(text, wire.limits.note, 'note')])) return undefined;
        const goesOn = vote === 'no'
            ? await asks(plainQuestion('no', number))
            : await agrees(request, looked.like === 'other', said);
        if (!goesOn) return undefined;
        const what = `Vote ${vote} on request ${number}`;
        const path = `/requests/${number}/review`;
        const command = jsonCommand(what, path, { note: text, vote }, matching(file));
        const reply = await act(command, said, { off: [yes, no, note] });
        if (!reply) return undefined;
        const done = p(strong(`Your vote of ${vote} is in. `), stateWords(reply.state));
        return again(box('good', done, nextPart(number)));
    };
    const yes = button('Vote yes', () => gives('yes'), 'main');
    const no = button('Vote no', () => gives('no'), 'danger');
    const agreed = votes.some(({ vote }) => vote === 'yes')
        ? 'Yes: this image is approved, since one reviewer has agreed already.'
        : 'Yes: this image may be signed; another reviewer has to agree.';
    return actSection(
        title,
        p(agreed, ' No: it is rejected at once.'),
        field('Note (if you like)', note, `Up to ${wire.limits.note} ${HINT}`),
        buttons(yes, no),
        said,
    );
}

// Whether a yes is meant, by what the lists say now; they are read for it.
/** @param {Request} request @param {boolean} another @param {HTMLElement} said */
async function agrees(request, another, said) {
    const now = await standing();
    if (now.kind !== 'value') {
        fill(said, refusalBox(now));
        return false;
    }
    const question = yesQuestion(request, now.value, another);
    return question ? asks(question) : true;
}

/** @param {string} state */
function stateWords(state) {
    if (state === 'approved') return 'The request is approved and waits for a signer.';
    if (state === 'rejected') return 'The request is rejected.';
    return 'The request stays open until another reviewer agrees.';
}

/** @param {Request} request @param {(said: Child) => void} again */
export function withdrawForm({ file, number }, again) {
    const said = answers();
    const withdraw = button('Withdraw…', async () => {
        if (!(await asks(plainQuestion('withdraw', number)))) return;
        const path = `/requests/${number}/withdraw`;
        const command = new Command(`Withdraw request ${number}`, path, '', matching(file));
        const reply = await act(command, said, { off: [withdraw] });
        if (reply) again(box('good', strong('Withdrawn.')));
    });
    const may = p('You submitted it, and can take it back.');
    return section('Withdraw it', may, buttons(withdraw), said);
}
