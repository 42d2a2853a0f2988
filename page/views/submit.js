// A new request: an image is submitted.

import { refusalBox } from './act.js';
import {
    answers, box, buttons, faulty, field, fill, h, heading, line, p, quiet, status, strong,
    submitButton,
} from './dom.js';
import { fileField, noFile } from './files.js';
import { requestLink } from './marks.js';
import { barPlace, compared, sent } from './sending.js';
import { get } from '../desk/api.js';
import { Command } from '../desk/journal.js';
import { requestsWith } from '../desk/lists.js';
import { twiceQuestion } from '../desk/questions.js';
import { me } from '../desk/session.js';
import { authenticode } from '../formats/pe.js';
import { wire } from '../formats/wire.js';
import { textFault } from '../formats/words.js';

/** @typedef {import('./files.js').Chosen} Chosen */

const HINT = 'What it is, as reviewers read it: package, version, architecture. The files of one '
    + 'upload have one text, then “ / ” and what tells each apart.';

/** @param {HTMLElement} place */
export function submitView(place) {
    heading(place, 'Submit an image');
    place.append(p(
        'Two reviewers then look at it; a signer signs what they approve. ',
        'The desk keeps facts of the image, not its bytes, so keep the file for them.',
    ));
    const title = line({ spellcheck: null, maxlength: wire.limits.title, required: true });
    const bar = barPlace();
    const said = answers();
    const twice = status();
    /** @type {Chosen | null} */
    let file = null;
    const hint = 'Choose it, or drop it here. At most 128 MiB.';
    const { place: drop, input } = fileField('EFI image', hint, async (chosen) => {
        file = chosen;
        fill(twice);
        if (!chosen?.sha256) return;
        const told = await before(chosen);
        if (file === chosen) fill(twice, told);
    });
    const go = submitButton('Submit');
    const onsubmit = async (/** @type {Event} */ event) => {
        event.preventDefault();
        const text = title.value.trim();
        const odd = text === '' ? 'Give it a title.' : textFault(text, wire.limits.title, 'title');
        const none = file ? '' : noFile(input, 'Choose the image’s file.');
        if (faulty([title, odd], [input, none]) || !file) return undefined;
        const { bytes, sha256, file: { name } } = file;
        const command = new Command(`Submit ${name}`, '/requests', bytes, { 'Desk-Title': text });
        const reply = await sent(command, bar, said, [go, title, input]);
        return reply ? arrived(said, reply.request, sha256, form) : undefined;
    };
    const named = field('Title', title, `${HINT} Up to ${wire.limits.title} characters of ASCII.`);
    const body = [named, drop, twice, buttons(go), bar];
    const form = h('form', { class: 'act', novalidate: true, onsubmit }, body);
    place.append(form, said);
}

// Says where the caller submitted the same file before, or its image in another one.
/** @param {Chosen} chosen */
async function before({ bytes, sha256 }) {
    const digests = await authenticode(bytes).catch(() => []);
    const answer = await requestsWith([sha256, ...digests]);
    if (answer.kind !== 'value') {
        return [p('Whether the same file was submitted before can’t be read:'), refusalBox(answer)];
    }
    const own = answer.value.filter(({ submitter }) => submitter === me.name);
    const twice = twiceQuestion(own, sha256, digests);
    if (!twice) return null;
    const { number, words } = twice;
    return box('care', p(words), p(requestLink(number, `Look at request ${number}`)));
}

/**
 * What came of a submission. The form goes first: one that is still there is soon sent twice.
 * @param {HTMLElement} said
 * @param {number} number
 * @param {string} sha256
 * @param {HTMLElement} form
 */
async function arrived(said, number, sha256, form) {
    form.hidden = true;
    fill(said, quiet(`This is request ${number}. Comparing its SHA-256…`));
    const answer = await get(`/requests/${number}`);
    const onclick = () => dispatchEvent(new HashChangeEvent('hashchange'));
    const another = h('a', { href: '#/submit', onclick }, 'submit another image');
    const open = box(
        'good',
        p(strong(`This is request ${number}. `), 'It is open: two reviewers have to agree.'),
        p(requestLink(number, `Look at request ${number}`), ' or ', another, '.'),
    );
    const isRead = answer.kind === 'value';
    fill(said, open, isRead ? compared(sha256, answer.value.file) : refusalBox(answer));
}
