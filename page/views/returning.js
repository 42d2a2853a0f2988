// The signed file of an approved request is returned.

import {
    answers, asks, box, buttons, faulty, fill, h, p, quiet, section, status, strong, submitButton,
} from './dom.js';
import { fileField, noFile } from './files.js';
import { nextPart } from './next.js';
import { barPlace, compared, sent } from './sending.js';
import { get } from '../desk/api.js';
import { matching } from '../desk/answers.js';
import { Command } from '../desk/journal.js';
import { carriedWords, returnQuestion } from '../desk/questions.js';
import { standing } from '../desk/standing.js';
import { signaturesOf } from '../formats/pkcs7.js';

/** @typedef {import('./dom.js').Child} Child */
/** @typedef {import('./files.js').Chosen} Chosen */

const UNSIGNED = 'This is the very file that was submitted. '
    + 'If it was to be signed, choose the signed one.';
const TAKEN = 'The desk takes it if it is this image, its digest or a certificate that it carries '
    + 'is listed, and nothing bars it. It checks no signature: verify it first, by ';

/** @param {import('../desk/types.js').Request} request @param {(said: Child) => void} again */
export function returnForm(request, again) {
    const { number, file: submitted } = request;
    const bar = barPlace();
    const said = answers();
    const odd = status();
    /** @type {Chosen | null} */
    let file = null;
    const hint = 'Choose it, or drop it here.';
    const { place, input } = fileField('Signed file', hint, (chosen) => {
        file = chosen;
        fill(odd, chosen?.sha256 === submitted ? box('care', UNSIGNED) : null);
    });
    const go = submitButton('Return it');
    const onsubmit = async (/** @type {Event} */ event) => {
        event.preventDefault();
        const none = file ? '' : noFile(input, 'Choose the signed file.');
        if (faulty([input, none]) || !file) return undefined;
        const { bytes, sha256 } = file;
        const words = await doubtOf(request, bytes);
        if (words && !(await asks(returnQuestion(number, words)))) return undefined;
        const path = `/requests/${number}/return`;
        const about = matching(submitted);
        const command = new Command(`Return of request ${number}`, path, bytes, about);
        const reply = await sent(command, bar, said, [go, input]);
        if (!reply) return undefined;
        form.hidden = true;
        fill(said, quiet(`Request ${number} is signed. Comparing its SHA-256…`));
        return again(await returned(number, sha256));
    };
    const body = [place, odd, buttons(go), bar];
    const form = h('form', { class: 'act', novalidate: true, onsubmit }, body);
    const verify = h('code', {}, 'osslsigncode verify');
    const taken = p(TAKEN, verify, ' (deskctl’s manual has the line).');
    return section('Return the signed file', taken, form, said);
}

// What is odd of the signatures, by what is listed now; nothing where the image's digest is. (Where
// the lists can't be read, the desk decides.)
/** @param {import('../desk/types.js').Request} request @param {Uint8Array} bytes */
async function doubtOf({ digest, signing }, bytes) {
    const now = await standing();
    if (now.kind !== 'value') return '';
    const { listed: { digests }, bodies } = now.value;
    if (digests.has(digest) || digests.has(signing)) return '';
    return carriedWords(signaturesOf(bytes), bodies);
}

/** @param {number} number @param {string} sha256 */
async function returned(number, sha256) {
    const answer = await get(`/requests/${number}`);
    return status(
        box('good', p(strong('Returned. '), `Request ${number} is signed.`), nextPart(number)),
        answer.kind === 'value' ? compared(sha256, answer.value.returned) : null,
    );
}
