// What the desk says of an image at hand, today. Nothing is kept of it.

import { whyLink } from './calls.js';
import {
    answers, box, buttons, faulty, fill, h, heading, p, quiet, strong, submitButton,
} from './dom.js';
import { fileField, noFile } from './files.js';
import { matchPart, noFacts, postImage, unreadPart } from './images.js';
import { barPlace } from './sending.js';
import { carriedWords } from '../desk/questions.js';
import { standing } from '../desk/standing.js';
import { issuerNames, signaturesOf } from '../formats/pkcs7.js';
import { ruleWords } from '../formats/words.js';

/** @typedef {import('./files.js').Chosen} Chosen */
/** @typedef {import('../desk/types.js').Facts} Facts */
/** @typedef {import('../desk/types.js').Verdict} Verdict */

/** @param {HTMLElement} place */
export function verdictView(place) {
    heading(place, 'Check an image');
    place.append(p(
        'The desk reads the image and says whether its lists and its level allow it today. ',
        'It keeps nothing of it.',
    ));
    const bar = barPlace();
    const [said, more] = [answers(), answers()];
    let turn = 0;
    /** @type {Chosen | null} */
    let file = null;
    const hint = 'Choose it, or drop it here. At most 128 MiB.';
    const { place: drop, input } = fileField('EFI image', hint, (chosen) => {
        file = chosen;
        turn += 1;
        for (const one of [said, more]) fill(one);
    });
    const go = submitButton('Check it');
    const onsubmit = async (/** @type {Event} */ event) => {
        event.preventDefault();
        const none = file ? '' : noFile(input, 'Choose the image’s file.');
        if (faulty([input, none]) || !file) return undefined;
        const [chosen, mine] = [file, turn];
        fill(said, quiet('Waiting for the desk…'));
        fill(more);
        go.disabled = true;
        const answer = await postImage('/verdict', chosen, bar);
        const told = await verdictPart(answer, chosen);
        if (mine === turn) fill(said, told);
        const looked = answer.kind === 'value' ? await factsOf(chosen, bar) : null;
        go.disabled = false;
        return mine === turn ? fill(more, looked) : undefined;
    };
    place.append(h('form', { class: 'act', onsubmit }, drop, buttons(go), bar), said, more);
}

// For officers: why the verdict is so, by the minutes.
/** @param {Chosen} chosen @param {Facts | null} facts null if the desk tells none */
function whyPart({ file: { name }, sha256 }, facts) {
    const link = whyLink(facts ? { image: { ...facts, name } } : { hex: sha256 }, name);
    return link && (facts || sha256) ? p(link, ' that is so, by the minutes.') : null;
}

// The facts of the image, beside the request whose it is.
/** @param {Chosen} chosen @param {HTMLElement} bar */
async function factsOf(chosen, bar) {
    const answer = await postImage('/facts', chosen, bar);
    if (answer.kind !== 'value') return [whyPart(chosen, null), await unreadPart(answer, chosen)];
    return [whyPart(chosen, answer.value), await matchPart(chosen, answer.value)];
}

const ISSUER_LISTED = 'Its signer’s issuer is listed; the desk compares what the image carries.';

// Whether the issuer of an image's signer is listed, by their names.
/** @param {Chosen} chosen */
async function issuerIsListed({ bytes }) {
    const names = issuerNames(signaturesOf(bytes));
    const now = names.length > 0 ? await standing() : null;
    if (now?.kind !== 'value') return false;
    return [...now.value.listed.certificates.values()].some(({ of }) => names.includes(of));
}

// What is odd of the signatures, by what is listed now.
/** @param {Chosen} chosen */
async function carriedBy({ bytes }) {
    const now = await standing();
    return now.kind === 'value' ? carriedWords(signaturesOf(bytes), now.value.bodies) : '';
}

/** @param {import('../desk/types.js').Answer<Verdict>} answer @param {Chosen} chosen */
async function verdictPart(answer, chosen) {
    if (answer.kind !== 'value') return noFacts(answer);
    const { value } = answer;
    if (value.verdict === 'allowed') {
        const listed = 'Its digest or a certificate that it carries is listed, '
            + 'and nothing bars it.';
        const unchecked = 'The desk checked no signature: an image that only carries a listed '
            + 'certificate is allowed too. Run ';
        const odd = await carriedBy(chosen);
        return box(
            odd ? 'care' : 'good',
            p(strong('Allowed. '), listed),
            odd ? p(odd) : null,
            p(unchecked, h('code', {}, 'osslsigncode verify'), ' for that.'),
        );
    }
    const issued = value.verdict === 'not-listed' && await issuerIsListed(chosen);
    const why = p(strong('Refused: '), `${ruleWords(value)}.`);
    return box('bad', why, issued ? p(ISSUER_LISTED) : null);
}
