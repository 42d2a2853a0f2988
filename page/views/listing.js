// For officers: a certificate or a digest is listed. One officer does it alone.

import { act, refusalBox } from './act.js';
import { onceAtATime, settled } from './asking.js';
import { certificateFacts, certificateFile } from './certificates.js';
import {
    answers, box, buttons, done, faulty, field, fill, h, line, p, quiet, strong, submitButton, sure,
} from './dom.js';
import { fileField, noFile } from './files.js';
import { besideOf, noFacts, postImage } from './images.js';
import { barPlace } from './sending.js';
import { colonDoubts, digestDoubts } from '../desk/doubts.js';
import { Command, jsonCommand } from '../desk/journal.js';
import { known } from '../desk/known.js';
import { imageDoubts, knownBodies, signerDoubts } from '../desk/signer.js';
import { changed, standing } from '../desk/standing.js';
import { digestTyped } from '../formats/digests.js';

/** @typedef {import('./dom.js').Child} Child */
/** @typedef {import('./certificates.js').Certificate} Certificate */
/** @typedef {import('./files.js').Chosen} Chosen */
/** @typedef {import('../desk/signer.js').Beside} Beside */
/** @typedef {import('../desk/signer.js').Doubt} Doubt */
/** @typedef {(command: Command, said: HTMLElement, go: HTMLButtonElement) => any} Sends */

/** @param {(said: Child) => void} again shows the lists anew */
export function listing(again) {
    /** @type {Sends} */
    const sends = async (command, said, go) => {
        const reply = await act(command, said, { off: [go] });
        changed();
        const now = command.open
            ? 'The desk may have taken it before: see whether it is still in db.'
            : 'It is in db now.';
        if (reply) again(done('Listed.', ` ${now}`));
    };
    const summary = h('summary', {}, 'List a certificate or a digest');
    return h('details', {}, summary, certificateForm(sends), digestForm(sends));
}

/** @param {Sends} sends */
function certificateForm(sends) {
    const said = answers();
    const bar = barPlace();
    /** @type {Certificate | null} */
    let chosen = null;
    /** @type {Chosen | null} */
    let signed = null;
    const file = certificateFile('Certificate', (certificate) => (chosen = certificate));
    const hint = 'If you have one: does it carry this certificate? '
        + 'The desk reads it, and keeps nothing of it.';
    const image = fileField('An image that its key signed', hint, (one) => (signed = one));
    const go = submitButton('List this certificate');
    const onsubmit = async (/** @type {Event} */ event) => {
        event.preventDefault();
        const none = chosen ? '' : noFile(file.input, 'Choose a certificate’s file.');
        const unread = signed ? '' : noFile(image.input, '');
        if (faulty([file.input, none], [image.input, unread]) || !chosen) return undefined;
        const certificate = chosen;
        go.disabled = true;
        fill(said);
        const looked = await look(certificate, signed, bar);
        go.disabled = false;
        if ('shown' in looked) return fill(said, looked.shown);
        if (!(await meant(certificate, looked))) return undefined;
        const command = new Command('List a certificate', '/db/certificates', certificate.der);
        return sends(command, said, go);
    };
    const body = [file.place, file.said, image.place, bar, buttons(go), said];
    return h('form', { class: 'act', novalidate: true, onsubmit }, body);
}

/**
 * What there is to ask about, or what is shown where a part of it can't be read.
 * @param {Certificate} certificate
 * @param {Chosen | null} signed
 * @param {HTMLElement} bar
 * @returns {Promise<{ doubts: Doubt[], image: Beside | null } | { shown: Child }>}
 */
async function look(certificate, signed, bar) {
    const now = await standing();
    if (now.kind !== 'value') return { shown: refusalBox(now) };
    /** @type {Beside | null} */
    let image = null;
    if (signed) {
        const facts = await postImage('/facts', signed, bar);
        if (facts.kind !== 'value') return { shown: [p(`${signed.file.name}:`), noFacts(facts)] };
        image = await besideOf(signed, facts.value);
    }
    const bodies = await knownBodies(now.value, image);
    if ('kind' in bodies) return { shown: refusalBox(bodies) };
    const doubts = signerDoubts(certificate, now.value, bodies);
    return { doubts: [...doubts, ...(image ? imageDoubts(certificate, image) : [])], image };
}

/** @param {Certificate} certificate @param {{ doubts: Doubt[], image: Beside | null }} looked */
function meant(certificate, { doubts, image }) {
    const isCarried = image?.carried.includes(certificate.name);
    return sure(
        'List this certificate?',
        [
            certificateFacts(certificate),
            doubts.map(({ title, text }) => box('care', p(strong(`${title} `), text))),
            isCarried ? p(`${image?.file} carries it.`) : null,
            p(
                'Each image that carries it is then allowed, unless something bars it. ',
                'No other officer confirms it.',
            ),
        ],
        'List it',
    );
}

/** @param {Sends} sends */
function digestForm(sends) {
    const said = answers();
    const input = line({ class: 'mono' });
    const go = submitButton('List this digest');
    const onsubmit = onceAtATime(async () => {
        const typed = input.value;
        const hex = digestTyped(typed);
        const odd = hex ? '' : 'A digest is 64 hexadecimal digits.';
        if (faulty([input, odd]) || !hex) return undefined;
        fill(said, quiet('Reading from the desk…'));
        const all = await known({ digests: [hex], certificates: [], components: [] });
        fill(said);
        if ('kind' in all) return fill(said, refusalBox(all));
        // (that it has two digests matters to a revocation alone)
        const doubts = [...colonDoubts(typed, 'image'), ...digestDoubts(hex, all)]
            .filter(({ idle, use }) => idle || !use);
        if (!(await settled(doubts, 'List it all the same'))) return undefined;
        return sends(jsonCommand('List a digest', '/db/digests', { digest: hex }), said, go);
    });
    const hint = 'Its Authenticode digest, as a request has it.';
    const body = [field('Digest of an image', input, hint), buttons(go), said];
    return h('form', { class: 'act', novalidate: true, onsubmit }, body);
}
