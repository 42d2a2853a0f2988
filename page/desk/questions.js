// What is asked before a submission, a vote, a withdrawal, a return, a drop, an unlisting or a
// proposal, in the words of page/wire/questions.json.

import { barredBy, called } from './standing.js';
import { certificateOf, isCertificate } from '../formats/certificates.js';
import { hex } from '../formats/digests.js';
import { signerWords } from '../formats/pkcs7.js';
import { wire } from '../formats/wire.js';
import { counted, filled, grouped, ruleWords, someOf } from '../formats/words.js';

/**
 * @typedef {{ title: string, lines: string[], button: string, typed?: Typed }} Question
 * @typedef {{ label: string, wanted: string }} Typed what has to be typed before the button goes on
 */

/** @param {string} name @param {number} number @param {string[]} lines @returns {Question} */
function question(name, number, lines) {
    const { title, button } = wire.questions[name];
    return { title: filled(title, { number }), lines, button };
}

/** @param {'no' | 'withdraw' | 'drop'} name @param {number} number of a request or a proposal */
export function plainQuestion(name, number) {
    return question(name, number, [filled(wire.questions[name].plain, { number })]);
}

/**
 * The request by which the same person submitted a file before, or its image, which is open or
 * approved, or was signed; and what is said of it.
 * @param {import('./types.js').Request[]} own
 * @param {string} file
 * @param {string[]} [digests] of its image
 * @returns {{ number: number, words: string } | null}
 */
export function twiceQuestion(own, file, digests = []) {
    const states = ['open', 'approved', 'signed'];
    const lasting = own.filter(({ state }) => states.includes(state)).reverse();
    const twice = lasting.find((one) => one.file === file);
    const found = twice ?? lasting.find(({ digest, signing }) => (
        digests.includes(digest) || digests.includes(signing)
    ));
    if (!found) return null;
    const { number, state } = found;
    const words = wire.questions.submit[twice ? 'twice' : 'image'];
    return { number, words: filled(words, { number, state }) };
}

/**
 * What is said before a yes: that the image is barred, that another one was looked at, and that the
 * yes approves it.
 * @param {import('./types.js').Request} request
 * @param {import('./standing.js').Standing} now
 * @param {boolean} [another] whether the file that was looked at last is another image
 */
function yesLines(request, now, another = false) {
    const barred = barredBy(now, request);
    const asks = {
        barred: barred !== null,
        another,
        second: request.votes.some(({ vote }) => vote === 'yes'),
    };
    const parts = { number: request.number, why: barred ? ruleWords(barred) : '' };
    return Object.entries(asks).filter(([, is]) => is)
        .map(([name]) => filled(wire.questions.yes[name], parts));
}

/**
 * What is asked before a yes.
 * @param {import('./types.js').Request} request
 * @param {import('./standing.js').Standing} now
 * @param {boolean} another
 * @returns {Question | null} null where nothing is asked
 */
export function yesQuestion(request, now, another) {
    const lines = yesLines(request, now, another);
    return lines.length > 0 ? question('yes', request.number, lines) : null;
}

/**
 * What is asked before one vote on several requests, or on the one that is left of them.
 * @param {import('./types.js').Request[]} requests
 * @param {'yes' | 'no'} vote
 * @param {import('./standing.js').Standing} now
 * @returns {Question}
 */
export function severalQuestion(requests, vote, now) {
    const linesOf = (/** @type {import('./types.js').Request} */ one) => (
        vote === 'no' ? plainQuestion('no', one.number).lines : yesLines(one, now)
    );
    if (requests.length === 1) return question(vote, requests[0].number, linesOf(requests[0]));
    const { title, each, button } = wire.questions.several;
    return {
        title: filled(title, { vote, count: counted(requests.length, 'request') }),
        lines: requests.flatMap((one) => (
            linesOf(one).map((line) => filled(each, { number: one.number, line }))
        )),
        button: filled(button, { vote }),
    };
}

/**
 * What is said where a listed certificate is carried, and no signature says that it is by a listed
 * one.
 * @param {import('../formats/pkcs7.js').Signature[]} signatures
 * @param {Uint8Array[]} bodies of the listed certificates
 * @returns {string} '' where nothing is said
 */
export function carriedWords(signatures, bodies) {
    const listed = bodies.filter(isCertificate).map(certificateOf);
    const names = new Set(listed.map(({ tbs }) => hex(tbs)));
    const carried = signatures.flatMap(({ certificates }) => certificates)
        .find(({ tbs }) => names.has(hex(tbs)));
    const signers = signatures.flatMap((one) => one.signers);
    const isBy = signers.some(({ issuer, serial }) => (
        listed.some((one) => one.by === issuer && one.serial === serial)
    ));
    if (!carried || isBy) return '';
    const words = signers.map(signerWords).join('; ') || 'by nobody';
    const parts = { subject: carried.subject, signers: words };
    return filled(wire.questions.return.carried, parts);
}

/** @param {number} number of a request @param {string} words of `carriedWords` */
export const returnQuestion = (number, words) => question('return', number, [words]);

/**
 * What is said before a certificate is revoked: the listed ones that it issued, and that neither
 * are revoked nor among the `named`.
 * @param {{ tbs: string, subject: string, of: string }} one
 * @param {Pick<import('./standing.js').Standing, 'listed' | 'revoked'>} now
 * @param {Set<string>} named
 * @returns {string} '' where nothing is said
 */
export function issuedWords(one, { listed, revoked }, named) {
    const left = [...listed.certificates.values()].filter(({ tbs, of, by }) => (
        by === one.of && of !== by && !named.has(tbs) && !revoked.certificates.has(tbs)
    ));
    if (left.length === 0) return '';
    const [they, them] = left.length === 1 ? ['it', 'it'] : ['they', 'them'];
    const count = counted(left.length, 'listed certificate');
    const parts = { subject: called(one), count, names: someOf(left.map(called)), they, them };
    return filled(wire.questions.propose.issued, parts);
}

/**
 * What is said of a certificate that is to be revoked and isn't at hand: who issued those that are
 * listed.
 * @param {Pick<import('./standing.js').Standing, 'listed' | 'revoked'>} now
 * @returns {string} '' where nobody else did
 */
export function unknownWords({ listed, revoked }) {
    const others = [...listed.certificates.values()].filter(({ tbs, of, by }) => (
        of !== by && !revoked.certificates.has(tbs)
    ));
    const names = someOf([...new Set(others.map(({ issuer }) => issuer))], '; ');
    return names ? filled(wire.questions.propose.unknown, { names }) : '';
}

/**
 * Before an entry is taken off the list: how many signed files it alone makes allowed, and the
 * first of their requests.
 * @param {string} name what has to be typed
 * @param {number} count
 * @param {{ number: number, title: string }[]} first
 * @returns {Question}
 */
export function unlistQuestion(name, count, first) {
    const { title, loses, none, plain, typed, button } = wire.questions.unlist;
    const names = someOf(first.map((one) => `request ${one.number} (${one.title})`), ', ', count);
    const told = count > 0 ? filled(loses, { count: grouped(count), names }) : none;
    return {
        title: filled(title, { name }),
        lines: [told, plain],
        button,
        typed: { label: filled(typed, { name }), wanted: name },
    };
}
