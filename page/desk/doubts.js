// What the page asks back about before it proposes, lists or confirms: slips that the desk takes,
// and that then revoke nothing, or too much. Each doubt says what is odd, and what was probably
// meant.

import { generationDoubts, stampDoubts } from './generations.js';
import { issuedWords } from './questions.js';
import { higher } from '../formats/sbat.js';

/**
 * @typedef {{ text: string, use?: string[], idle?: boolean }} Doubt
 * `use` is what was probably meant; `idle` says that the entry would do nothing
 * @typedef {import('./types.js').Request} Request
 * @typedef {import('./standing.js').Standing} Standing
 * @typedef {import('./standing.js').Listed} Listed
 * @typedef {{ now: Standing, files: Map<string, Request>, images: Map<string, Request>,
 *   carriers: Map<string, Request[]>, fingerprints: Map<string, Listed>,
 *   names: Set<string> }} Known
 * the lists; requests by the SHA-256 of a whole file, by a digest and by a certificate that they
 * carry; listed certificates by their fingerprints; the names of the level's components and theirs
 * @typedef {import('../formats/certificates.js').Given} Given
 * @typedef {{ digests: Iterable<string>, certificates: Iterable<string>,
 *   components: Iterable<[string, number]>, stamp: number | null,
 *   given?: Map<string, Given> }} Named
 * what a proposal or an import names
 */

const NO_DIGEST = ', not the image’s digest. db and dbx name images by their digests, '
    + 'so it would do nothing.';
const NO_TBS = ': the SHA-256 of all of it. dbx names certificates by that of their '
    + 'TBSCertificate, so it would do nothing.';
const NO_CERTIFICATE = 'As a certificate it would do nothing.';

/** @param {Request[]} requests @param {Standing} now @returns {Known} */
export function knownOf(requests, now) {
    /** @type {Map<string, Request>} */
    const files = new Map();
    /** @type {Map<string, Request>} */
    const images = new Map();
    /** @type {Map<string, Request[]>} */
    const carriers = new Map();
    const names = new Set(now.level.names.keys());
    for (const request of requests) {
        const { returned, file, signing, digest } = request;
        for (const one of [returned, file]) if (one) files.set(one, request);
        for (const one of [signing, digest]) images.set(one, request);
        for (const one of request.carried) {
            carriers.set(one, [...(carriers.get(one) ?? []), request]);
        }
        for (const [name] of request.components) names.add(name);
    }
    const listed = [...now.listed.certificates.values()];
    const fingerprints = new Map(listed.map((one) => [one.fingerprint, one]));
    return { now, files, images, carriers, fingerprints, names };
}

/** @param {string} digest as the digest of an image @param {Known} known @returns {Doubt[]} */
export function digestDoubts(digest, known) {
    /** @type {Doubt[]} */
    const doubts = [];
    const file = known.files.get(digest);
    const image = known.images.get(digest);
    const certificate = certificateNamed(digest, known);
    if (file && !image) {
        const which = file.file === digest ? 'the whole file' : 'the returned file';
        const whose = `${which} of request ${file.number}`;
        const text = `${short(digest)} is the SHA-256 of ${whose}${NO_DIGEST}`;
        doubts.push({ text, use: digestsOf(file), idle: true });
    }
    if (certificate) {
        const text = `${short(digest)} names a certificate (${certificate}), not an image.`;
        doubts.push({ text: `${text} As a digest of an image it would do nothing.`, idle: true });
    }
    if (known.now.revoked.digests.has(digest)) doubts.push(already(digest));
    if (image && image.digest !== image.signing) {
        const text = `Request ${image.number} has two digests: a signature may hold the one of the `
            + 'padded image. Revoke both.';
        doubts.push({ text, use: digestsOf(image) });
    }
    return doubts;
}

// The digests of an image, each once.
/** @param {{ digest: string, signing: string }} image */
export const digestsOf = ({ digest, signing }) => [...new Set([digest, signing])];

/** @param {string} digest @param {Known} known what it names as a certificate, or '' */
function certificateNamed(digest, { now, carriers, fingerprints }) {
    const listed = now.listed.certificates.get(digest) ?? fingerprints.get(digest);
    if (listed) return listed.subject || 'a listed one';
    if (now.revoked.certificates.has(digest)) return 'a revoked one';
    const [carrier] = carriers.get(digest) ?? [];
    return carrier ? `one that request ${carrier.number} carries` : '';
}

/**
 * @param {string} digest as the SHA-256 of a TBSCertificate
 * @param {Known} known
 * @returns {Doubt[]}
 */
export function certificateDoubts(digest, { now, files, images, fingerprints }) {
    /** @type {Doubt[]} */
    const doubts = [];
    const whole = fingerprints.get(digest);
    const image = images.get(digest) ?? files.get(digest);
    if (whole) {
        const whose = whole.subject || 'a listed certificate';
        const text = `${short(digest)} is the fingerprint of ${whose}${NO_TBS}`;
        doubts.push({ text, use: [whole.tbs], idle: true });
    }
    if (image) {
        const text = `${short(digest)} is of an image (request ${image.number}). ${NO_CERTIFICATE}`;
        doubts.push({ text, idle: true });
    } else if (now.listed.digests.has(digest) || now.revoked.digests.has(digest)) {
        const text = `${short(digest)} stands in the lists as an image’s digest. ${NO_CERTIFICATE}`;
        doubts.push({ text, idle: true });
    }
    if (now.revoked.certificates.has(digest)) doubts.push(already(digest));
    return doubts;
}

/**
 * What certificates that are to be revoked issued: those that are listed, or `given`.
 * @param {Iterable<string>} certificates
 * @param {Known} known
 * @param {Map<string, Given>} [given]
 * @returns {Doubt[]}
 */
export function issuedDoubts(certificates, { now }, given = new Map()) {
    const named = new Set(certificates);
    return [...named].sort().flatMap((tbs) => {
        const one = given.get(tbs) ?? now.listed.certificates.get(tbs);
        const text = one ? issuedWords(one, now, named) : '';
        return text ? [{ text }] : [];
    });
}

/**
 * openssl prints a certificate's fingerprint with colons.
 * @param {string} typed a digest as it was typed
 * @param {'image' | 'certificate'} of what it was typed as the digest of
 * @returns {Doubt[]}
 */
export function colonDoubts(typed, of) {
    if (!typed.includes(':')) return [];
    const text = of === 'certificate'
        ? 'It has colons, as a fingerprint has: the SHA-256 of the whole certificate, '
            + 'which bars nothing.'
        : `${short(typed.trim())} has colons, as a certificate’s fingerprint has. `
            + 'As an image’s digest a fingerprint would do nothing.';
    return [{ text, idle: true }];
}

/**
 * Doubts of all that a proposal or an import names: what would do nothing, and what it raises by a
 * slip.
 * @param {Named} named
 * @param {Known} known
 * @param {number} [present] the stamp that its own has to be above
 * @returns {Doubt[]}
 */
export function itemDoubts(named, known, present = known.now.level.stamp) {
    const raised = higher(named.components, known.now.level);
    const doubts = [
        ...[...named.digests].flatMap((one) => digestDoubts(one, known)),
        ...[...named.certificates].flatMap((one) => certificateDoubts(one, known)),
    ].filter(({ idle }) => idle);
    doubts.push(...issuedDoubts(named.certificates, known, named.given));
    doubts.push(...raised.flatMap(([name, n]) => generationDoubts(name, n, known)));
    if (!named.stamp || raised.length === 0) return doubts;
    return [...doubts, ...stampDoubts(named.stamp, present)];
}

/** @param {string} digest */
function short(digest) {
    return `${digest.slice(0, 8)}…`;
}

/** @param {string} digest @returns {Doubt} */
function already(digest) {
    return { text: `${short(digest)} is revoked already.` };
}
