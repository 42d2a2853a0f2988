// What is asked before one officer lists a signer's certificate: where firmware would refuse it,
// and where the desk would surprise. The officer decides, and the desk judges.

import { minutes, readOn, slices } from './calls.js';
import { certificateOf } from '../formats/certificates.js';
import { bytesOf, sha256 } from '../formats/digests.js';
import { certificateIn } from '../formats/pem.js';

/**
 * A certificate by its name, the SHA-256 of its TBSCertificate; '' where the browser hashes only
 * over https.
 * @typedef {{ name: string } & import('../formats/certificates.js').Certificate} Certificate
 * @typedef {{ file: string, carried: string[], certificates: Certificate[] }} Beside
 * a signed image that is given beside a certificate: what it carries, by the desk, and whose that
 * is, as far as it reads
 * @typedef {{ title: string, text: string }} Doubt
 * @typedef {import('./standing.js').Standing} Standing
 */

const NOT_RSA = 'Firmware takes no db with it: SetVariable refuses the whole of it, '
    + 'with all that is listed.';
const AUTHORITY = 'Firmware and shim follow the chain to it; the desk compares what an image '
    + 'carries, and most carry their signer’s certificate alone: list the signer’s. An image that '
    + 'carries the CA’s is allowed, whoever signed it, unless something bars it.';
const REVOKED = 'Whatever carries it stays barred, listed or not.';
const ISSUER = 'The desk still allows an image that carries this one alone; shim doesn’t, once it '
    + 'has that body; and in firmware the order of db decides, if both are listed.';

/** @param {Certificate} one @param {Standing} now @param {Certificate[]} known as at hand */
export function signerDoubts(one, now, known) {
    /** @type {Doubt[]} */
    const doubts = [];
    const isRevoked = now.revoked.certificates.has(one.name);
    if (!one.key.startsWith('RSA, ')) doubts.push({ title: 'Its key isn’t RSA.', text: NOT_RSA });
    if (one.authority) doubts.push({ title: 'It is a CA’s.', text: AUTHORITY });
    if (isRevoked) doubts.push({ title: 'It is revoked.', text: REVOKED });
    return [...doubts, ...issuerDoubts(one, now, known)];
}

/** @param {Certificate} one @param {Standing} now @param {Certificate[]} known */
function issuerDoubts({ name: own, by }, { revoked }, known) {
    const issuers = known.filter(({ of, name }) => of === by && name !== own);
    const barred = issuers.filter(({ name }) => revoked.certificates.has(name));
    const each = new Map(barred.map((issuer) => [issuer.name, issuer]));
    return [...each.values()].map(({ subject, name }) => ({
        title: 'Its issuer is revoked.',
        text: `A certificate with its issuer’s name is: ${subject}, ${name}. ${ISSUER}`,
    }));
}

// What an image says of listing a certificate.
/** @param {Certificate} one @param {Beside} image @returns {Doubt[]} */
export function imageDoubts(one, { file, carried, certificates }) {
    if (carried.includes(one.name)) return [];
    const whose = new Map(certificates.map(({ name, subject }) => [name, ` (${subject})`]));
    const all = carried.map((name) => `${name}${whose.get(name) ?? ''}`).join(', ');
    const carries = `It carries ${all || 'no certificate: it isn’t signed'}.`;
    const text = `So the desk won’t allow that image by it. ${carries}`;
    return [{ title: `${file} doesn’t carry it.`, text }];
}

/**
 * The certificates whose bodies are at hand: those of db, those of the image, and the revoked ones
 * that some call listed, by the minutes, which keep each body.
 * @param {Standing} now
 * @param {Beside | null} image
 * @returns {Promise<Certificate[] | import('./types.js').NoValue>}
 */
export async function knownBodies(now, image) {
    const known = [...await certificatesOf(now.bodies), ...(image?.certificates ?? [])];
    const have = new Set(known.map(({ name }) => name));
    const left = new Set([...now.revoked.certificates].filter((one) => !have.has(one)));
    const before = left.size > 0 ? await listedBefore(left) : [];
    return 'kind' in before ? before : [...known, ...before];
}

/** @param {import('../formats/certificates.js').Certificate} one @returns {Promise<Certificate>} */
export const withName = async (one) => ({ ...one, name: await sha256(one.tbs) });

// Those that read as certificates.
/** @param {Uint8Array[]} bodies */
function certificatesOf(bodies) {
    const found = bodies.map(certificateIn).flatMap((one) => ('der' in one ? [one.der] : []));
    return Promise.all(found.map(certificateOf).map(withName));
}

/** @param {Set<string>} left the SHA-256 of their TBSCertificates */
async function listedBefore(left) {
    const answer = await readOn();
    if (answer.kind !== 'value') return answer;
    /** @type {Uint8Array[]} */
    const bodies = [];
    await slices(0, minutes().lines.length, (line) => {
        const [command, name, body] = line.split('\t')[3].split(' ');
        if (command === 'list-certificate' && left.delete(name)) bodies.push(bytesOf(body));
    }, () => left.size > 0);
    return certificatesOf(bodies);
}
