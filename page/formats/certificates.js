// What a certificate says of itself (RFC 5280, 4.1): whose it is, who issued it, what its key is,
// and whether it is a CA's. A look for people: no signature is checked.

import { element, identifier, isShortest, within } from './der.js';
import { hex } from './digests.js';

/** @typedef {import('./der.js').Element} Element */
/** @typedef {import('./der.js').MaybeElement} MaybeElement */

const SEQUENCE = 0x30;
/** The tags of a TBSCertificate from its serial number to its key. */
const PARTS = [0x02, SEQUENCE, SEQUENCE, SEQUENCE, SEQUENCE, SEQUENCE];
/** What may follow: issuerUniqueID, subjectUniqueID, extensions. */
const MORE = [0x81, 0x82, 0xa3];

/** @type {Record<string, string>} */
const ATTRIBUTES = {
    '2.5.4.3': 'CN',
    '2.5.4.10': 'O',
    '2.5.4.11': 'OU',
    '2.5.4.6': 'C',
    '2.5.4.8': 'ST',
    '2.5.4.7': 'L',
    '1.2.840.113549.1.9.1': 'E',
};

const RSA = '1.2.840.113549.1.1.1';
const EC = '1.2.840.10045.2.1';
/** @type {Record<string, string>} */
const CURVES = { '1.2.840.10045.3.1.7': 'P-256', '1.3.132.0.34': 'P-384', '1.3.132.0.35': 'P-521' };
/** @type {Record<string, string>} */
const KEYS = {
    '1.3.101.112': 'Ed25519',
    '1.3.101.113': 'Ed448',
    '1.2.840.113549.1.1.10': 'RSA (PSS)',
};
const BASIC_CONSTRAINTS = '2.5.29.19';

/** @type {(found: Element[], tags: number[]) => boolean} */
const hasTags = (found, tags) => found.length === tags.length
    && tags.every((tag, at) => found[at].tag === tag);

// The elements of a TBSCertificate from its serial number on.
/** @param {MaybeElement} tbs */
function partsOf(tbs) {
    const all = within(tbs);
    return all[0]?.tag === 0xa0 ? all.slice(1) : all;
}

// Whether a TBSCertificate has its parts; a request and a CRL have others.
/** @param {Element} tbs */
function isTbs(tbs) {
    const parts = partsOf(tbs);
    const [, algorithm, , validity, , key] = parts;
    const more = parts.slice(PARTS.length).map(({ tag }) => tag);
    return hasTags(parts.slice(0, PARTS.length), PARTS)
        && more.every((tag, at) => MORE.includes(tag) && (at === 0 || tag > more[at - 1]))
        && identifier(within(algorithm)[0]) !== ''
        && within(validity).length === 2
        && within(validity).every(({ tag }) => tag === 0x17 || tag === 0x18)
        && hasTags(within(key), [SEQUENCE, 0x03]);
}

// Whether the bytes are a certificate in DER: TBSCertificate, AlgorithmIdentifier, BIT STRING, and
// nothing behind them.
/** @param {Uint8Array} bytes */
export function isCertificate(bytes) {
    const certificate = element(bytes);
    if (!certificate || certificate.tag !== SEQUENCE || certificate.rest.length > 0) return false;
    const parts = within(certificate);
    const [tbs, algorithm, signature] = parts;
    return hasTags(parts, [SEQUENCE, SEQUENCE, 0x03])
        && [certificate, ...parts].every(isShortest)
        && isTbs(tbs)
        && identifier(within(algorithm)[0]) !== ''
        && signature.content.length > 1;
}

/** @param {Element} value */
function textOf({ tag, content }) {
    const coding = tag === 0x1e ? 'utf-16be' : tag === 0x14 ? 'latin1' : 'utf-8';
    const text = new TextDecoder(coding).decode(content);
    // What would turn a line round, or move it, is shown as its number.
    const number = (/** @type {string} */ odd) => `\\u{${(odd.codePointAt(0) ?? 0).toString(16)}}`;
    return text.replace(/[\p{C}\u2028\u2029]/gu, number);
}

/** @param {MaybeElement} name @returns {[string, string][]} */
function attributes(name) {
    return within(name).flatMap(within).flatMap((pair) => {
        const [type, value] = within(pair);
        const number = identifier(type);
        return value ? [[ATTRIBUTES[number] ?? number, textOf(value)]] : [];
    });
}

/** @param {MaybeElement} name */
export function nameOf(name) {
    return attributes(name).map(([type, text]) => `${type}=${text}`).join(', ') || '(empty)';
}

// The common name of a certificate's subject, or '' if it has none that reads.
/** @param {Uint8Array} tbs */
export function subjectOf(tbs) {
    const [, , , , subject] = partsOf(element(tbs));
    return attributes(subject).find(([type]) => type === 'CN')?.[1].trim() ?? '';
}

// The two names of a certificate in DER, in hexadecimal digits, and its issuer's as it reads.
/** @param {Uint8Array} tbs */
export function namesIn(tbs) {
    const [, , issuer, , subject] = partsOf(element(tbs));
    if (!subject) return { of: '', by: '', issuer: '' };
    return { of: hex(subject.whole), by: hex(issuer.whole), issuer: nameOf(issuer) };
}

/** @param {Element} key a SubjectPublicKeyInfo */
function keyOf(key) {
    const [algorithm, bits] = within(key);
    const [type, parameter] = within(algorithm);
    const name = identifier(type);
    if (name === RSA) {
        const [modulus] = within(element(bits.content.subarray(1)));
        const first = modulus ? modulus.content.findIndex((byte) => byte !== 0) : -1;
        if (first < 0) return 'RSA';
        const length = modulus.content.length - first;
        return `RSA, ${length * 8 - Math.clz32(modulus.content[first]) + 24} bits`;
    }
    const curve = identifier(parameter);
    if (name === EC) return `EC, ${CURVES[curve] ?? `curve ${curve || 'unnamed'}`}`;
    return KEYS[name] ?? `of type ${name}`;
}

// Whether its basicConstraints say that it is a CA's.
/** @param {MaybeElement} extensions [3] */
function isAuthority(extensions) {
    for (const extension of within(within(extensions)[0])) {
        const parts = within(extension);
        const value = parts[parts.length - 1];
        if (identifier(parts[0]) !== BASIC_CONSTRAINTS || value.tag !== 0x04) continue;
        const [flag] = within(element(value.content));
        return flag?.tag === 0x01 && flag.content[0] !== 0;
    }
    return false;
}

/**
 * What a certificate says of itself. `of` and `by` are its two names in DER, `serial` its number,
 * in hexadecimal digits: what signatures and other certificates name it by.
 * @typedef {{ tbs: Uint8Array, subject: string, issuer: string, key: string, authority: boolean,
 *   of: string, by: string, serial: string }} Certificate
 */

/** @param {Uint8Array} bytes for which `isCertificate` holds @returns {Certificate} */
export function certificateOf(bytes) {
    const [tbs] = within(element(bytes));
    const parts = partsOf(tbs);
    const [serial, , issuer, , subject, key] = parts;
    return {
        tbs: tbs.whole,
        subject: nameOf(subject),
        issuer: nameOf(issuer),
        key: keyOf(key),
        authority: isAuthority(parts.find(({ tag }) => tag === 0xa3)),
        of: hex(subject.whole),
        by: hex(issuer.whole),
        serial: hex(serial.content),
    };
}

/**
 * A certificate that is to be revoked: its name in dbx, its common name, its subject's name in DER,
 * whose it is, and whether it says that it is a CA's.
 * @typedef {{ tbs: string, subject: string, of: string, whose: string, authority: boolean }} Given
 */

/**
 * @param {string} tbs the SHA-256 of its TBSCertificate
 * @param {Uint8Array} bytes for which `isCertificate` holds
 * @returns {Given}
 */
export function givenOf(tbs, bytes) {
    const { tbs: signed, of, subject: whose, authority } = certificateOf(bytes);
    return { tbs, subject: subjectOf(signed), of, whose, authority };
}
