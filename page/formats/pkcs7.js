// What stands in an image's certificate table: signatures, over which digest each is, and whose
// (PE/COFF; RFC 2315, 9.1). The page's own reading: it isn't proved, and no signature is checked.

import { certificateOf, isCertificate, nameOf } from './certificates.js';
import { element, identifier, within } from './der.js';
import { hex } from './digests.js';

/**
 * @typedef {import('./certificates.js').Certificate} Certificate
 * @typedef {{ issuer: string, serial: string, issuedBy: string,
 *   certificate: Certificate | undefined }} Signer
 * the issuer's name in DER and the number of the signer's certificate there, in hexadecimal digits;
 * the name in words; the certificate, where the table carries it
 * @typedef {{ algorithm: string, digest: string, signers: Signer[], certificates: Certificate[],
 *   fault: string }} Signature
 * `fault` says why an entry can't be read
 * @typedef {{ digest: string, signing: string }} Digests an image's
 */

const PKCS7 = 2;
const INDIRECT_DATA = '1.3.6.1.4.1.311.2.1.4';
/** @type {Record<string, string>} */
const ALGORITHMS = {
    '1.2.840.113549.2.5': 'MD5',
    '1.3.14.3.2.26': 'SHA-1',
    '2.16.840.1.101.3.4.2.4': 'SHA-224',
    '2.16.840.1.101.3.4.2.1': 'SHA-256',
    '2.16.840.1.101.3.4.2.2': 'SHA-384',
    '2.16.840.1.101.3.4.2.3': 'SHA-512',
};

/** @param {string} fault @returns {Signature} */
const unread = (fault) => ({ algorithm: '', digest: '', signers: [], certificates: [], fault });

// The signatures of an image that a desk reads, in their order.
/** @param {Uint8Array} bytes */
export function signaturesOf(bytes) {
    /** @type {Signature[]} */
    const found = [];
    try {
        for (const { kind, body } of entries(bytes)) {
            found.push(kind === PKCS7 ? signature(body) : unread('of another type than PKCS #7'));
        }
    } catch {
        found.push(unread('not whole'));
    }
    return found;
}

// The type and the body of each entry of the table.
/** @param {Uint8Array} bytes */
function* entries(bytes) {
    const numbers = new DataView(bytes.buffer, bytes.byteOffset, bytes.byteLength);
    const optional = numbers.getUint32(0x3c, true) + 24;
    // (the data directories are 16 bytes further behind the optional header's beginning in PE32+)
    const directories = optional + (numbers.getUint16(optional, true) === 0x20b ? 112 : 96);
    if (numbers.getUint32(directories - 4, true) < 5) return;
    const size = numbers.getUint32(directories + 36, true);
    let at = size > 0 ? numbers.getUint32(directories + 32, true) : bytes.length;
    const end = size > 0 ? at + size : at;
    while (at < end) {
        const length = numbers.getUint32(at, true);
        if (length < 8 || at + length > end) throw new RangeError('an entry passes the end');
        yield { kind: numbers.getUint16(at + 6, true), body: bytes.subarray(at + 8, at + length) };
        at += Math.ceil(length / 8) * 8;
    }
}

// The SignedData of an entry.
/** @param {Uint8Array} body */
function signature(body) {
    const [, content] = within(element(body));
    const [, , inner, ...more] = content ? within(element(content.content)) : [];
    if (!inner || more.length === 0) return unread('not readable');
    const carried = more.filter(({ tag }) => tag === 0xa0).flatMap(within);
    const certificates = carried.map(({ whole }) => whole).filter(isCertificate).map(certificateOf);
    const signers = within(more[more.length - 1]).map((info) => signer(info, certificates));
    return { ...digestOf(inner), signers, certificates, fault: '' };
}

// The DigestInfo of an SpcIndirectDataContent.
/** @param {import('./der.js').Element} inner */
function digestOf(inner) {
    const [type, content] = within(inner);
    if (identifier(type) !== INDIRECT_DATA || !content) return { algorithm: '', digest: '' };
    const [, info] = within(element(content.content));
    const [algorithm, digest] = within(info);
    if (!digest) return { algorithm: '', digest: '' };
    const name = ALGORITHMS[identifier(within(algorithm)[0])] ?? 'another algorithm';
    return { algorithm: name, digest: hex(digest.content) };
}

// A SignerInfo's IssuerAndSerialNumber, and the carried certificate that it names.
/** @param {import('./der.js').Element} info @param {Certificate[]} carried @returns {Signer} */
function signer(info, carried) {
    const [issuer, serial] = within(within(info)[1]);
    const by = issuer ? hex(issuer.whole) : '';
    const number = serial ? hex(serial.content) : '';
    const certificate = carried.find((one) => one.by === by && one.serial === number);
    return { issuer: by, serial: number, issuedBy: nameOf(issuer), certificate };
}

/** @param {Signature} one @param {Digests} image */
export function signatureWords({ fault, signers, algorithm, digest }, image) {
    if (fault) return fault;
    const by = signers.map(signerWords).join('; ') || 'by nobody';
    const holds = algorithm === 'SHA-256' ? `; it holds ${digestWords(digest, image)}` : '';
    return `over ${algorithm || 'a digest that is not readable'}, ${by}${holds}`;
}

/** @param {Signer} one */
export function signerWords({ certificate, issuedBy }) {
    const signer = certificate ? certificate.subject : 'a signer that it doesn’t carry';
    return `by ${signer}, issued by ${issuedBy}`;
}

// Which of the image's digests a digest is.
/** @param {string} digest @param {Digests} image */
function digestWords(digest, image) {
    if (digest !== image.digest && digest !== image.signing) return 'the digest of other bytes';
    if (image.digest === image.signing) return 'the image’s digest';
    return digest === image.digest ? 'the image’s digest, unpadded' : 'the image’s digest, padded';
}

// What a revocation by SHA-256 doesn't reach in firmware, or ''.
/** @param {Signature[]} signatures */
export function algorithmDoubt(signatures) {
    const others = signatures.flatMap(({ algorithm }, at) => (
        ['', 'SHA-256'].includes(algorithm) ? [] : [`signature ${at + 1} (over ${algorithm})`]
    ));
    return others.length === 0 ? '' : 'Firmware holds a signature against digests of its own '
        + `algorithm: a revocation by SHA-256 misses ${others.join(', ')}. `
        + 'shim takes signatures over SHA-256 alone.';
}

// The names of whoever issued the signers' certificates, and of their issuers as far as the image
// carries these; none of who issued their own.
/** @param {Signature[]} signatures */
export function issuerNames(signatures) {
    const carried = signatures.flatMap((one) => one.certificates).filter(({ of, by }) => of !== by);
    const signers = signatures.flatMap((one) => one.signers);
    const names = signers.filter(({ certificate, issuer }) => certificate?.of !== issuer)
        .map(({ issuer }) => issuer);
    for (const name of names) {
        const next = carried.filter(({ of, by }) => of === name && !names.includes(by));
        names.push(...next.map(({ by }) => by));
    }
    return names;
}
