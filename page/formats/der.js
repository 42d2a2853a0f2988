// The little DER that a look at certificates and signatures needs: elements, and the
// TBSCertificate, whose SHA-256 the desk names a certificate by.

/**
 * @typedef {{ tag: number, whole: Uint8Array, content: Uint8Array, rest: Uint8Array }} Element
 * `rest` is what follows it
 * @typedef {Element | null | undefined} MaybeElement
 */

// The element that begins a slice; null if none does.
/** @param {Uint8Array} bytes @returns {Element | null} */
export function element(bytes) {
    if (bytes.length < 2 || (bytes[0] & 0x1f) === 0x1f) return null;
    let length = bytes[1];
    let at = 2;
    if (length >= 0x80) {
        const more = length - 0x80;
        if (more < 1 || more > 4 || bytes.length < 2 + more) return null;
        length = bytes.subarray(2, 2 + more).reduce((sum, byte) => sum * 256 + byte, 0);
        at += more;
    }
    if (at + length > bytes.length) return null;
    return {
        tag: bytes[0],
        whole: bytes.subarray(0, at + length),
        content: bytes.subarray(at, at + length),
        rest: bytes.subarray(at + length),
    };
}

// The elements within one, in order; none where one of them isn't whole.
/** @param {MaybeElement} one */
export function within(one) {
    /** @type {Element[]} */
    const found = [];
    for (let rest = one?.content ?? new Uint8Array(); rest.length > 0;) {
        const next = element(rest);
        if (!next) return [];
        found.push(next);
        rest = next.rest;
    }
    return found;
}

// The number in dots of an OBJECT IDENTIFIER (X.690, 8.19), or ''.
/** @param {MaybeElement} one */
export function identifier(one) {
    if (!one || one.tag !== 0x06) return '';
    const arcs = [];
    let arc = 0;
    for (const byte of one.content) {
        arc = arc * 128 + (byte & 0x7f);
        if (byte >= 0x80) continue;
        arcs.push(arc);
        arc = 0;
    }
    const [first = 0, ...rest] = arcs;
    const root = Math.min(2, Math.floor(first / 40));
    return [root, first - 40 * root, ...rest].join('.');
}

// Whether an element's length is spelt in the fewest bytes, as DER has it.
/** @param {Element} one */
export function isShortest({ whole, content }) {
    const more = [0x80, 0x100, 0x10000, 0x1000000].filter((least) => content.length >= least);
    return whole.length - content.length === 2 + more.length;
}

// The TBSCertificate of what the desk takes for a certificate: a SEQUENCE that begins with one. All
// else in it may be anything. null if the bytes aren't that, and nothing more.
/** @param {Uint8Array} bytes */
export function tbsOf(bytes) {
    const certificate = element(bytes);
    if (!certificate || certificate.tag !== 0x30 || certificate.rest.length > 0) return null;
    const tbs = element(certificate.content);
    return tbs && tbs.tag === 0x30 ? tbs.whole : null;
}
