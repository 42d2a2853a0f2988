// The one certificate of a file, in DER or PEM.

import { isCertificate } from './certificates.js';

const CERTIFICATE =
    /-----BEGIN ((?:TRUSTED |X509 )?CERTIFICATE)-----([A-Za-z0-9+/=\s]*)-----END \1-----/g;
// What no text has.
const CONTROL = /[\0-\x08\x0e-\x1f\x7f]/;
const KEY = 'It holds a private key. Nothing of it was sent. Choose the certificate alone.';
const NOT = 'It isn’t a certificate: a request, a key, a CRL and a bundle have other forms.';

/**
 * Its DER, which is the file itself, or stands in it in PEM behind text; or why there is none:
 * `refused` in a word, `fault` in a sentence.
 * @param {Uint8Array} bytes
 * @returns {{ der: Uint8Array } | { refused: 'two' | 'key' | 'not', fault: string }}
 */
export function certificateIn(bytes) {
    const text = new TextDecoder('latin1').decode(bytes);
    if (text.includes('PRIVATE KEY-----')) return { refused: 'key', fault: KEY };
    if (isCertificate(bytes)) return { der: bytes };
    if (CONTROL.test(text.split('-----BEGIN', 1)[0])) return { refused: 'not', fault: NOT };
    const found = [...text.matchAll(CERTIFICATE)];
    if (found.length > 1) {
        const count = `It holds ${found.length} certificates, and one is taken at a time.`;
        return { refused: 'two', fault: `${count} Choose a file of one.` };
    }
    const der = found.length === 1 ? decoded(found[0][2]) : null;
    return der && isCertificate(der) ? { der } : { refused: 'not', fault: NOT };
}

// The certificate that a file is, or the first of those in PEM; null where there is none.
/** @param {Uint8Array} bytes */
export function firstCertificate(bytes) {
    if (isCertificate(bytes)) return bytes;
    const [found] = new TextDecoder('latin1').decode(bytes).matchAll(CERTIFICATE);
    const der = found ? decoded(found[2]) : null;
    return der && isCertificate(der) ? der : null;
}

/** @param {string} text in base64 */
function decoded(text) {
    try {
        return Uint8Array.from(atob(text.replace(/\s/g, '')), (one) => one.charCodeAt(0));
    } catch {
        return null;
    }
}
