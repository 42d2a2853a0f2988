// What is said of a file that is no list of revocations, by its first bytes and by its name.

import { givenOf } from './certificates.js';
import { hex } from './digests.js';
import { wire } from './wire.js';
import { filled } from './words.js';

/** How certificates of the machine's owner are named: MOK-0001.der of mokutil, KEK.pem, PK.cer. */
const KEYS = /(?:^|[^a-z])(mok|kek|pk)(?![a-z])/i;

/** @param {string} text its first letter as a sentence's */
export const sentence = (text) => `${text[0].toUpperCase()}${text.slice(1)}.`;

// What is said of a certificate's file, and what to do with it.
/** @param {Uint8Array} der @param {string} name */
export function certificateFault(der, name) {
    const { brought } = wire.words;
    const said = sentence(filled(brought.certificate, { subject: givenOf('', der).whose }));
    const key = KEYS.exec(name)?.[1].toLowerCase();
    const words = key ? ` ${brought[key === 'mok' ? 'mok' : 'kek']}` : '';
    const step = 'To propose that it is revoked, choose it at “A certificate”.';
    return key && key !== 'mok' ? `${said}${words}` : `${said}${words} ${step}`;
}

// What a file seems to be, by its first bytes.
/** @param {Uint8Array} bytes */
export function looksLike(bytes) {
    const begin = hex(bytes.subarray(0, 32));
    const [, words] = wire.words.looks.find(([first]) => begin.startsWith(first)) ?? [];
    return words ?? 'of no kind that is known here';
}

// Whether it is text in UTF-16, by its mark or by every other byte of its first eight characters.
/** @param {Uint8Array} bytes */
export function isUtf16(bytes) {
    const [first, second] = bytes;
    if ((first === 0xff && second === 0xfe) || (first === 0xfe && second === 0xff)) return true;
    const begin = [...bytes.subarray(0, 16)];
    const isText = (/** @type {number} */ zero) => begin.every(
        (byte, at) => (at % 2 === zero ? byte === 0 : byte >= 0x20 && byte < 0x7f),
    );
    return begin.length === 16 && (isText(0) || isText(1));
}
