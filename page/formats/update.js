// What stands before signature lists: the attributes of a variable, in a file of efivarfs, and the
// head of an authenticated update (EFI_VARIABLE_AUTHENTICATION_2 of UEFI 2.10, 8.2.2). Nobody
// checks its signature here.

import { beginsList, guid } from './siglists.js';
import { wire } from './wire.js';
import { counted } from './words.js';

/** Where an update's WIN_CERTIFICATE_UEFI_GUID begins, behind its EFI_TIME. */
const CERTIFICATE = 16;
/** Where it ends without its signature. */
const HEAD = 40;
/** EFI_VARIABLE_NON_VOLATILE and the six bits above it. */
const ATTRIBUTES = 0x7f;

/** @param {Uint8Array} bytes */
export function isVariable(bytes) {
    const attributes = bytes.length >= 4 ? numbersOf(bytes).getUint32(0, true) : 0;
    return attributes > 0 && attributes <= ATTRIBUTES;
}

export const VARIABLE = 'the attributes of a variable, as efivarfs gives it';

/** @param {Uint8Array} bytes */
const numbersOf = (bytes) => new DataView(bytes.buffer, bytes.byteOffset, bytes.byteLength);

/**
 * The bytes behind what stands before the lists, and what that was; or why an update's head is
 * none.
 * @param {Uint8Array} bytes
 * @returns {{ body: Uint8Array, before: string[] } | { fault: string }}
 */
export function unwrapped(bytes) {
    /** @type {string[]} */
    const before = [];
    let body = bytes;
    const skip = (/** @type {number} */ length, /** @type {string} */ what) => {
        const are = length === 1 ? 'is' : 'are';
        before.push(`${counted(length, 'byte')} before the lists ${are} left out: ${what}.`);
        body = body.subarray(length);
    };
    if (isVariable(body)) skip(4, VARIABLE);
    const day = dayOf(body);
    if (beginsList(body) || !(isCertificate(body) || day)) return { body, before };
    const fault = headFault(body);
    if (fault) return { fault };
    const dated = day ? `of ${day}` : 'without a date';
    const head = `the head of an authenticated update ${dated}; nobody checks its signature here`;
    skip(CERTIFICATE + numbersOf(body).getUint32(CERTIFICATE, true), head);
    return { body, before };
}

// Whether an update's certificate stands where its time ends: that time may be all zeros.
/** @param {Uint8Array} bytes */
function isCertificate(bytes) {
    const pkcs7 = wire.lists.types.find(({ name }) => name === 'pkcs7');
    return bytes.length >= HEAD
        && numbersOf(bytes).getUint16(CERTIFICATE + 6, true) === 0x0ef1
        && guid(bytes, CERTIFICATE + 8) === pkcs7?.guid;
}

/** @param {Uint8Array} bytes what is wrong with an update's head, or '' */
function headFault(bytes) {
    if (bytes.length < HEAD) {
        const head = `The head of an authenticated update has ${HEAD} bytes`;
        return `${head}, and the file ends before that.`;
    }
    const length = numbersOf(bytes).getUint32(CERTIFICATE, true);
    if (!isCertificate(bytes) || numbersOf(bytes).getUint16(CERTIFICATE + 4, true) !== 0x0200) {
        return 'It begins with a time, as an authenticated update does, '
            + 'but no certificate of PKCS #7 follows.';
    }
    if (length < HEAD - CERTIFICATE || CERTIFICATE + length > bytes.length) {
        const bytes = counted(length, 'byte');
        return `It is an authenticated update whose signature would have ${bytes}.`;
    }
    return '';
}

// The day of an EFI_TIME, or '' if the bytes are none.
/** @param {Uint8Array} bytes */
function dayOf(bytes) {
    if (bytes.length < 16) return '';
    const year = numbersOf(bytes).getUint16(0, true);
    const [month, day, hour, minute, second] = bytes.subarray(2, 7);
    const isYear = year >= 1900 && year <= 9999;
    const isDay = month >= 1 && month <= 12 && day >= 1 && day <= 31;
    if (!isYear || !isDay || hour > 23 || minute > 59 || second > 59) return '';
    return [year, month, day].map((part) => String(part).padStart(2, '0')).join('-');
}
