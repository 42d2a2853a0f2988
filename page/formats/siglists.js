// EFI signature lists, as UEFI 2.10 has them in 32.4.1: read for people to look at, and made again
// without the entries that name no image. What counts is what the desk reads; this page decides
// nothing.

import { bytesOf, hex } from './digests.js';
import { wire } from './wire.js';

/**
 * An entry, whole and in its parts.
 * @typedef {{ kind: string, owner: string, body: Uint8Array, whole: Uint8Array }} Entry
 * kind: a type's name in page/wire/lists.json, or the GUID of another type
 * @typedef {{ kind: string, head: Uint8Array, entries: Entry[] }} List
 * head: all that stands before the entries
 */

/** @param {Uint8Array} bytes @param {number} at */
export function guid(bytes, at) {
    const parts = [[3, 2, 1, 0], [5, 4], [7, 6], [8, 9], [10, 11, 12, 13, 14, 15]];
    return parts.map((part) => hex(Uint8Array.from(part, (place) => bytes[at + place]))).join('-');
}

/** @param {string} of a GUID */
const typeOf = (of) => wire.lists.types.find((type) => type.guid === of);

// Whether a signature list of a type with a name begins here.
/** @param {Uint8Array} bytes */
export function beginsList(bytes) {
    return bytes.length >= 16 && typeOf(guid(bytes, 0)) !== undefined;
}

// The list that begins at a place, and where it ends; null if none does.
/** @param {Uint8Array} bytes @param {number} at @returns {{ list: List, end: number } | null} */
function listAt(bytes, at) {
    const numbers = new DataView(bytes.buffer, bytes.byteOffset, bytes.byteLength);
    if (bytes.length - at < 28) return null;
    const [total, header, size] = [16, 20, 24].map((place) => numbers.getUint32(at + place, true));
    const end = at + total;
    const room = total - 28 - header;
    if (room < 0 || end > bytes.length || size < 16 || room % size !== 0) return null;
    const type = typeOf(guid(bytes, at));
    const [least, most] = type?.entry ?? [16, null];
    if (size < least || size > (most ?? Infinity) || (type?.entry && header > 0)) return null;
    const kind = type?.name ?? guid(bytes, at);
    const begin = at + 28 + header;
    /** @type {Entry[]} */
    const entries = [];
    for (let from = begin; from < end; from += size) {
        const whole = bytes.subarray(from, from + size);
        entries.push({ kind, owner: guid(whole, 0), body: whole.subarray(16), whole });
    }
    return { list: { kind, head: bytes.subarray(at, begin), entries }, end };
}

// The signature lists that fill the bytes, in order, or where there is none.
/** @param {Uint8Array} bytes @returns {{ lists: List[] } | { wrongAt: number }} */
export function listsOf(bytes) {
    /** @type {List[]} */
    const lists = [];
    for (let at = 0; at < bytes.length;) {
        const read = listAt(bytes, at);
        if (!read) return { wrongAt: at };
        lists.push(read.list);
        at = read.end;
    }
    return { lists };
}

// The entries of signature lists, in order; none where one of them isn't whole.
/** @param {Uint8Array} bytes */
export function entriesOf(bytes) {
    const read = listsOf(bytes);
    return 'lists' in read ? read.lists.flatMap((list) => list.entries) : [];
}

// Lists with these entries of theirs alone; a list without one goes.
/** @param {List[]} lists @param {(entry: Entry) => boolean} isKept */
export function listBytes(lists, isKept) {
    const parts = lists.flatMap(({ head, entries }) => {
        const some = entries.filter(isKept).map((entry) => entry.whole);
        if (some.length === 0) return [];
        const own = head.slice();
        const length = some.reduce((sum, one) => sum + one.length, own.length);
        new DataView(own.buffer).setUint32(16, length, true);
        return [own, ...some];
    });
    const whole = new Uint8Array(parts.reduce((sum, one) => sum + one.length, 0));
    let at = 0;
    for (const one of parts) {
        whole.set(one, at);
        at += one.length;
    }
    return whole;
}

// Whether an entry is the version of a boot program.
/** @param {Entry} entry */
export function isVersion(entry) {
    return entry.kind === 'sha256'
        && (entry.owner === wire.lists.owners.versions || isVersionDigest(digestIn(entry)));
}

// Whether a digest has the form of a version of one of Windows' boot programs (SVN): 01, the
// program's GUID, the version and zeros.
/** @param {string} digest in lower case */
export function isVersionDigest(digest) {
    return /^01[0-9a-f]{40}0{22}$/.test(digest)
        && Object.values(wire.lists.versions).includes(guid(bytesOf(digest), 1));
}

// The digest in an entry of kind sha256 or x509_sha256.
/** @param {Entry} entry */
export function digestIn(entry) {
    return hex(entry.body.subarray(0, 32));
}

/** @param {Entry} entry */
export function hasTime(entry) {
    return entry.kind === 'x509_sha256' && entry.body.subarray(32, 48).some((byte) => byte !== 0);
}
