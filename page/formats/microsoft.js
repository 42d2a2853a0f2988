// Images by their Authenticode hashes and architectures: what Microsoft publishes of its
// revocations (dbx_info_msft of secureboot_objects), as JSON and as a table, and Debian's
// debian-dbx.hashes. Hashes of whole files, versions of boot programs and certificates, of which
// Microsoft has thumbprints alone, are left out: as digests they would bar nothing.

import { isVersionDigest } from './siglists.js';
import { wire } from './wire.js';
import { joined } from './words.js';

/**
 * What a list names, and how many entries are left out, by why: `svn`, `flat`, `certificate`, or
 * `other` for those without a SHA-256. `arches` are the architectures that it has.
 * @typedef {{ digests: Set<string>, aside: Map<string, number>, arches: Set<string> }} Images
 * @typedef {Record<string, string>} Said
 * what is said of an image, by names without spaces, signs and capitals
 */

/** @param {string} name */
const plainly = (name) => name.toLowerCase().replace(/[^a-z0-9]/g, '');

/** @param {string} text */
const isHash = (text) => /^[0-9a-fA-F]{64}$/.test(text.trim());

// Some of what is said, by a part of its name.
/** @param {Said} said @param {string} part */
const some = (said, part) => Object.keys(said).filter((name) => name.includes(part))
    .map((name) => said[name]);

/** @param {Images} found @param {string} why @param {number} [count] */
function leave(found, why, count = 1) {
    if (count > 0) found.aside.set(why, (found.aside.get(why) ?? 0) + count);
}

// Takes an image's Authenticode hash, or leaves it out.
/** @param {Images} found @param {Said} said @param {string} arch */
function take(found, said, arch) {
    const flat = some(said, 'flat').some(isHash);
    const isSha256 = plainly(said.hashtype || 'SHA256') === 'sha256';
    const hash = some(said, 'authenticode').find((text) => isSha256 && isHash(text));
    const named = arch.trim().toLowerCase();
    if (named) found.arches.add(wire.words.arches[named] ?? named);
    if (!hash) return leave(found, flat ? 'flat' : 'other');
    const digest = hash.trim().toLowerCase();
    if (isVersionDigest(digest)) return leave(found, 'svn');
    found.digests.add(digest);
    return leave(found, 'flat', flat ? 1 : 0);
}

/** @returns {Images} */
const none = () => ({ digests: new Set(), aside: new Map(), arches: new Set() });

// The members of an object that are texts.
/** @param {object} entry @returns {Said} */
function saidOf(entry) {
    const texts = Object.entries(entry).filter(([, text]) => typeof text === 'string');
    return Object.fromEntries(texts.map(([name, text]) => [plainly(name), text]));
}

/** @param {any} value @returns {any[]} */
const listOf = (value) => (Array.isArray(value) ? value : []);

// The images of the JSON; null if it is cut, or names no image by its hash.
/** @param {string} text @returns {Images | null} */
export function imagesOfJson(text) {
    let value;
    try {
        value = JSON.parse(text);
    } catch {
        return null;
    }
    const images = Array.isArray(value) ? value : value.images;
    const groups = Array.isArray(images) ? [['', images]] : Object.entries(images ?? {});
    const all = groups.flatMap(([arch, entries]) => (
        listOf(entries).map((entry) => ({ arch: String(arch), said: saidOf(entry ?? {}) }))
    ));
    const names = all.flatMap(({ said }) => Object.keys(said));
    if (!names.some((name) => /authenticode|flat/.test(name))) return null;
    const found = none();
    for (const { arch, said } of all) {
        take(found, said, arch || said.architecture || said.arch || '');
    }
    leave(found, 'certificate', listOf(value.certificates).length);
    leave(found, 'svn', listOf(value.svns).length);
    return found;
}

// The images of a table; null if its first record names no Authenticode hash.
/** @param {string[][]} records @returns {Images | null} */
export function imagesOfTable([head = [], ...records]) {
    const names = head.map(plainly);
    if (!names.some((name) => name.includes('authenticode'))) return null;
    const found = none();
    for (const record of records) {
        const said = Object.fromEntries(names.map((name, at) => [name, record[at] ?? '']));
        take(found, said, some(said, 'arch')[0] ?? '');
    }
    return found;
}

/** A line of a digest and its image's architecture. */
const HASH_LINE = /^([0-9A-Fa-f]{64})[ \t]+(\w+)\s*$/;

/** @param {string} name */
const isArch = (name) => Object.keys(wire.words.arches).includes(name.toLowerCase());

// The images of lines of digests with their architectures, or the line that is none; null where the
// first that is no comment is no such line.
/** @param {string} text @returns {Images | { line: number } | null} */
export function imagesOfHashes(text) {
    const found = none();
    for (const [at, line] of text.split('\n').entries()) {
        const [, hash, arch = ''] = HASH_LINE.exec(line) ?? [];
        if (isArch(arch)) take(found, { authenticode: hash }, arch);
        else if (line.trim() !== '' && !line.startsWith('#')) {
            return found.arches.size > 0 ? { line: at + 1 } : null;
        }
    }
    return found.arches.size > 0 ? found : null;
}

/** @param {Images} images */
export function archWords({ arches }) {
    return arches.size > 0
        ? `Images of ${joined([...arches].sort())}; all of them are taken.`
        : 'It names no architecture.';
}
