// What a file of revocations names, by its bytes alone: signature lists, with or without what
// stands before them; the desk's CSV; a level's text; digests by Microsoft and Debian. The desk
// reads what is sent again, and its reading is what counts.

import { certificateFault, isUtf16, looksLike, sentence } from './brought.js';
import { givenOf, isCertificate } from './certificates.js';
import { isRecord, recordsOf } from './csv.js';
import { tbsOf } from './der.js';
import { sha256 } from './digests.js';
import { archWords, imagesOfHashes, imagesOfJson, imagesOfTable } from './microsoft.js';
import { firstCertificate } from './pem.js';
import { greatest, isLevel, levelHeld, levelOf, looksLikeLevel, several, textOf } from './sbat.js';
import { beginsList, digestIn, hasTime, isVersion, listBytes, listsOf } from './siglists.js';
import { unwrapped } from './update.js';
import { wire } from './wire.js';
import { filled } from './words.js';

/**
 * @typedef {{ kind: string, path: string, body: Uint8Array, digests: Set<string>,
 *   certificates: Set<string>, components: Map<string, number>, stamp: number | null,
 *   count: number, aside: Map<string, number>, skipped: Map<string, number>, timed: number,
 *   owners: Set<string>, given: Map<string, import('./certificates.js').Given>, notes: string[],
 *   refused: string, fault: string }} Revocations
 * kind: `lists`, `csv`, `level`, `microsoft` or `hashes`; `path` and `body` are what is sent;
 * `stamp` is a level's. `count` is of all entries that are sent, `skipped` of those that the desk
 * skips, by their kind, `aside` of those that are left out here, by why. `timed` have a time of
 * revocation, `given` are certificates that stand in it whole.
 * `notes` say what stood before lists, and what else there is to say. `refused` says in a word why
 * it can't be imported, `fault` in a sentence; both are empty if it can.
 */

const TAKES = 'The page takes signature lists, the desk’s CSV, a level’s text, and lists of '
    + 'digests by Microsoft and by Debian.';
const HEADER = 'kind,value,generation';

// What a file of this name names; EF BB BF before a text is left out.
/** @param {Uint8Array} bytes @param {string} [name] @returns {Promise<Revocations>} */
export async function revocationsOf(bytes, name = '') {
    const plain = textOf(bytes.subarray(0, 3)) === 'ï»¿' ? bytes.subarray(3) : bytes;
    const text = textOf(plain.subarray(0, 4096));
    if (bytes.length === 0) return refused('empty', 'The file has no byte.');
    if (isUtf16(bytes)) {
        return refused('utf-16', 'It is text in UTF-16. Save it as UTF-8, or as plain CSV.');
    }
    if (/^kind,value,generation\r?\n/.test(text)) return whole(csv(plain));
    const held = levelHeld(bytes);
    if (held) return whole(level(held.text, held.notes));
    const levels = several(plain);
    if (levels) return refused('levels', levels);
    if (/^sbat,/.test(text)) return whole(level(plain));
    const table = text.includes('\0') ? null : tableOf(plain, text);
    const found = table ?? await lists(bytes);
    const der = found.refused === 'unknown' ? firstCertificate(bytes) : null;
    return der ? refused('certificate', certificateFault(der, name)) : whole(found);
}

// What the lines of a text name: Debian's digests, Microsoft's lists, a level without its first
// line; null if a text is none of these, nor like a table.
/** @param {Uint8Array} bytes @param {string} begin */
function tableOf(bytes, begin) {
    const text = new TextDecoder().decode(bytes);
    const hashes = imagesOfHashes(text);
    if (hashes && 'line' in hashes) {
        const line = String(hashes.line);
        return refused('hash', sentence(filled(wire.words.brought.hash, { line })));
    }
    if (hashes) return named(hashes, 'hashes');
    return microsoft(text, begin) ?? (looksLikeLevel(bytes) ? level(bytes) : null);
}

// What Microsoft's lists name; null if a text isn't one, nor like a table.
/** @param {string} text @param {string} begin */
function microsoft(text, begin) {
    if (/^\s*[[{]/.test(begin)) {
        const images = imagesOfJson(text);
        const { json, cabinet } = wire.words.brought;
        return images ? named(images) : refused('json', `${sentence(json)} ${cabinet}`);
    }
    const images = /^.*authenticode/i.test(begin) ? imagesOfTable(recordsOf(text) ?? []) : null;
    if (images) return named(images);
    const isTable = /^\W*kind\W+value\W+generation\W*$|authenticode|^(x509_)?sha256[,;\t]/im;
    if (!isTable.test(begin)) return null;
    const wanted = `its header, as ${HEADER}, with commas and nothing before it.`;
    return refused('header', `The first line of a table has to be ${wanted}`);
}

/** @param {import('./microsoft.js').Images} images @param {string} [kind] @returns {Revocations} */
function named(images, kind = 'microsoft') {
    const { digests, aside } = images;
    const rows = [...digests].map((digest) => `sha256,${digest},\n`);
    const body = new TextEncoder().encode(`${HEADER}\n${rows.join('')}`);
    const found = empty(kind, '/imports/csv', body);
    return { ...found, digests, aside, count: digests.size, notes: [archWords(images)] };
}

/** @param {string} kind @param {string} path @param {Uint8Array} body @returns {Revocations} */
function empty(kind, path, body) {
    return {
        kind,
        path,
        body,
        digests: new Set(),
        certificates: new Set(),
        components: new Map(),
        stamp: null,
        count: 0,
        aside: new Map(),
        skipped: new Map(),
        timed: 0,
        owners: new Set(),
        given: new Map(),
        notes: [],
        refused: '',
        fault: '',
    };
}

/** @param {string} why @param {string} fault */
function refused(why, fault) {
    return { ...empty('', '', new Uint8Array(0)), refused: why, fault };
}

// Refuses what names nothing.
/** @param {Revocations} found */
function whole(found) {
    const count = found.digests.size + found.certificates.size + found.components.size;
    if (found.refused !== '' || count > 0) return found;
    return { ...found, refused: 'nothing', fault: 'It names nothing that the desk takes.' };
}

/** @param {Uint8Array} bytes */
async function lists(bytes) {
    const inner = unwrapped(bytes);
    if ('fault' in inner) return refused('update', inner.fault);
    const read = listsOf(inner.body);
    if ('wrongAt' in read) {
        if (inner.before.length === 0 && !beginsList(bytes)) {
            return refused('unknown', `It is ${looksLike(bytes)}. ${TAKES}`);
        }
        const at = bytes.length - inner.body.length + read.wrongAt;
        return refused('list', `There is no whole signature list at byte ${at}.`);
    }
    const found = { ...empty('lists', '/imports/dbx', inner.body), notes: inner.before };
    for (const entry of read.lists.flatMap((list) => list.entries)) await take(entry, found);
    if (found.aside.size > 0) found.body = listBytes(read.lists, (entry) => !isVersion(entry));
    return found;
}

/** @param {import('./siglists.js').Entry} entry @param {Revocations} found */
async function take(entry, found) {
    if (isVersion(entry)) {
        found.aside.set('svn', (found.aside.get('svn') ?? 0) + 1);
        return;
    }
    found.count += 1;
    found.owners.add(entry.owner);
    if (hasTime(entry)) found.timed += 1;
    const tbs = entry.kind === 'x509' ? tbsOf(entry.body) : null;
    const name = tbs ? await sha256(tbs) : '';
    if (name && isCertificate(entry.body)) found.given.set(name, givenOf(name, entry.body));
    const skipped = entry.kind === 'x509' ? 'x509 that isn’t one certificate' : entry.kind;
    if (entry.kind === 'sha256') found.digests.add(digestIn(entry));
    else if (entry.kind === 'x509_sha256') found.certificates.add(digestIn(entry));
    else if (tbs) found.certificates.add(name);
    else found.skipped.set(skipped, (found.skipped.get(skipped) ?? 0) + 1);
}

/** @param {Uint8Array} bytes @returns {Revocations} */
function csv(bytes) {
    const records = recordsOf(textOf(bytes));
    if (!records) return refused('csv', 'A field of it isn’t whole: is a quotation mark missing?');
    const rows = records.slice(1);
    const odd = rows.findIndex((row) => !isRecord(row));
    if (odd >= 0) {
        const forms = 'sha256,HEX, or x509_sha256,HEX, or sbat,NAME,GENERATION';
        return refused('csv', `Record ${odd + 1} isn’t ${forms}.`);
    }
    const of = (/** @type {string} */ wanted) => rows.filter(([kind]) => kind === wanted);
    const values = (/** @type {string} */ wanted) => (
        new Set(of(wanted).map(([, value]) => value.toLowerCase()))
    );
    return {
        ...empty('csv', '/imports/csv', bytes),
        digests: values('sha256'),
        certificates: values('x509_sha256'),
        components: greatest(of('sbat').map(([, name, generation]) => [name, Number(generation)])),
        count: rows.length,
    };
}

/** @param {Uint8Array} bytes @param {string[]} [notes] @returns {Revocations} */
function level(bytes, notes = []) {
    const text = textOf(bytes).split('\0')[0];
    const { brought } = wire.words;
    if (!isLevel(text)) return refused('level', `${sentence(brought.level)} ${brought.stamp}`);
    const { names, stamp } = levelOf(text);
    const found = empty('level', '/imports/level', bytes);
    return { ...found, components: names, stamp, count: names.size, notes };
}
