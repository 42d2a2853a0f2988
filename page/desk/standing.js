// What stands now: the lists and the level, read from the desk's own exports and parsed here.

import { get } from './api.js';
import { namesIn, subjectOf } from '../formats/certificates.js';
import { tbsOf } from '../formats/der.js';
import { sha256 } from '../formats/digests.js';
import { levelOf } from '../formats/sbat.js';
import { digestIn, entriesOf } from '../formats/siglists.js';

/**
 * @typedef {{ tbs: string, subject: string, of: string, by: string, issuer: string,
 *   fingerprint: string }} Listed
 * `subject` is its common name, `issuer` whose its issuer is, `of` and `by` are the two names in
 * DER, in hexadecimal digits
 * @typedef {{ digests: Set<string>, certificates: Map<string, Listed> }} Allowed
 * @typedef {{ digests: Set<string>, certificates: Set<string> }} Revoked
 * @typedef {{ listed: Allowed, revoked: Revoked, level: import('../formats/sbat.js').Level,
 *   bytes: { db: number, dbx: number }, owners: Set<string>, bodies: Uint8Array[] }} Standing
 * `bodies` has the listed certificates as they are, `owners` those of the lists' entries
 * @typedef {import('./types.js').Answer<Standing>} Answer
 */

/** How long what was read is taken as it was, in milliseconds. */
const FRESH = 20000;

/** @type {{ at: number, value: Standing } | null} */
let kept = null;

/** Grows as `changed` is called: what was asked for before that isn't kept. */
let turn = 0;

// Forgets what was read: a command of this page may have changed it, or its reader signs out.
export function changed() {
    kept = null;
    turn += 1;
}

/** @type {Answer} where certificates can't be named, since no SHA-256 can be worked out */
const NO_HASHING = { kind: 'refused', status: 0, name: 'NoHashing', number: 0, byDesk: false };

/** @returns {Promise<Answer>} */
export async function standing() {
    if (!crypto.subtle) return NO_HASHING;
    if (kept && Date.now() - kept.at < FRESH) return { kind: 'value', value: kept.value };
    const [at, mine] = [Date.now(), turn];
    const [level, db, dbx] = await Promise.all(
        [get('/level', 'text'), get('/db', 'bytes'), get('/dbx', 'bytes')],
    );
    if (level.kind !== 'value') return level;
    if (db.kind !== 'value') return db;
    if (dbx.kind !== 'value') return dbx;
    const value = {
        level: levelOf(level.value),
        listed: await listedOf(db.value),
        revoked: revokedOf(dbx.value),
        bytes: { db: db.value.length, dbx: dbx.value.length },
        owners: new Set([db, dbx].flatMap((one) => entriesOf(one.value).map(({ owner }) => owner))),
        bodies: entriesOf(db.value).filter(({ kind }) => kind === 'x509').map(({ body }) => body),
    };
    if (mine === turn) kept = { at, value };
    return { kind: 'value', value };
}

/** @param {Uint8Array} db */
async function listedOf(db) {
    /** @type {Allowed} */
    const { digests, certificates } = { digests: new Set(), certificates: new Map() };
    for (const entry of entriesOf(db)) {
        if (entry.kind === 'sha256') digests.add(digestIn(entry));
        const tbs = entry.kind === 'x509' ? tbsOf(entry.body) : null;
        if (!tbs) continue;
        const [name, fingerprint] = [await sha256(tbs), await sha256(entry.body)];
        const subject = subjectOf(tbs);
        certificates.set(name, { tbs: name, subject, ...namesIn(tbs), fingerprint });
    }
    return { digests, certificates };
}

/** @param {Uint8Array} dbx */
function revokedOf(dbx) {
    /** @type {Revoked} */
    const { digests, certificates } = { digests: new Set(), certificates: new Set() };
    for (const entry of entriesOf(dbx)) {
        (entry.kind === 'sha256' ? digests : certificates).add(digestIn(entry));
    }
    return { digests, certificates };
}

/**
 * Why an image with these facts is barred today, or null: the rules of a verdict but for the lists.
 * @param {Standing} now
 * @param {import('./types.js').Facts} facts
 * @returns {import('./types.js').Verdict | null}
 */
export function barredBy({ revoked, level: { names } }, { digest, signing, carried, components }) {
    const isRevoked = revoked.digests.has(digest) || revoked.digests.has(signing);
    if (isRevoked) return { verdict: 'dbx-digest' };
    if (carried.some((one) => revoked.certificates.has(one))) return { verdict: 'dbx-certificate' };
    const low = components.find(([name, generation]) => generation < (names.get(name) ?? 0));
    if (!low) return null;
    const [component, generation] = low;
    return { verdict: 'sbat', component, generation, level: names.get(component) };
}

// A certificate's name in a sentence: the common name, or the first 8 digits of its SHA-256.
/** @param {{ tbs: string, subject: string }} one */
export const called = ({ tbs, subject }) => subject || tbs.slice(0, 8);
