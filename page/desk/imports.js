// A look into a file before it is imported: what kind it is, what is in it, what of that is new.

import { allowDoubts } from './allowing.js';
import { levelLines } from './beside.js';
import { itemDoubts } from './doubts.js';
import { known } from './known.js';
import { revocationsOf } from '../formats/revocations.js';
import { higher } from '../formats/sbat.js';
import { wire } from '../formats/wire.js';
import { counted, grouped } from '../formats/words.js';

/**
 * @typedef {import('./doubts.js').Known} Known
 * @typedef {import('../formats/revocations.js').Revocations} Revocations
 * @typedef {{ kind: string, path: string, body: Uint8Array, lines: string[],
 *   named: import('./proposals.js').Named,
 *   doubts: import('./doubts.js').Doubt[], asksStamp: boolean, raises: boolean,
 *   present: number, fault: string }} Look
 * `named` is what a proposal of it would name that isn't reached yet, `lines` what is in it,
 * `asksStamp` whether a stamp goes beside it, `present` the level's own, `fault` why it can't be
 * imported
 */

/** @type {Record<string, string>} */
const KINDS = {
    lists: 'Signature lists',
    csv: 'CSV',
    level: 'A level’s text',
    microsoft: 'Microsoft’s list',
    hashes: 'Digests with architectures',
};

/** So many certificates, and so many generations, are told one by one. */
const SHOWN = 20;

const NOTHING_NEW = 'Nothing in it is new: a Confirm would change nothing.';

/** @type {Record<string, [one: string, many: string, why: string]>} what is left out, and why */
const ASIDE = {
    svn: [
        'version of Windows’ boot programs (SVN)',
        'versions of Windows’ boot programs (SVN)',
        'Such an entry looks like a digest, and names no image.',
    ],
    flat: ['hash of a whole file', 'hashes of whole files', 'A whole file’s hash bars nothing.'],
    certificate: [
        'certificate',
        'certificates',
        'The list has no SHA-256 of a TBSCertificate: propose each by its file.',
    ],
    other: ['image without a SHA-256', 'images without a SHA-256', ''],
};

/**
 * @param {Uint8Array} bytes @param {string} name the file's
 * @returns {Promise<import('./types.js').Answer<Look>>}
 */
export async function look(bytes, name) {
    const found = await revocationsOf(bytes, name);
    const all = await known(found);
    return 'kind' in all ? all : { kind: 'value', value: lookOf(found, all, name) };
}

/** @param {Revocations} found @param {Known} all @param {string} [name] @returns {Look} */
export function lookOf(found, all, name = '') {
    const { path, body } = found;
    const none = found.refused === 'empty' ? 'Empty' : 'It can’t be imported';
    const { lines, fresh, raises } = news(found, all.now);
    const doubts = found.fault ? [] : itemDoubts(found, all);
    if (!found.fault) doubts.push(...allowDoubts(name, found, all.now));
    if (!found.fault && !fresh) doubts.push({ text: NOTHING_NEW });
    return {
        kind: KINDS[found.kind] ?? none,
        path,
        body,
        lines: [...found.notes, ...lines, ...losses(found)],
        named: { ...found, components: higher(found.components, all.now.level) },
        doubts,
        asksStamp: found.kind === 'csv' && found.components.size > 0,
        raises,
        present: all.now.level.stamp,
        fault: found.fault || tooMuch(found),
    };
}

// What the file names, and how much of it is new.
/** @param {Revocations} found @param {import('./standing.js').Standing} now */
function news({ digests, certificates, components, stamp, given }, { revoked, level }) {
    const others = (/** @type {Set<string>} */ all, /** @type {Set<string>} */ known) => (
        [...all].filter((one) => !known.has(one)).length
    );
    const images = others(digests, revoked.digests);
    const signers = others(certificates, revoked.certificates);
    const raised = higher(components, level);
    const lines = stamp === null ? [] : levelLines({ stamp, names: components }, level);
    /** @type {(name: string, all: number, some: number, what: string) => void} */
    const count = (name, all, some, what) => {
        if (all > 0) lines.push(`${counted(all, name)}, ${part(all, some)} ${what}.`);
    };
    const more = (/** @type {number} */ all) => {
        if (all > SHOWN) lines.push(`And ${grouped(all - SHOWN)} more.`);
    };
    count('digest', digests.size, images, 'new');
    count('certificate', certificates.size, signers, 'new');
    for (const { whose, authority } of [...given.values()].slice(0, SHOWN)) {
        lines.push(`Certificate: ${whose}${authority ? ', a CA’s' : ''}.`);
    }
    more(given.size);
    count('generation', components.size, raised.length, 'above the present level');
    for (const [name, generation] of raised.slice(0, SHOWN)) {
        lines.push(`${name} from ${level.names.get(name) ?? 'none'} to ${generation}.`);
    }
    more(raised.length);
    return { lines, fresh: images + signers + raised.length > 0, raises: raised.length > 0 };
}

// Why the desk doesn't take so much at once, or ''.
/** @param {Revocations} found */
function tooMuch({ count, body }) {
    const parts = 'deskctl sends it in parts.';
    const entries = counted(count, 'entry', 'entries');
    const { limits } = wire;
    const atOnce = `the desk takes ${grouped(limits.entries)} at once`;
    if (count > limits.entries) return `It has ${entries}, and ${atOnce}. ${parts}`;
    if (body.length <= limits.body) return '';
    return `It has more than the ${limits.body / 1048576} MiB that the desk takes. ${parts}`;
}

/** @param {number} all @param {number} some */
function part(all, some) {
    if (all === 1) return some === 1 ? 'which is' : 'which isn’t';
    if (some === 0) return 'none of them';
    return some === all ? 'all of them' : `${grouped(some)} of them`;
}

// What of signature lists isn't sent, or the desk doesn't keep.
/** @param {Revocations} found */
function losses({ aside, skipped, timed, owners }) {
    const lines = [...aside].map(([why, count]) => {
        const [one, many, text] = ASIDE[why];
        return `Left out: ${counted(count, one, many)}. ${text}`;
    });
    for (const [kind, count] of skipped) {
        lines.push(`Skipped by the desk: ${counted(count, 'entry', 'entries')} of type ${kind}.`);
    }
    if (timed > 0) {
        const those = `With a time of revocation: ${counted(timed, 'certificate')}.`;
        lines.push(`${those} The desk revokes them whenever they signed.`);
    }
    const all = [...owners];
    if (all.length > 0) {
        const some = `${all.slice(0, 3).join(', ')}${all.length > 3 ? ', …' : ''}`;
        const count = counted(all.length, 'owner');
        lines.push(`${count} (${some}); the desk writes its own in their place.`);
    }
    return lines;
}
