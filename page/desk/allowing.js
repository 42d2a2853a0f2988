// Whether a file of revocations looks like a list of what is allowed: db, or a MokList.

import { called } from './standing.js';
import { wire } from '../formats/wire.js';
import { filled, grouped, someOf } from '../formats/words.js';

/** @typedef {import('../formats/revocations.js').Revocations} Revocations */

/** How such a file is named: db.esl, MokListRT, KEK-8be4df61-.. of efivarfs; not dbx, MokListX. */
const NAMES = /(^|[^a-z])(db|kek|pk|moklist)(rt|default|update)?(?![a-z])/i;

// Whether every entry is a whole certificate.
/** @param {Revocations} found */
const isWhole = ({ given, certificates, digests, components, skipped }) => (
    given.size > 0 && given.size === certificates.size
    && digests.size + components.size + skipped.size === 0
);

/**
 * What makes a file of this name look so.
 * @param {string} name
 * @param {Revocations} found
 * @param {import('./standing.js').Standing} now
 * @returns {import('./doubts.js').Doubt[]}
 */
export function allowDoubts(name, found, { listed, revoked, owners }) {
    const asks = wire.questions.import;
    const entries = [...new Set([...found.digests, ...found.certificates])].sort();
    const allowed = entries.filter((one) => (
        listed.digests.has(one) || listed.certificates.has(one)
    ));
    const lacks = entries.filter((one) => (
        !revoked.digests.has(one) && !revoked.certificates.has(one)
    )).length;
    const texts = NAMES.test(name) ? [filled(asks.name, { name })] : [];
    if (isWhole(found)) texts.push(asks.whole);
    const isOwn = found.owners.size > 0 && [...found.owners].every((one) => owners.has(one));
    if (isOwn && lacks > 0) texts.push(filled(asks.own, { count: grouped(lacks) }));
    const names = allowed.map((one) => (
        called(listed.certificates.get(one) ?? { tbs: one, subject: '' })
    ));
    if (names.length > 0) texts.push(filled(asks.listed, { names: someOf(names) }));
    return texts.map((text) => ({ text }));
}
