// What open proposals name: in the words of a list, and whether it is what is to be proposed.

import { get } from './api.js';
import { listed } from './lists.js';
import { called, standing } from './standing.js';
import { wire } from '../formats/wire.js';
import { filled, someOf } from '../formats/words.js';

/** @typedef {import('./types.js').Proposal} Proposal */
/** @typedef {import('./types.js').ProposalRow} ProposalRow */
/** @typedef {import('./types.js').Barred} Barred */
/** @typedef {import('./standing.js').Standing} Standing */
/** @typedef {import('./doubts.js').Doubt} Doubt */
/** @typedef {Pick<import('./doubts.js').Named, 'digests' | 'certificates' | 'components'>} Named */

/** Of so many open ones in a list it is read what they name. */
export const DESCRIBED = 50;

/**
 * What names no certificate is described without the lists.
 * @type {{ kind: 'value', value: Pick<Standing, 'listed'> }}
 */
const NONE = { kind: 'value', value: { listed: { digests: new Set(), certificates: new Map() } } };

/** @param {string} kind @param {string} hex */
const hashWords = (kind, hex) => filled(wire.words.names.hash, { kind, hex: hex.slice(0, 8) });

/** @param {[string, number]} component */
const componentWords = ([name, generation]) => (
    filled(wire.words.names.component, { name, generation })
);

// The open proposals that may name some of these, each with all that it names.
/** @param {Named} named @returns {Promise<import('./types.js').Answer<Proposal[]>>} */
export async function openProposals({ digests, certificates, components }) {
    const rows = await listed('proposals');
    if (rows.kind !== 'value') return rows;
    const has = (/** @type {Iterable<any>} */ some) => Number([...some].length > 0);
    const kinds = [has(digests), has(certificates), has(components)];
    /** @type {ProposalRow[]} */
    const may = rows.value.filter((row) => row.state === 'open' && kinds[0] * row.digests
        + kinds[1] * row.certificates + kinds[2] * row.components > 0);
    /** @type {Proposal[]} */
    const value = [];
    for (const { number } of may) {
        const answer = await get(`/proposals/${number}`);
        if (answer.kind !== 'value') return answer;
        if (answer.value.state === 'open') value.push(answer.value);
    }
    return { kind: 'value', value };
}

// Where open proposals name some of these; a generation names those below it.
/** @param {Named} named @param {Proposal[]} proposals @returns {Doubt[]} */
export function openDoubts({ digests, certificates, components }, proposals) {
    const [images, signers] = [new Set(digests), new Set(certificates)];
    return proposals.flatMap(({ number, officer, ...one }) => {
        const raised = new Map(one.components);
        const some = [
            ...one.digests.filter((hex) => images.has(hex)).map((hex) => hashWords('digest', hex)),
            ...one.certificates.filter((hex) => signers.has(hex))
                .map((hex) => hashWords('certificate', hex)),
            ...[...components].filter(([name, generation]) => generation <= (raised.get(name) ?? 0))
                .map(componentWords),
        ];
        const parts = { number, officer, what: someOf(some) };
        return some.length > 0 ? [{ text: filled(wire.questions.propose.open, parts) }] : [];
    });
}

/**
 * The one entry that a proposal names, in a list's words.
 * @param {Proposal} proposal
 * @param {Pick<Standing, 'listed'>} now
 * @param {Barred[] | null} bars what it would newly bar, if that is known
 * @returns {string} '' where it names more
 */
export function namesWords({ digests, certificates, components }, now, bars) {
    const { names } = wire.words;
    if (digests.length + certificates.length + components.length !== 1) return '';
    if (components.length > 0) return componentWords(components[0]);
    const [tbs] = certificates;
    const signer = now.listed.certificates.get(tbs);
    if (signer) return filled(names.certificate, { name: called(signer) });
    if (tbs) return hashWords('certificate', tbs);
    const what = hashWords('digest', digests[0]);
    if (!bars) return what;
    const first = bars.find(({ allowed }) => allowed) ?? bars[0];
    if (!first) return `${what}, ${names.none}`;
    const today = first.allowed ? names.allowed : names.refused;
    return filled(names.image, { what, title: first.title, number: first.request, today });
}

/**
 * The same of an open proposal in a list, as the desk says it.
 * @param {ProposalRow} row
 * @param {Pick<Standing, 'listed'>} now
 * @returns {Promise<string>} '' where it names more, or is open no more
 */
export async function described({ number, state, digests, certificates, components }, now) {
    if (state !== 'open' || digests + certificates + components !== 1) return '';
    const one = await get(`/proposals/${number}`);
    const impact = digests > 0 ? await get(`/proposals/${number}/impact`) : null;
    if (one.kind !== 'value') return '';
    return namesWords(one.value, now, impact?.kind === 'value' ? impact.value.bars : null);
}

// What the first open ones of a list name, by their numbers.
/** @param {ProposalRow[]} rows @returns {Promise<Map<number, string>>} */
export async function namesOf(rows) {
    const first = rows.filter(({ state, digests, certificates, components }) => (
        state === 'open' && digests + certificates + components === 1
    ));
    const lists = first.some(({ certificates }) => certificates > 0) ? await standing() : null;
    /** @type {Map<number, string>} */
    const found = new Map();
    for (const row of first.slice(0, DESCRIBED)) {
        const now = row.certificates > 0 ? lists : NONE;
        if (now?.kind === 'value') found.set(row.number, await described(row, now.value));
    }
    return found;
}
