// Everything that a proposal names, with what the desk knows of it.

import { h, p, strong } from './dom.js';
import { digest, requestLink } from './marks.js';
import { few, paged } from './table.js';
import { unknownWords } from '../desk/questions.js';
import { counted, grouped } from '../formats/words.js';

/** @typedef {import('./dom.js').Child} Child */
/** @typedef {import('../desk/types.js').Proposal} Proposal */
/** @typedef {import('../desk/doubts.js').Known} Known */

/** @type {Record<string, string>} */
const KINDS = {
    digest: 'Revoke a digest',
    certificate: 'Revoke a certificate',
    level: 'Raise a generation',
    import: 'An import',
};

/** @param {Proposal} proposal @param {Known | null} known null if it can't be read */
export function itemsPart(proposal, known) {
    // Those of requests first: they are what a reader can compare.
    const isKnown = (/** @type {string} */ one) => Number(known?.images.has(one) ?? false);
    const digests = [...proposal.digests].sort((one, other) => isKnown(other) - isKnown(one));
    const rows = [
        ...proposal.components.map((one) => generationRow(one, known)),
        ...proposal.certificates.map((one) => certificateRow(one, known)),
        ...digests.map((one) => digestRow(one, known)),
    ];
    const table = paged({
        caption: 'Everything that it names',
        head: ['Kind', 'What', 'Known as'],
        empty: 'It names nothing.',
        size: few(),
        row: ([kind, what, as]) => [kind, what, ['', as]],
    });
    table.set(rows);
    return [p(summary(proposal, known)), table.place];
}

// What a proposal names, in short: the first three of it.
/** @param {Proposal} proposal @returns {Child[]} */
export function shortly({ components, certificates, digests }) {
    const begin = (/** @type {string} */ hex) => h('code', {}, `${hex.slice(0, 16)}…`);
    const all = [
        ...components.map(([name, generation]) => strong(`${name} to ${grouped(generation)}`)),
        ...certificates.map((hex) => ['the certificate ', begin(hex)]),
        ...digests.map((hex) => ['the digest ', begin(hex)]),
    ];
    const some = all.slice(0, 3).map((one, at) => [at > 0 ? ', ' : '', one]);
    return ['It names ', some, all.length > 3 ? ` and ${grouped(all.length - 3)} more` : ''];
}

/** @param {Proposal} proposal @param {Known | null} known */
function summary({ kind, passed, stamp }, known) {
    const parts = [`${KINDS[kind] ?? kind}. `];
    if (passed === 1) parts.push('1 entry of the file was skipped, being of another kind. ');
    if (passed > 1) {
        const entries = counted(passed, 'entry', 'entries');
        parts.push(`${entries} of the file were skipped, being of other kinds. `);
    }
    const level = known ? `; the level’s is ${known.now.level.stamp}` : '';
    if (stamp) parts.push(`Stamp ${stamp}${level}.`);
    return parts;
}

// The request whose image has the digest; or what else it is of a request.
/** @param {string} one @param {Known} known */
function whose(one, { images, files, carriers }) {
    const image = images.get(one);
    if (image) return [requestLink(image.number), `: ${image.title}`];
    const file = files.get(one);
    if (file) return [requestLink(file.number), ': a whole file, no image'];
    const [carrier] = carriers.get(one) ?? [];
    if (carrier) return [requestLink(carrier.number), ': a certificate that it carries, no image'];
    return 'no request here has it';
}

/** @param {string} one @param {Known | null} known */
function digestRow(one, known) {
    const listed = known?.now.listed.digests.has(one) ? 'listed; ' : '';
    return ['Digest', digest(one, 'the digest'), [listed, known ? whose(one, known) : '']];
}

/** @param {string} one @param {Known | null} known */
function certificateRow(one, known) {
    const row = ['Certificate', digest(one, 'the certificate')];
    if (!known) return [...row, ''];
    const carried = known.carriers.get(one)?.length ?? 0;
    const listed = known.now.listed.certificates.get(one);
    const none = unknownWords(known.now) || 'not listed';
    const name = listed ? `listed${listed.subject ? `: ${listed.subject}` : ''}` : none;
    if (carried === 0) return [...row, name];
    const carry = carried === 1 ? 'carries' : 'carry';
    return [...row, `${name}; ${counted(carried, 'submitted image')} ${carry} it`];
}

/** @param {import('../desk/types.js').Component} component @param {Known | null} known */
function generationRow([name, generation], known) {
    const present = known?.now.level.names.get(name);
    const now = present === undefined
        ? 'not in the level today'
        : `the level has ${grouped(present)} today`;
    const what = h('span', {}, h('code', {}, name), ` to ${grouped(generation)}`);
    return ['Generation', what, known ? now : ''];
}
