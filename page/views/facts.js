// The facts that the desk keeps of an image, and whether a file at hand is that image.

import { answers, box, facts, fill, h, quiet, section, strong } from './dom.js';
import { fileField } from './files.js';
import { lookPart, noFacts, postImage } from './images.js';
import { digest } from './marks.js';
import { barPlace } from './sending.js';
import { table } from './table.js';
import { likeness, sameFile } from '../desk/compare.js';
import { grouped } from '../formats/words.js';

/** @typedef {import('./dom.js').Child} Child */
/** @typedef {import('../desk/types.js').Request} Request */
/** @typedef {import('../desk/standing.js').Standing} Standing */

/** @param {string} name @param {string} hint */
const hinted = (name, hint) => [name, h('span', { class: 'hint' }, ` ${hint}`)];

/**
 * @param {Request} request
 * @param {Standing | null} now the lists, which say how each digest and certificate stands
 */
export function factsPart({ file, digest: image, signing, length, carried, returned }, now) {
    const shown = (/** @type {string} */ hex, /** @type {string} */ what) => marked(
        digest(hex, what),
        now && now.listed.digests.has(hex) ? '' : null,
        now && now.revoked.digests.has(hex),
    );
    const certificate = (/** @type {string} */ hex) => marked(
        digest(hex, 'the certificate'),
        now && (now.listed.certificates.get(hex)?.subject ?? null),
        now && now.revoked.certificates.has(hex),
    );
    const isSame = signing === image;
    const signed = isSame ? 'the same digest' : shown(signing, 'the digest in a signature');
    return section('Facts', facts([
        [
            hinted('SHA-256 of the file', 'as sha256sum prints it'),
            digest(file, 'the SHA-256 of the file'),
        ],
        [
            hinted('Digest', 'Authenticode; db and dbx name the image by it'),
            shown(image, 'the digest'),
        ],
        [hinted('Digest in a signature', 'of the image padded to a multiple of 8 bytes'), signed],
        ['Length', `${grouped(length)} bytes`],
        [
            hinted('Certificates that it carries', 'SHA-256 of each TBSCertificate'),
            carried.length === 0 ? 'none' : carried.map(certificate),
        ],
        [
            hinted('Returned file', 'its SHA-256'),
            returned ? digest(returned, 'the SHA-256 of the returned file') : 'none yet',
        ],
    ]));
}

/**
 * A digest with how it stands in the lists.
 * @param {HTMLElement} shown
 * @param {string | null} listed whose it is, if it is listed
 * @param {boolean | null} isRevoked null before the lists are read
 */
function marked(shown, listed, isRevoked) {
    const badges = [];
    if (listed !== null) {
        badges.push(h('span', { class: 'badge signed' }, 'listed'), listed ? ` ${listed} ` : ' ');
    }
    if (isRevoked) badges.push(h('span', { class: 'badge rejected' }, 'revoked'), ' ');
    const isNone = isRevoked === false && listed === null;
    const none = isNone ? h('span', { class: 'hint' }, 'neither listed nor revoked') : null;
    return h('div', { class: 'marked' }, shown, ' ', badges, none);
}

/** @param {Request} request @param {Standing | null} now */
export function componentsPart({ components }, now) {
    const title = 'SBAT components';
    if (components.length === 0) return section(title, quiet('It has none.'));
    const form = {
        caption: 'Of its section .sbat',
        head: ['Component', 'Generation', 'Level requires', 'Today'],
        kind: 'short wide',
    };
    return section(title, table(form, components.map(([name, generation]) => {
        // (of sbat itself the level has 1, in its first line)
        const needed = name === 'sbat' ? 1 : now?.level.names.get(name);
        const isLow = needed !== undefined && generation < needed;
        const high = needed === undefined ? 'not in the level' : 'at the level or above';
        const today = isLow ? h('strong', { class: 'bad-text' }, 'below the level: barred') : high;
        const level = needed === undefined ? '–' : grouped(needed);
        return [h('code', {}, name), grouped(generation), level, now ? today : ''];
    })));
}

// Whether a file at hand is the one of this request, and what differs.
/** @param {Request} request @param {{ like: string }} looked is told how the file is like it */
export function comparePart(request, looked) {
    const said = answers();
    const bar = barPlace();
    let turn = 0;
    const hint = 'Its SHA-256 is compared here. '
        + 'Another file is read by the desk, which keeps nothing of it.';
    const { place } = fileField('Compare a file with this request', hint, async (chosen) => {
        const mine = ++turn;
        fill(said);
        looked.like = '';
        if (!chosen) return;
        const same = sameFile(request, chosen.sha256);
        if (same?.kind === 'file') {
            return fill(said, box('good', strong('The same file. '), same.text));
        }
        fill(said, quiet('The desk reads it…'));
        const answer = await postImage('/facts', chosen, bar);
        const told = answer.kind === 'value'
            ? await lookPart(chosen, answer.value, request)
            : noFacts(answer);
        if (mine !== turn) return undefined;
        if (answer.kind === 'value') looked.like = likeness(request, answer.value).kind;
        return fill(said, told);
    });
    return section('Do you have this file?', place, bar, said);
}
