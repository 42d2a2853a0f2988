// What is listed (db), what is revoked (dbx) and the level: to look at, to download, and for
// officers to list and to take off.

import { anew, read, refusalBox } from './act.js';
import { onceAtATime } from './asking.js';
import { whyLink } from './calls.js';
import { answers, button, buttons, fill, h, heading, p, quiet, section } from './dom.js';
import { download } from './files.js';
import { listing } from './listing.js';
import { digest } from './marks.js';
import { paged } from './table.js';
import { unlistButton } from './unlisting.js';
import { get } from '../desk/api.js';
import { forShim } from '../desk/levels.js';
import { me } from '../desk/session.js';
import { standing } from '../desk/standing.js';
import { wire } from '../formats/wire.js';
import { counted, filled, grouped, joined } from '../formats/words.js';

/** @typedef {import('./dom.js').Child} Child */
/** @typedef {import('../desk/standing.js').Listed} Listed */
/** @typedef {import('../desk/standing.js').Standing} Standing */

/** @param {HTMLElement} place */
export function listsView(place) {
    heading(place, 'Lists');
    const inner = h('div', {});
    place.append(inner);
    show(inner);
}

/** @param {HTMLElement} place @param {Child[]} first */
function show(place, ...first) {
    anew(place, first);
    return read(place, standing, (now) => {
        place.append(downloads(now), listedPart(place, now), revokedPart(now), levelPart(now));
    });
}

/** @param {Standing} now */
function downloads({ bytes: { dbx, db } }) {
    const said = answers();
    /** @type {(path: string, name: string, text: string) => HTMLElement} */
    const one = (path, name, text) => button(text, async () => {
        const answer = await get(path, 'bytes');
        if (answer.kind === 'value') download([answer.value], name);
        else fill(said, refusalBox(answer));
    });
    return h(
        'section',
        {},
        buttons(
            one('/dbx', 'dbx.esl', `Download dbx (${counted(dbx, 'byte')})`),
            one('/db', 'db.esl', `Download db (${counted(db, 'byte')})`),
            one('/level', 'level.csv', 'Download the level'),
        ),
        quiet(
            'dbx and db are EFI signature lists without a signature, to look at and to compare. ',
            'What mirrors and machines get is made by desk-publish. ',
            'A list without an entry has no bytes.',
        ),
        said,
    );
}

/** @param {HTMLElement} place @param {Standing} now */
function listedPart(place, { listed }) {
    const said = answers();
    const again = (/** @type {Child} */ shown) => show(place, shown);
    const certificates = paged({
        caption: 'Listed certificates',
        head: ['Subject', 'SHA-256 of TBSCertificate', ''],
        kind: 'short wide',
        empty: 'No certificate is listed.',
        row: (/** @type {Listed} */ { subject, tbs }) => {
            const what = `certificate ${subject || tbs.slice(0, 12)}`;
            const name = ['', digest(tbs, 'the certificate'), ' ', whyLink({ hex: tbs }, what)];
            const off = unlistButton('certificate', tbs, what, said, again);
            return [subject || 'no common name', name, off];
        },
    });
    certificates.set([...listed.certificates.values()]);
    const digests = paged({
        caption: 'Listed digests',
        head: ['Digest', ''],
        kind: 'short wide',
        empty: 'No digest is listed.',
        row: (/** @type {string} */ hex) => {
            const what = `digest ${hex.slice(0, 12)}`;
            const name = ['', digest(hex, 'the digest'), ' ', whyLink({ hex }, what)];
            return [name, unlistButton('digest', hex, what, said, again)];
        },
    });
    digests.set([...listed.digests]);
    const rule = 'An image is allowed if its digest or a certificate that it carries is listed, '
        + 'and nothing bars it. One officer lists alone.';
    return section(
        'db: what is listed',
        quiet(rule),
        certificates.place,
        digests.place,
        me.officer ? listing(again) : null,
        said,
    );
}

/** @param {Standing} now */
function revokedPart({ revoked: { digests, certificates } }) {
    const counts = [counted(digests.size, 'digest'), counted(certificates.size, 'certificate')];
    const table = paged({
        caption: 'Revoked',
        head: ['Kind', 'SHA-256'],
        kind: 'short wide',
        empty: 'Nothing is revoked.',
        row: (/** @type {string[]} */ [kind, hex]) => {
            const what = kind.toLowerCase();
            const why = whyLink({ hex }, `${what} ${hex.slice(0, 12)}`);
            return [kind, ['', digest(hex, `the ${what}`), ' ', why]];
        },
    });
    table.set([
        ...[...digests].map((hex) => ['Digest', hex]),
        ...[...certificates].map((hex) => ['Certificate', hex]),
    ]);
    const told = quiet(`${joined(counts)}. Nothing takes a revocation back.`);
    return section('dbx: what is revoked', told, table.place);
}

/** @param {Standing} now */
function levelPart({ level: { stamp, names } }) {
    const table = paged({
        caption: 'Generations',
        head: ['Component', 'Generation'],
        kind: 'short',
        empty: 'No component has a generation yet.',
        row: (/** @type {[string, number]} */ [component, generation]) => [
            ['', h('code', {}, component), ' ', whyLink({ component }, component)],
            grouped(generation),
        ],
    });
    table.set([...names]);
    const told = 'An image with a component below its generation here is barred.';
    return section(
        'The SBAT level',
        quiet(`Stamp ${stamp}. ${told}`),
        table.place,
        me.officer ? shimPart() : null,
    );
}

// The level without the names that shim can do without: it is worked out once it is asked for.
function shimPart() {
    const said = answers();
    const go = button('Download the level for shim', onceAtATime(async () => {
        fill(said, quiet('Reading from the desk…'));
        const answer = await forShim();
        if (answer.kind !== 'value') return fill(said, refusalBox(answer));
        const { text, level, left } = answer.value;
        download([text], 'level-for-shim.csv');
        const { shim } = wire.words;
        const rows = [...left].map(([name, parent]) => filled(shim.left, {
            name, generation: level.get(name), parent, higher: level.get(parent),
        }));
        return fill(said, (rows.length > 0 ? rows : [shim.none]).map((row) => p(row)));
    }));
    return h('div', {}, buttons(go), said);
}
