// What a Confirm puts into force and which images it bars, in plain words.

import { box, h, p, quiet, section, strong } from './dom.js';
import { requestLink } from './marks.js';
import { few, paged } from './table.js';
import { byWords, counted, grouped, joined } from '../formats/words.js';

/** @typedef {import('../desk/types.js').Barred} Barred */
/** @typedef {import('../desk/types.js').Impact} Impact */

/** @param {import('../desk/types.js').Counts} counts */
export function named({ digests, certificates, components }) {
    const parts = [];
    if (digests > 0) parts.push(counted(digests, 'digest'));
    if (certificates > 0) parts.push(counted(certificates, 'certificate'));
    if (components > 0) parts.push(counted(components, 'generation'));
    return joined(parts) || 'nothing';
}

/** @param {Impact} impact */
function addsWords({ adds: { digests, certificates, components }, dbx }) {
    const entries = digests + certificates;
    if (entries + components === 0) {
        return 'It adds nothing: all that it names is in force already.';
    }
    const parts = [];
    if (entries > 0) parts.push(`adds ${named({ digests, certificates, components: 0 })} to dbx`);
    if (components > 0) parts.push(`raises ${counted(components, 'generation')} of the level`);
    const then = entries > 0 ? `dbx then has ${counted(dbx, 'byte')}.` : 'dbx stays as it is.';
    return `It ${joined(parts)}. ${then}`;
}

/** @param {Impact} impact */
function barsWords({ bars }) {
    const now = bars.filter(({ allowed }) => allowed).length;
    const rest = bars.length - now;
    const are = now === 1 ? 'is' : 'are';
    const first = now === 0
        ? 'It bars no image that is allowed today.'
        : `It bars ${counted(now, 'image')} that ${are} allowed today.`;
    if (rest === 0) return first;
    const others = rest === 1 ? 'one that isn’t' : `${grouped(rest)} that aren’t`;
    return `${first} It also bars ${others} allowed today.`;
}

/** @param {Impact} impact */
export function impactBox(impact) {
    const { bars } = impact;
    const kind = bars.some(({ allowed }) => allowed) ? 'bad' : bars.length > 0 ? 'care' : 'note';
    return box(kind, p(strong(barsWords(impact))), p(addsWords(impact)));
}

/** @param {Impact} impact */
export function impactPart(impact) {
    const part = section('If it is confirmed now', impactBox(impact));
    if (impact.bars.length > 0) {
        const table = paged({
            caption: 'Images that it bars',
            head: ['Request', 'Image', 'Today', 'Then barred by'],
            empty: '',
            size: few(),
            row: barredRow,
        });
        // Those that are allowed today first: they are the harm.
        const order = (/** @type {Barred} */ one, /** @type {Barred} */ other) => (
            Number(other.allowed) - Number(one.allowed)
        );
        table.set([...impact.bars].sort(order));
        part.append(table.place);
    }
    part.append(quiet(
        'The desk worked this out of every image that was submitted or returned here. ',
        'Images that it never saw, and that have what the proposal names, are barred too.',
    ));
    return part;
}

/** @param {Barred} barred */
function barredRow({ request, title, file, submitter, state, allowed, by }) {
    const whose = file === 'returned'
        ? `the signed file of ${submitter}’s request`
        : `as ${submitter} submitted it`;
    return [
        ['number', requestLink(request, request)],
        ['title', title, h('div', { class: 'hint' }, `${whose}; the request is ${state}`)],
        ['today', allowed ? h('strong', { class: 'bad-text' }, 'allowed') : 'not allowed'],
        byWords(by),
    ];
}

// The images that are allowed today and barred then, for the last look.
/** @param {Impact} impact */
export function harmed({ bars }) {
    const some = bars.filter(({ allowed }) => allowed);
    if (some.length === 0) return null;
    const rows = some.slice(0, 8).map(({ request, title, file, by }) => {
        const which = file === 'returned' ? 'the signed file' : 'as submitted';
        const words = ` (${which}), by ${byWords(by)}.`;
        return h('li', {}, `Request ${request}: `, strong(title), words);
    });
    const more = some.length > 8 ? h('li', {}, `and ${grouped(some.length - 8)} more`) : null;
    return [p('Allowed today, and barred then:'), h('ul', {}, rows, more)];
}
