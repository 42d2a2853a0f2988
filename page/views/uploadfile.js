// One file of an upload that is reviewed: its facts beside those of the image of its name that was
// signed last. What changed is marked, but for a size and a digest, which every version has anew.

import { box, facts, h, p, strong } from './dom.js';
import { digest, requestLink } from './marks.js';
import { besides, sameCarried } from '../desk/compare.js';
import { barredBy } from '../desk/standing.js';
import { apartIn } from '../desk/titles.js';
import { counted, ruleWords, votesBy } from '../formats/words.js';

/** @typedef {import('./dom.js').Child} Child */
/** @typedef {import('../desk/types.js').Request} Request */
/** @typedef {import('../desk/standing.js').Standing} Standing */
/** @typedef {import('../desk/compare.js').Beside} Beside */

const NONE = 'none of its name';
const SAME = 'the same image as before';
const UNBARRED = 'none: no level can bar it, and as shim’s own second stage shim refuses it';

const changedBadge = () => h('span', { class: 'badge changed' }, 'changed');

// Whether what a reviewer looks for differs from what was signed before.
/** @param {Request} one @param {Request | null} last */
export const isOtherThan = (one, last) => last !== null
    && (!sameCarried(one, last) || besides(one, last).some(({ isOther }) => isOther));

/** @param {string} now @param {string} before @param {boolean} isOther */
function valueBeside(now, before, isOther) {
    const then = before ? h('span', { class: 'quiet' }, `, before ${before}`) : null;
    return h('div', {}, now, then, ' ', isOther ? changedBadge() : null);
}

// What changed has a line of its own, all else is one.
/** @param {Beside[]} rows @param {boolean} hasLast @returns {Child} */
function componentsOf(rows, hasLast) {
    const components = rows.filter(({ what }) => what === 'component');
    const same = components.filter(({ isOther }) => !isOther);
    const names = same.map(({ name, now }) => `${name} ${now}`).join(', ');
    return [
        components.every(({ now }) => now === 'none') ? h('div', {}, UNBARRED) : null,
        components.filter(({ isOther }) => isOther).map(({ name, now, before }) => (
            valueBeside(`${name} ${now}`, before, true)
        )),
        same.length > 0 ? h('div', {}, names, asBefore(hasLast)) : null,
    ];
}

/** @param {boolean} isSo */
const asBefore = (isSo) => (isSo ? h('span', { class: 'quiet' }, ', as before') : null);

/** @param {Request} one @param {Request | null} last @param {Standing} now */
function certificatesOf(one, last, now) {
    const names = one.carried.map((hex) => {
        const subject = now.listed.certificates.get(hex)?.subject;
        return h('div', {}, digest(hex, 'the certificate'), subject ? ` listed: ${subject}` : null);
    });
    const shown = names.length > 0 ? names : 'none';
    if (!last || sameCarried(one, last)) return [shown, asBefore(last !== null)];
    const count = last.carried.length;
    const before = count > 0 ? `${counted(count, 'certificate')}, not the same` : 'none';
    return [shown, h('div', {}, `before ${before} `, changedBadge())];
}

/**
 * @param {Request} one
 * @param {Request | null} last the request of its name that was signed last
 * @param {Standing} now
 * @param {HTMLInputElement} check whether it is among those that are voted on
 */
export function fileCard(one, last, now, check) {
    const { number, title, signing, votes, state } = one;
    const barred = barredBy(now, one);
    const rows = besides(one, last);
    const others = rows.filter(({ what }) => what !== 'component');
    const isSame = last !== null && last.signing === signing;
    const before = last ? requestLink(last.number, `request ${last.number}, ${last.title}`) : NONE;
    return h(
        'section',
        { class: 'file' },
        h(
            'div',
            { class: 'head' },
            h('h3', {}, h('label', {}, check, ' ', apartIn(title))),
            h('span', {}, requestLink(number), `, ${votesBy(votes, state)}`),
        ),
        barred ? box('bad', p(strong('Barred today: '), `${ruleWords(barred)}.`)) : null,
        facts([
            ['Signed last', before],
            [
                'Digest in a signature',
                [digest(signing, 'the digest in a signature'), isSame ? h('div', {}, SAME) : null],
            ],
            ...others.map((row) => [row.name, valueBeside(row.now, row.before, row.isOther)]),
            ['SBAT', componentsOf(rows, last !== null)],
            ['Certificates that it carries', certificatesOf(one, last, now)],
        ]),
    );
}
