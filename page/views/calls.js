// Calls of the minutes as rows of a table, and links to what is asked about them.

import { h, link } from './dom.js';
import { proposalLink, requestLink } from './marks.js';
import { paged } from './table.js';
import { numberOf } from '../desk/calls.js';
import { me } from '../desk/session.js';
import { minuteOf, parts, timeOf } from '../formats/sentences.js';

/** @typedef {import('./dom.js').Child} Child */
/** @typedef {import('../desk/calls.js').Asked} Asked */

// A link that asks why, for officers; nobody else is shown the minutes.
/** @param {Asked} asked @param {string} what as "the digest ab12", for those who hear the link */
export function whyLink(asked, what) {
    if (!me.officer) return null;
    return h('a', { href: address(asked), class: 'why', 'aria-label': `Why: ${what}` }, 'Why');
}

/** @param {Asked} asked */
export function address(asked) {
    const { proposal } = asked;
    return `#/history/${proposal ? `proposal/${Number(proposal)}` : numberOf(asked)}`;
}

/** @type {Record<string, (value: string) => Child>} what is shown in place of a value's text */
const SHOWN = {
    CALLER: (value) => h('strong', {}, value),
    REQUEST: (value) => requestLink(Number(value), value),
    PROPOSAL: (value) => proposalLink(Number(value), value),
    DIGEST: (value) => hexLink(value),
    CERTIFICATE: (value) => hexLink(value),
    COMPONENT: (value) => link(address({ component: value }), value),
    TITLE: (value) => h('q', {}, value),
    NOTE: (value) => h('q', {}, value),
    REASON: (value) => h('q', {}, value),
};

// The beginning of a SHA-256, which asks why.
/** @param {string} hex */
function hexLink(hex) {
    return h('a', { href: address({ hex }), title: hex }, h('code', {}, `${hex.slice(0, 16)}…`));
}

/** @param {import('../formats/sentences.js').Minute} minute @returns {Child[]} */
export function inWords(minute) {
    return parts(minute).map((part) => (
        typeof part === 'string' ? part : SHOWN[part.word]?.(part.value) ?? part.value
    ));
}

// A table of calls.
/** @param {string} caption @param {string} empty @param {number} [size] how many rows a page has */
export function callTable(caption, empty, size) {
    return paged({
        caption,
        head: ['Call', 'When', 'What'],
        kind: 'wide queue',
        empty,
        size,
        row: (/** @type {string} */ line) => {
            const minute = minuteOf(line);
            if (!minute) return ['', '', line];
            const when = timeOf(minute.key) || '–';
            return [['number', minute.number], ['today', when], ['words', ...inWords(minute)]];
        },
    });
}
