// Badges of states, links, and digests that can be copied.

import { button, h, link } from './dom.js';
import { stateName } from '../formats/words.js';

/** @param {string} state */
export const badge = (state) => h('span', { class: `badge ${state}` }, stateName(state));

// Beside a request that goes on, whose image is barred; beside an upload, of which some are.
/** @param {string} [text] */
export const barredBadge = (text = 'Barred today') => h('span', { class: 'badge rejected' }, text);

// The view in which the files of an upload are reviewed at once; one of its requests names it.
/** @param {number} number @param {import('./dom.js').Child} text */
export const uploadLink = (number, text) => link(`#/requests/${Number(number)}/upload`, text);

/** @param {number} number @param {import('./dom.js').Child} [text] */
export const requestLink = (number, text = `request ${number}`) => (
    link(`#/requests/${Number(number)}`, text)
);

/** @param {number} number @param {import('./dom.js').Child} [text] */
export const proposalLink = (number, text = `proposal ${number}`) => (
    link(`#/proposals/${Number(number)}`, text)
);

// A digest with a button that copies it.
/** @param {string} digest @param {string} what as "the digest", for those who hear the button */
export function digest(digest, what) {
    const text = h('code', { class: 'digest' }, digest);
    const copy = button('', async () => {
        if (!(await copied(digest))) getSelection()?.selectAllChildren(text);
        else says('Copied');
        setTimeout(() => says('Copy'), 2000);
    }, 'small');
    const says = (/** @type {string} */ word) => {
        copy.textContent = word;
        copy.setAttribute('aria-label', `${word} ${what}`);
    };
    says('Copy');
    return h('span', { class: 'copied' }, text, ' ', copy);
}

/** @param {string} text */
async function copied(text) {
    try {
        await navigator.clipboard.writeText(text);
        return true;
    } catch {
        return false;
    }
}
