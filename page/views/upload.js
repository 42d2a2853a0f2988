// The files of an upload that wait for a reviewer, in one look.

import { anew, read } from './act.js';
import { fill, h, heading, link, p, quiet, strong, titled } from './dom.js';
import { nextPart } from './next.js';
import { fileCard, isOtherThan } from './uploadfile.js';
import { named, voteForm } from './uploadvotes.js';
import { barredBy } from '../desk/standing.js';
import { nameOf } from '../desk/titles.js';
import { uploadOf } from '../desk/uploads.js';
import { counted } from '../formats/words.js';

/** @typedef {import('./uploadvotes.js').Told} Told */
/** @typedef {import('../desk/types.js').Request} Request */
/** @typedef {import('../desk/uploads.js').Waiting} Waiting */

const TITLE = 'Review an upload';
const NO_FILE = 'No file of this upload waits for your vote.';

/** @param {HTMLElement} place @param {string[]} words the number of one of its requests */
export function uploadView(place, [number]) {
    const inner = h('div', {});
    heading(place, TITLE, link('#/requests', 'All requests'));
    place.append(inner);
    show(inner, Number(number));
}

/**
 * @param {HTMLElement} place
 * @param {number} number
 * @param {Told} [told] what came of the votes before, which is shown above
 */
async function show(place, number, told) {
    anew(place, told ? [told.said] : []);
    await read(place, () => uploadOf(number), (upload) => {
        if (upload.files.length > 0) return whole(place, number, upload, told?.out ?? []);
        headed(place, TITLE);
        const more = told ? '' : nextPart(number);
        return place.append(h('h2', { class: 'title' }, upload.name), p(NO_FILE), more);
    });
}

// The heading, once it is known how many files wait.
/** @param {HTMLElement} place @param {string} text */
function headed(place, text) {
    const title = place.closest('.view')?.querySelector('h1');
    if (!title || !place.isConnected) return;
    fill(title, text);
    titled(`${text} · Kovelamiru`);
}

/**
 * @param {HTMLElement} place
 * @param {number} number
 * @param {Waiting} upload
 * @param {number[]} out those that were left out before, and stay so unless they are chosen
 */
function whole(place, number, { name, files, count, before, now }, out) {
    headed(place, `Review ${counted(files.length, 'file')}`);
    const lastOf = (/** @type {Request} */ one) => before.get(nameOf(one.title)) ?? null;
    const all = files.map((one) => (
        { one, check: h('input', { type: 'checkbox', checked: !out.includes(one.number) }) }
    ));
    const from = files[0].submitter;
    const left = count - files.length;
    place.append(
        h('h2', { class: 'title' }, name),
        quiet(
            `Submitted by ${from}. The desk keeps facts of the images, not their bytes, and no `,
            `architecture: the titles name it. Get the files from ${from}.`,
        ),
        left > 0 ? p(`These are the first; ${counted(left, 'file')} more come behind them.`) : '',
        findings([
            ['bad', 'barred today', files.filter((one) => barredBy(now, one) !== null)],
            ['care', 'not as signed last', files.filter((one) => isOtherThan(one, lastOf(one)))],
            ['note', 'not signed before', files.filter((one) => lastOf(one) === null)],
        ]),
        ...all.map(({ one, check }) => fileCard(one, lastOf(one), now, check)),
        voteForm(all, (told) => show(place, number, told)),
    );
}

// What stands out, with the files of which it holds.
/** @param {[kind: string, words: string, files: Request[]][]} all */
function findings(all) {
    const rows = all.filter(([, , files]) => files.length > 0).map(([kind, words, files]) => (
        h('li', { class: kind }, strong(counted(files.length, 'file'), ` ${words}: `), named(files))
    ));
    return rows.length > 0 ? h('ul', { class: 'findings' }, rows) : '';
}
