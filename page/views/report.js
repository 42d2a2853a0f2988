// For officers: the desk in numbers, its people, and its minutes to download.

import { read, reading, refusalBox } from './act.js';
import {
    answers, box, button, buttons, fill, h, heading, p, quiet, section, strong,
} from './dom.js';
import { download } from './files.js';
import { paged, table } from './table.js';
import { get } from '../desk/api.js';
import { wire } from '../formats/wire.js';
import { counted, grouped } from '../formats/words.js';

/** @typedef {import('../desk/types.js').Person} Person */

/** @type {Record<string, string>} the limits that a count runs into */
const LIMITS = {
    people: '1,000',
    requests: '100,000',
    'listed digests': '10,000 of both kinds',
    'revoked digests': '100,000',
    'revoked certificates': '10,000',
    'level components': '10,000',
    commands: '1,000,000',
};

/** @param {HTMLElement} place */
export function reportView(place) {
    heading(place, 'Report');
    const report = section('The desk in numbers');
    const people = h('div', {}, reading());
    place.append(report, section('People', people), minutesPart());
    read(report, () => get('/report', 'text'), (text) => report.append(numbers(text)));
    get('/people').then((answer) => fill(people, peoplePart(answer)));
}

/** @param {string} text labels and numbers in columns */
function numbers(text) {
    const lines = text.split('\n').filter((line) => line !== '');
    const all = new Map(lines.map((line) => [line.slice(0, 24).trim(), Number(line.slice(24))]));
    const stamp = all.get('stamp');
    all.delete('stamp');
    const form = {
        caption: 'Counts and their limits',
        head: ['Count of', 'Now', 'At most'],
        kind: 'short numbers',
    };
    const rows = [...all].map(([label, count]) => [
        label in wire.words.requests ? `of these, ${label}` : label,
        ['size', grouped(count)],
        ['size', LIMITS[label] ?? ''],
    ]);
    const told = stamp === undefined ? null : `The level’s stamp is ${stamp}.`;
    return h('div', {}, table(form, rows), told && h('p', { class: 'quiet below' }, told));
}

/** @param {import('../desk/types.js').Answer<Person[]>} answer */
function peoplePart(answer) {
    if (answer.kind !== 'value') return refusalBox(answer);
    const people = paged({
        caption: counted(answer.value.length, 'person', 'people'),
        head: ['Name', 'Role'],
        empty: 'Nobody.',
        kind: 'short',
        row: (/** @type {Person} */ { name, role }) => [name, role],
    });
    people.set(answer.value);
    const told = 'The desk’s administrator adds people; '
        + 'nobody is ever removed and no role changes.';
    return h('div', {}, quiet(told), people.place);
}

function minutesPart() {
    const said = answers();
    const progress = (/** @type {number} */ count) => (
        fill(said, quiet(`${counted(count, 'line')} so far…`))
    );
    const fetch = button('Download the minutes', async () => {
        fetch.disabled = true;
        fill(said, await minutes(progress));
        fetch.disabled = false;
    });
    const told = 'Every accepted command, in order, with its reply; desk audit follows them by the '
        + 'rules. They hold names, titles, notes, open proposals and the SHA-256 of each token: '
        + 'hand them only to people who may know that.';
    return section('Minutes', p(told), buttons(fetch), said);
}

// Fetches the minutes in parts, as the desk gives them.
/** @param {(count: number) => void} progress */
async function minutes(progress) {
    /** @type {Uint8Array[]} */
    const parts = [];
    let next = 1;
    for (;;) {
        const answer = await get(`/minutes/${next}`, 'bytes');
        if (answer.kind !== 'value') return refusalBox(answer);
        /** @type {Uint8Array} */
        const bytes = answer.value;
        const lines = bytes.reduce((count, byte) => count + (byte === 10 ? 1 : 0), 0);
        if (lines === 0) break;
        parts.push(bytes);
        next += lines;
        progress(next - 1);
    }
    download(parts, 'minutes.txt');
    return box('good', strong('Done. '), `minutes.txt has ${counted(next - 1, 'line')}.`);
}
