// Lists of requests, in which those of one upload stand below one row, which opens.

import { button, h } from './dom.js';
import { badge, barredBadge, uploadLink } from './marks.js';
import { keepingFocus, paged } from './table.js';
import { me, withYou } from '../desk/session.js';
import { reviewWords, uploadsIn, waitsForVote } from '../desk/uploads.js';
import { counted, stateCounts } from '../formats/words.js';

/**
 * @typedef {import('./dom.js').Child} Child
 * @typedef {import('../desk/types.js').Request} Request
 * @typedef {import('../desk/uploads.js').Upload} Upload
 * @typedef {{ request: Request, isFile: boolean } | { upload: Upload }} Row
 * @typedef {{ caption: string, head: string[], kind: string, empty: string | (() => string),
 *   row: (request: Request) => Child[], barred: (files: Request[]) => Child,
 *   turned?: (from: number) => void }} Form
 * `barred` says how many of an upload's files are barred today
 */

/**
 * A paged table of requests. Its rows are those of requests by themselves, of uploads, and, of the
 * uploads that are open, of their files; which are open is kept until the sign-out.
 * @param {Form} form
 */
export function uploadsTable(form) {
    const { open } = me.queue;
    /** @type {(Request | Upload)[]} */
    let all = [];
    /** @returns {Row[]} */
    const rows = () => all.flatMap((one) => {
        if (!('files' in one)) return [{ request: one, isFile: false }];
        const files = one.files.map((request) => ({ request, isFile: true }));
        return [{ upload: one }, ...(open.has(one.key) ? files : [])];
    });
    const turn = (/** @type {string} */ key) => {
        if (!open.delete(key)) open.add(key);
        keepingFocus(table.place, () => table.set(rows(), true));
    };
    const table = paged({
        ...form,
        row: (/** @type {Row} */ one) => {
            if ('upload' in one) return headingCells(form, one.upload, open, turn);
            return one.isFile ? form.row(one.request).map(inside) : form.row(one.request);
        },
    });
    /** @param {Request[]} requests @param {boolean | number} [at] as that of a paged table */
    function set(requests, at) {
        all = uploadsIn(requests);
        table.set(rows(), at);
    }
    return { place: table.place, set };
}

// The title of a file stands below that of its upload.
/** @param {Child} cell */
function inside(cell) {
    if (!Array.isArray(cell) || cell[0] !== 'title') return cell;
    return ['title', h('span', { class: 'inside' }, cell.slice(1))];
}

/**
 * @param {Form} form @param {Upload} upload @param {Set<string>} open
 * @param {(key: string) => void} turn opens or closes an upload
 */
function headingCells({ caption, head, barred }, { key, name, files }, open, turn) {
    const count = h('span', { class: 'count' }, ` ${counted(files.length, 'file')}`);
    const opens = button(name, () => turn(key), 'upload');
    opens.append(count);
    opens.setAttribute('aria-expanded', String(open.has(key)));
    opens.dataset.value = `${caption}: ${key}`;
    const mine = files.filter(waitsForVote);
    const review = mine.length > 1
        ? uploadLink(mine[0].number, `Review ${counted(mine.length, 'file')}`) : null;
    /** @type {Record<string, Child>} */
    const cells = {
        No: ['number', ''],
        Title: ['title', opens, ' ', barred(files), ' ', review],
        From: ['from', withYou(files[0].submitter)],
        State: statesOf(files),
        Votes: ['votes', reviewWords(files)],
        Size: ['size', ''],
    };
    return head.map((column) => cells[column]);
}

// The state of files where it is one, or how many have each.
/** @param {Request[]} files */
function statesOf(files) {
    const { all: _, ...counts } = stateCounts(files);
    const states = Object.entries(counts);
    if (states.length === 1) return badge(states[0][0]);
    return ['states', states.map(([state, count]) => h('div', {}, `${count} `, badge(state)))];
}

// How many files of an upload are barred today.
/** @param {number} count */
export const barredOf = (count) => barredBadge(`${count} barred today`);
