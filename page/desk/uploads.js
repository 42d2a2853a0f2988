// The files of one upload: requests of one submitter whose titles are alike up to a last ` / `. The
// desk knows no uploads, and each file has votes of its own.

import { get } from './api.js';
import { me } from './session.js';
import { standing } from './standing.js';
import { groupOf, nameOf } from './titles.js';
import { waitingNow } from './waiting.js';
import { votesBy } from '../formats/words.js';

/**
 * @typedef {import('./types.js').Request} Request
 * @typedef {{ key: string, name: string, files: Request[] }} Upload
 * @typedef {{ name: string, files: Request[], count: number, before: Map<string, Request>,
 *   now: import('./standing.js').Standing }} Waiting
 * the files of an upload that wait for the person, the first of so many; of each name the request
 * that was signed last; and what stands now
 */

/** How many files are reviewed at once at most. */
const MOST = 50;
/** So many parts of the list are looked through for what was signed, of so many requests each. */
const [PARTS, PART] = [5, 1000];
/** How many requests that is. */
export const LOOKED_THROUGH = PARTS * PART;

// What the requests of an upload have in common, and no other has.
/** @param {Request} request */
export function uploadKey({ number, submitter, title }) {
    const name = groupOf(title);
    return name === null ? String(number) : `${submitter} ${name}`;
}

/**
 * Requests in their order, those of an upload as one where the first of them stands.
 * @param {Request[]} requests
 * @returns {(Request | Upload)[]}
 */
export function uploadsIn(requests) {
    /** @type {Map<string, Request[]>} */
    const groups = new Map();
    for (const one of requests) {
        const key = uploadKey(one);
        const files = groups.get(key);
        if (files) files.push(one);
        else groups.set(key, [one]);
    }
    return [...groups].map(([key, files]) => (
        files.length === 1 ? files[0] : { key, name: groupOf(files[0].title) ?? '', files }
    ));
}

// How the reviews of files stand: in one where all agree, or how many of each.
/** @param {Pick<Request, 'votes' | 'state'>[]} files */
export function reviewWords(files) {
    /** @type {Map<string, number>} */
    const counts = new Map();
    for (const { votes, state } of files) {
        const words = votesBy(votes, state);
        counts.set(words, (counts.get(words) ?? 0) + 1);
    }
    if (counts.size === 1) return [...counts.keys()][0];
    return [...counts].map(([words, count]) => `${count} with ${words}`).join('; ');
}

// Whether a request waits for the vote of the person.
/** @param {Request} request */
export const waitsForVote = ({ state, submitter, votes }) => (
    me.reviewer && state === 'open' && submitter !== me.name
        && !votes.some(({ reviewer }) => reviewer === me.name)
);

/**
 * Of each name among these the request that was signed last, as far as the parts of the list have
 * it that come before.
 * @param {Pick<Request, 'number' | 'title'>[]} some
 * @returns {Promise<import('./types.js').Answer<Map<string, Request>>>}
 */
export async function lastSigned(some) {
    const wanted = new Set(some.map(({ title }) => nameOf(title)));
    /** @type {Map<string, Request>} */
    const found = new Map();
    if (wanted.size === 0) return { kind: 'value', value: found };
    const end = Math.max(...some.map(({ number }) => number));
    for (let first = end - PART + 1; first > end - LOOKED_THROUGH; first -= PART) {
        const answer = await get(`/requests/from/${Math.max(first, 1)}`);
        if (answer.kind !== 'value') return answer;
        for (const one of answer.value.reverse()) {
            const name = nameOf(one.title);
            const isFound = one.state === 'signed' && wanted.has(name) && !found.has(name);
            if (isFound) found.set(name, one);
        }
        if (first <= 1 || found.size === wanted.size) break;
    }
    return { kind: 'value', value: found };
}

/**
 * The upload of a request as it waits for the person, read anew.
 * @param {number} number of one of its requests
 * @returns {Promise<import('./types.js').Answer<Waiting>>}
 */
export async function uploadOf(number) {
    const [one, waits, now] = await Promise.all(
        [get(`/requests/${number}`), waitingNow(), standing()],
    );
    if (one.kind !== 'value') return one;
    if (waits.kind !== 'value') return waits;
    if (now.kind !== 'value') return now;
    const { title } = one.value;
    const key = uploadKey(one.value);
    const all = waits.value.requests.filter(waitsForVote)
        .filter((other) => uploadKey(other) === key);
    const files = all.slice(0, MOST);
    const before = await lastSigned(files);
    if (before.kind !== 'value') return before;
    const value = {
        name: groupOf(title) ?? title,
        files,
        count: all.length,
        before: before.value,
        now: now.value,
    };
    return { kind: 'value', value };
}
