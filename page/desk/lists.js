// The lists of requests and of proposals, read in parts, and the requests that have one of a few
// digests.

import { get, isOwnToken } from './api.js';

/**
 * @typedef {import('./types.js').Request} Request
 * @typedef {import('./types.js').Answer} Answer
 */

/** How many a part has at most. */
const PART = 1000;

/** About so many digests the desk is asked one by one; for more the list in parts is cheaper. */
const MOST = 20;

/** So many of these questions go out at once. */
const AT_ONCE = 4;

/**
 * @param {'requests' | 'proposals'} name
 * @param {(some: any[]) => void} [take] is given all that came so far, as parts come
 * @param {number} [first] the least number that is asked for
 * @returns {Promise<import('./types.js').Answer<any[]>>} all of them
 */
export async function listed(name, take = () => {}, first = 1) {
    /** @type {any[]} */
    const all = [];
    for (;;) {
        const from = (all.at(-1)?.number ?? first - 1) + 1;
        const answer = await get(`/${name}/from/${from}`);
        if (answer.kind !== 'value') return answer;
        all.push(...answer.value);
        if (answer.value.length < PART) return { kind: 'value', value: all };
        take(all);
    }
}

/**
 * The requests that have one of these digests, as that of a file, of an image, or of a certificate
 * that it carries. Where a few answers can't tell them, all requests.
 * @param {Iterable<string>} digests
 * @returns {Promise<import('./types.js').Answer<Request[]>>} ascending by number
 */
export async function requestsWith(digests) {
    const asked = [...new Set(digests)];
    // (a token may have a digest's form, and goes into no address)
    if (asked.length > MOST || asked.some(isOwnToken)) return listed('requests');
    /** @type {Map<number, Request>} */
    const found = new Map();
    for (let at = 0; at < asked.length; at += AT_ONCE) {
        const some = asked.slice(at, at + AT_ONCE).map((one) => get(`/requests/with/${one}`));
        for (const answer of await Promise.all(some)) {
            if (answer.kind !== 'value') return answer;
            // (such an answer may lack the later ones)
            if (answer.value.length >= PART) return listed('requests');
            for (const request of answer.value) found.set(request.number, request);
        }
    }
    const value = [...found.values()].sort((one, other) => one.number - other.number);
    return { kind: 'value', value };
}
