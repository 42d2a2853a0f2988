// What the desk knows of a few digests, certificates and components: the requests that have them,
// the lists and the level.

import { likeness, sameFile } from './compare.js';
import { knownOf } from './doubts.js';
import { listed, requestsWith } from './lists.js';
import { standing } from './standing.js';

/**
 * What a proposal, an import or a listing is checked against. The components of all images are
 * looked through only where one is named that the level doesn't have.
 * @param {import('./proposals.js').Named} named
 * @returns {Promise<import('./doubts.js').Known | import('./types.js').NoValue>}
 */
export async function known({ digests, certificates, components }) {
    const now = await standing();
    if (now.kind !== 'value') return now;
    const { names } = now.value.level;
    const isNew = [...components].some(([name]) => !names.has(name));
    const requests = await (isNew
        ? listed('requests')
        : requestsWith([...digests, ...certificates]));
    return requests.kind === 'value' ? knownOf(requests.value, now.value) : requests;
}

// The request whose image a file is: the same file first, then the same image.
/**
 * @param {import('./types.js').Facts} here
 * @returns {Promise<import('./types.js').Answer<import('./types.js').Request | null>>}
 */
export async function requestOf(here) {
    const requests = await requestsWith([here.file, here.digest, here.signing]);
    if (requests.kind !== 'value') return requests;
    const like = requests.value.filter((request) => likeness(request, here).kind !== 'other');
    const same = like.find((request) => sameFile(request, here.file));
    return { kind: 'value', value: same ?? like[0] ?? null };
}
