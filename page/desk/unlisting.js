// What an unlisting costs: the signed files that one listed entry alone makes allowed.

import { barredBy } from './standing.js';
import { certificatesIn, componentsIn, minuteOf } from '../formats/sentences.js';

/** @typedef {import('./standing.js').Standing} Standing */

// By a line of the minutes the facts of a signed file, and its request's number.
/** @param {string} line */
function returnedFile(line) {
    const said = line.includes('\treturn ') ? minuteOf(line)?.said : null;
    if (!said) return null;
    const { REQUEST, LENGTH, GAP, FILE, DIGEST, SIGNING } = said.values;
    const facts = {
        length: Number(LENGTH),
        gap: Number(GAP),
        file: FILE,
        digest: DIGEST,
        signing: SIGNING,
        carried: certificatesIn(said),
        components: componentsIn(said),
    };
    return { number: Number(REQUEST), facts };
}

// Whether an image is allowed, and by this listed entry alone.
/** @param {Standing} now @param {import('./types.js').Facts} facts @param {string} name */
function hangsOn(now, facts, name) {
    const { digests, certificates } = now.listed;
    const by = new Set([
        ...(digests.has(facts.digest) ? [facts.digest] : []),
        ...facts.carried.filter((tbs) => certificates.has(tbs)),
    ]);
    return by.size === 1 && by.has(name) && barredBy(now, facts) === null;
}

// The request whose signed file, by this line of the minutes, is allowed by a listed entry alone.
/** @param {Standing} now @param {string} line @param {string} name @returns {number | null} */
export function losingIn(now, line, name) {
    const returned = returnedFile(line);
    return returned && hangsOn(now, returned.facts, name) ? returned.number : null;
}
