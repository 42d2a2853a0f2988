// What a response is: a value of the desk, a refusal, or nothing that tells what the desk did.

import { wire } from '../formats/wire.js';

/** @typedef {import('./types.js').Answer} Answer */

/** @type {Record<number, string>} the refusals that a proxy's own page stands for */
const BY_STATUS = { 401: 'UnknownCaller', 413: 'TooLarge' };

/** @param {string} text @returns {{ name?: string, refused?: number, at?: number }} */
function bodyOf(text) {
    try {
        return JSON.parse(text) ?? {};
    } catch {
        // The proxy's own page, or nothing.
        return {};
    }
}

// The answer that a status and its body are. The proxy's own answers have no JSON, so they go by
// their status.
/** @param {number} status @param {string} text @returns {Answer} */
export function refusal(status, text) {
    const { name = '', refused, at } = bodyOf(text);
    const number = name === '' ? 0 : Number(refused);
    if (status === 0 || status === 429 || status >= 500 && status !== 501) {
        return { kind: 'lost', status, name, number };
    }
    if (name !== '') return { kind: 'refused', status, name, number, at, byDesk: true };
    const byProxy = wire.refusals.find((row) => row.name === BY_STATUS[status]);
    return {
        kind: 'refused',
        status,
        name: byProxy?.name ?? `HTTP ${status}`,
        number: byProxy?.number ?? 0,
        byDesk: false,
    };
}

// Whether an answer shows that no earlier try under the same key was taken: the desk answers a key
// that it has with the old reply. An early refusal, of an unknown caller or of what may be wrong
// with one try's request alone, comes before the desk has looked at the key.
/** @param {Answer} answer */
export function settles(answer) {
    if (answer.kind !== 'refused') return answer.kind === 'value';
    return answer.byDesk && !wire.refusals.find((row) => row.name === answer.name)?.early;
}

/** @param {number} status @param {string} text @returns {Answer} */
export function reply(status, text) {
    if (status !== 200) return refusal(status, text);
    try {
        return { kind: 'value', value: JSON.parse(text) };
    } catch {
        return { kind: 'lost', status };
    }
}

// The field by which a command lands on what was shown, or on nothing (If-Match, RFC 9110, section
// 13.1.1): of a request the SHA-256 of its submitted file, of a proposal its tag.
/** @param {string} tag @returns {Record<string, string>} */
export const matching = (tag) => ({ 'If-Match': `"${tag}"` });
