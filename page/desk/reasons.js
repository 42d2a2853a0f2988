// Why a proposal was made: the reasons that officers gave, by the minutes.

import { get } from './api.js';
import { minuteOf, timeOf } from '../formats/sentences.js';

/** @typedef {{ officer: string, time: string, text: string }} Reason its time by the key's clock */

/** How many lines the desk gives at once. */
const PART = 1000;

// Those of each proposal that lines of minutes explain, in their order.
/** @param {string[]} lines */
export function reasonsIn(lines) {
    /** @type {Map<number, Reason[]>} */
    const found = new Map();
    for (const line of lines) {
        const minute = line.includes('\texplain ') ? minuteOf(line) : null;
        const { REASON: text, PROPOSAL: number } = minute?.said?.values ?? {};
        if (!minute || !text) continue;
        const one = { officer: minute.caller, time: timeOf(minute.key), text };
        found.set(Number(number), [...(found.get(Number(number)) ?? []), one]);
    }
    return found;
}

// Those of a proposal: the newest lines first, back to the call that made it.
/** @param {number} number @returns {Promise<import('./types.js').Answer<Reason[]>>} */
export async function reasonsOf(number) {
    const told = await get('/changes');
    if (told.kind !== 'value') return told;
    /** @type {Reason[]} */
    let found = [];
    let last = told.value.changes;
    while (last > 0) {
        const first = Math.max(last - PART + 1, 1);
        const answer = await get(`/minutes/${first}`, 'text');
        if (answer.kind !== 'value') return answer;
        /** @type {string[]} */
        const lines = answer.value.split('\n').slice(0, last - first + 1);
        found = [...(reasonsIn(lines).get(number) ?? []), ...found];
        last = lines.some((line) => line.endsWith(`\tproposed ${number}`)) ? 0 : first - 1;
    }
    return { kind: 'value', value: found };
}
