// An officer's own open proposals, when proposals were made, and why. It is kept with what waits.

import { get } from './api.js';
import { listed } from './lists.js';
import { reasonsIn } from './reasons.js';
import { me } from './session.js';
import { kept } from './waiting.js';
import { timeOf } from '../formats/sentences.js';

/** @typedef {import('./types.js').ProposalRow} ProposalRow */
/** @typedef {import('./waiting.js').Inbox} Inbox */

/** How many of the newest calls are read for when proposals were made, and why; if need be more. */
const [FEW, MANY] = [50, 500];

/** @param {Inbox} beside */
const nothing = (beside) => ({
    beside,
    /** @type {ProposalRow[] | null} null until they were read */
    own: null,
    /** The desk's number of changes when they were, and the least number of one that may be so. */
    ownAt: -1,
    oldest: 1,
    /** @type {Map<number, string>} by the clocks of their officers */
    times: new Map(),
    /** @type {Map<number, import('./reasons.js').Reason[]>} */
    reasons: new Map(),
    /** The first and the last call that were read for these. */
    from: 1,
    timed: 0,
});

let mine = nothing(kept());

function current() {
    if (mine.beside !== kept()) mine = nothing(kept());
    return mine;
}

// An officer's own open proposals, which wait for another officer: of the list what begins at the
// oldest that was open. What is known where it can't be read.
export async function ownProposals() {
    const into = current();
    const { changes } = into.beside;
    const isRead = into.own !== null && changes >= 0 && changes === into.ownAt;
    if (!me.officer || isRead) return into.own;
    const answer = await listed('proposals', undefined, into.oldest);
    if (answer.kind !== 'value') return into.own;
    /** @type {ProposalRow[]} */
    const rows = answer.value;
    into.own = rows.filter(({ officer, state }) => officer === me.name && state === 'open');
    into.oldest = into.own[0]?.number ?? (rows.at(-1)?.number ?? into.oldest - 1) + 1;
    into.ownAt = changes;
    return into.own;
}

// When proposals were made, by the newest calls; what is known where no more can be read.
export const times = async () => (await ofCalls()).times;

// The reasons of proposals among the newest calls, likewise.
export const lately = async () => (await ofCalls()).reasons;

// Each reason of a proposal comes behind the call that made it: what tells its age tells them, too.
async function ofCalls() {
    const into = current();
    const { changes, waiting } = into.beside;
    const rows = [...(waiting?.proposals ?? []), ...(into.own ?? [])];
    if (rows.length === 0) return into;
    const few = Math.max(1, changes - FEW + 1);
    const many = Math.max(1, changes - MANY + 1);
    const first = into.timed === 0 ? few : Math.max(many, into.timed + 1);
    if (changes > into.timed) await readCalls(into, first, changes);
    const isKnown = rows.every(({ number }) => into.times.has(number));
    if (!isKnown && many < into.from) await readCalls(into, many, changes);
    return into;
}

/** @param {ReturnType<typeof nothing>} into @param {number} first @param {number} last */
async function readCalls(into, first, last) {
    const { timed } = into;
    const answer = await get(`/minutes/${first}`, 'text');
    if (answer.kind !== 'value' || into.timed !== timed) return;
    // (what came since is read the next time)
    const lines = answer.value.split('\n').slice(0, last - first + 1);
    if (first <= timed) into.reasons = new Map();
    for (const [number, some] of reasonsIn(lines)) {
        into.reasons.set(number, [...(into.reasons.get(number) ?? []), ...some]);
    }
    for (const line of lines) {
        const [, , key, , reply] = line.split('\t');
        const made = /^proposed ([0-9]+)$/.exec(reply ?? '');
        if (made) into.times.set(Number(made[1]), timeOf(key));
    }
    into.from = timed === 0 ? first : Math.min(first, into.from);
    into.timed = last;
}
