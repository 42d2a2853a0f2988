// What waits for the person who is signed in, and what came of their own requests since then. It is
// kept until the sign-out; the desk's small answer tells whether there is anything to read.

import { get } from './api.js';
import { me } from './session.js';

/** @typedef {import('./types.js').Answer} Answer */
/** @typedef {import('./types.js').Request} Request */
/** @typedef {import('./types.js').ProposalRow} ProposalRow */
/** @typedef {{ requests: Request[], proposals: ProposalRow[] }} Waiting as GET /waiting has it */
/** @typedef {ReturnType<typeof nothing>} Inbox */

const nothing = () => ({
    /** The desk's number of changes when it was read; -1 before. */
    changes: -1,
    /** @type {Waiting | null} null until it was read */
    waiting: null,
    /** @type {Map<number, string>} how the person's own requests were that were under way */
    own: new Map(),
    /** @type {Map<number, Request>} those of them that changed, and weren't looked at since */
    changed: new Map(),
});

let mine = nothing();
// What is kept now: another object behind a sign-out.
export const kept = () => mine;
/** @type {Promise<Answer> | null} the look under way */
let running = null;
/** @type {Promise<Answer> | null} the one that begins behind it */
let next = null;
/** @type {Set<() => void>} */
const listeners = new Set();

// Forgets all of it: the person signs out.
export function forgetWaiting() {
    mine = nothing();
    [running, next] = [null, null];
    tell();
}

/** @param {() => void} listener is called as what is kept changes @returns {() => void} ends it */
export function listen(listener) {
    listeners.add(listener);
    return () => listeners.delete(listener);
}

const tell = () => [...listeners].forEach((listener) => listener());

/**
 * Looks once; a look under way serves too.
 * @param {boolean} [anew] not where it may have begun before what is looked for
 * @returns {Promise<Answer>} a fault, or a value once what is kept is the desk's
 */
export function look(anew = false) {
    if (running && !anew) return running;
    if (running) {
        next ??= running.then(() => {
            next = null;
            return look();
        });
        return next;
    }
    const run = readInto(mine).finally(() => {
        if (running === run) running = null;
    });
    running = run;
    return run;
}

/** @param {Inbox} into @returns {Promise<Answer>} */
async function readInto(into) {
    const told = await get('/changes');
    if (told.kind !== 'value') return told;
    const { changes } = told.value;
    if (changes === into.changes) return { kind: 'value', value: into };
    const answer = await get('/waiting');
    if (answer.kind !== 'value') return answer;
    const fault = await takeOwn(into, answer.value.requests.filter(isOwn));
    if (fault) return fault;
    Object.assign(into, { changes, waiting: answer.value });
    if (into === mine) tell();
    return { kind: 'value', value: into };
}

// What waits, read anew, whatever was kept.
/** @returns {Promise<import('./types.js').Answer<Waiting>>} */
export async function waitingNow() {
    const looked = await look(true);
    return looked.kind === 'value' ? get('/waiting') : looked;
}

/** @param {Request} request */
const isOwn = ({ submitter }) => me.submitter && submitter === me.name;

/** @param {Request} request */
function howOf({ state, votes }) {
    return `${state} ${votes.map(({ reviewer, vote }) => reviewer + vote)}`;
}

// Takes the person's own requests that are under way, and reads those that are so no more.
/** @param {Inbox} into @param {Request[]} own @returns {Promise<Answer | null>} a fault */
async function takeOwn(into, own) {
    const numbers = new Set(own.map(({ number }) => number));
    const left = [...into.own.keys()].filter((number) => !numbers.has(number));
    const ended = await Promise.all(left.map((number) => get(`/requests/${number}`)));
    const fault = ended.find(({ kind }) => kind !== 'value');
    if (fault) return fault;
    const values = ended.map((answer) => (answer.kind === 'value' ? answer.value : null));
    for (const request of [...own, ...values]) {
        const how = howOf(request);
        const before = into.own.get(request.number) ?? (into.waiting ? 'open ' : how);
        // (its submitter alone withdraws it)
        if (request.state === 'withdrawn') into.changed.delete(request.number);
        else if (how !== before) into.changed.set(request.number, request);
    }
    into.own = new Map(own.map((request) => [request.number, howOf(request)]));
    return null;
}

// The person looks at this request: it counts as changed no more.
/** @param {Request} request */
export function seen(request) {
    const { number } = request;
    if (mine.own.has(number)) mine.own.set(number, howOf(request));
    if (mine.changed.delete(number)) tell();
}

// What waits, what changed and what is under way; null until it was read.
export function inbox() {
    const { waiting, changed } = mine;
    if (!waiting) return null;
    const own = waiting.requests.filter(isOwn);
    return {
        requests: waiting.requests.filter((request) => !isOwn(request)),
        proposals: waiting.proposals,
        changed: [...changed.values()],
        under: own.filter(({ number }) => !changed.has(number)),
    };
}

// What is read of the list of requests so far, which begins with the oldest; and behind it what
// waits for the person or is theirs and under way.
/** @param {Request[]} some */
export function withWaiting(some) {
    const last = some.at(-1)?.number ?? 0;
    return [...some, ...(mine.waiting?.requests ?? []).filter(({ number }) => number > last)];
}

// How many wait for the person or changed: the one count that is shown anywhere.
export function count() {
    const now = inbox();
    return now ? now.requests.length + now.proposals.length + now.changed.length : 0;
}
