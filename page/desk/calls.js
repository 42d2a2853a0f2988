// The minutes, kept until the sign-out: read on from where they ended, the newest first. And what
// was asked about, by numbers: an address has no digest, so that the browser's history has none.

import { get, pause } from './api.js';
import { minuteOf, sentenceOf } from '../formats/sentences.js';

/** @typedef {import('./types.js').Answer} Answer */
/**
 * What is asked about: a SHA-256 of whatever it is, a component, a proposal's number, or an image
 * by its facts, with its file's name.
 * @typedef {{ hex?: string, component?: string, proposal?: string, image?: Image }} Asked
 * @typedef {import('./types.js').Facts & { name: string }} Image
 * @typedef {ReturnType<typeof nothing>} Minutes
 */

/** How many lines the desk gives at once. */
const PART = 1000;

const nothing = () => ({
    /** @type {string[]} by their number, less one; one that isn't here yet is undefined */
    lines: [],
    /** @type {string[]} some of them in words, in small letters, as a search needs them */
    words: [],
    /** How many are here, and how many of the first ones without a gap. */
    known: 0,
    whole: 0,
    /** @type {Set<string>} who made calls */
    callers: new Set(),
    /** @type {Asked[]} */
    asked: [],
    /** @type {Map<string, number>} */
    numbers: new Map(),
    /** What History was last set to. */
    filter: { person: '', kind: '', text: '' },
});

let mine = nothing();
/** @type {Promise<Answer> | null} */
let running = null;
/** @type {Set<() => void>} */
const listeners = new Set();

// What is kept of the minutes now.
export const minutes = () => mine;

// Forgets all of it: its reader signs out.
export function forgetMinutes() {
    mine = nothing();
    running = null;
    listeners.clear();
}

/**
 * Reads the minutes on, as far as they go. Only one run is under way at a time.
 * @param {() => void} [listener] is called as lines come
 * @returns {Promise<Answer>} a fault, or a value once all are here
 */
export async function readOn(listener = () => {}) {
    listeners.add(listener);
    const run = running ?? all(mine);
    running = run;
    const answer = await run;
    listeners.delete(listener);
    if (running === run) running = null;
    return answer;
}

/** @param {Minutes} into @returns {Promise<Answer>} */
async function all(into) {
    // (the last line once more: a desk that was restored from an older copy has another one, or
    // none)
    const last = into.whole > 0 ? await part(into, into.whole) : null;
    if (last && last.kind !== 'value') return last;
    if (last && last.value < 1) Object.assign(into, { lines: [], words: [], known: 0, whole: 0 });
    const fault = into.lines.length === 0 ? await newest(into) : null;
    if (fault) return fault;
    for (;;) {
        while (into.lines[into.whole] !== undefined) into.whole += 1;
        const answer = await part(into, into.whole + 1);
        if (answer.kind !== 'value' || answer.value === 0) return answer;
    }
}

// Makes room for all lines, and reads the newest ones where there are several parts.
/** @param {Minutes} into */
async function newest(into) {
    const report = await get('/report', 'text');
    if (report.kind !== 'value') return report;
    const count = Number(/^commands +([0-9]+)$/m.exec(report.value)?.[1] ?? 0);
    // (an array of this length, since one that is filled from its end would be slow)
    into.lines = Array(count);
    into.words = Array(count);
    const answer = count > PART ? await part(into, count - PART + 1) : null;
    return answer && answer.kind !== 'value' ? answer : null;
}

/**
 * @param {Minutes} into
 * @param {number} first
 * @returns {Promise<import('./types.js').Answer<number>>} how many came; -1 if the first line is
 * another than the one that is kept
 */
async function part(into, first) {
    const answer = await get(`/minutes/${first}`, 'text');
    if (answer.kind !== 'value') return answer;
    /** @type {string[]} */
    const rows = answer.value.split('\n').slice(0, -1);
    if (rows.length > 0 && !rows[0].startsWith(`${first}\t`)) return { kind: 'lost', status: 200 };
    const isOther = rows.length > 0 && (into.lines[first - 1] ?? rows[0]) !== rows[0];
    if (isOther) return { kind: 'value', value: -1 };
    rows.forEach((row, at) => {
        if (into.lines[first - 1 + at] === undefined) into.known += 1;
        into.lines[first - 1 + at] = row;
        into.callers.add(callerOf(row));
    });
    for (const listener of [...listeners]) listener();
    return { kind: 'value', value: rows.length };
}

/** @param {string} line */
export function callerOf(line) {
    const at = line.indexOf('\t') + 1;
    return line.slice(at, line.indexOf('\t', at));
}

// A line in words, in small letters. They are kept: 100,000 take seconds to make.
/** @param {number} at its number, less one */
export function wordsAt(at) {
    const { lines, words } = mine;
    if (words[at] === undefined) {
        const minute = minuteOf(lines[at]);
        words[at] = minute ? sentenceOf(minute).toLowerCase() : '';
    }
    return words[at];
}

// Puts the lines into words while the page has nothing else to do, where the browser tells that.
/** @param {() => boolean} goes whether it is still wanted */
export function wordsAhead(goes) {
    if (!('requestIdleCallback' in window)) return;
    const { lines } = mine;
    let at = lines.length;
    /** @param {IdleDeadline} idle */
    const some = (idle) => {
        if (lines !== mine.lines || !goes()) return;
        while (at > 0 && idle.timeRemaining() > 2) {
            at -= 1;
            if (lines[at] !== undefined) wordsAt(at);
        }
        if (at > 0) requestIdleCallback(some);
    };
    requestIdleCallback(some);
}

// The number of what is asked about, for an address.
/** @param {Asked} asked */
export function numberOf(asked) {
    const name = JSON.stringify(asked);
    const found = mine.numbers.get(name);
    if (found !== undefined) return found;
    mine.numbers.set(name, mine.asked.push(asked));
    return mine.asked.length;
}

// What a number in an address asks about.
/** @param {string} word @returns {Asked | undefined} */
export const askedAt = (word) => mine.asked[Number(word) - 1];

/**
 * Goes through lines in slices, so that the page answers meanwhile.
 * @param {number} from
 * @param {number} to excluded; below `from` it goes down
 * @param {(line: string, at: number) => void} take
 * @param {() => boolean} goes whether it is still wanted
 * @returns {Promise<boolean>} whether it came to the end
 */
export async function slices(from, to, take, goes) {
    const { lines } = mine;
    const step = from < to ? 1 : -1;
    let at = from;
    for (;;) {
        // (before the first slice, too: a person types faster than one is done)
        await pause(0);
        if (!goes()) return false;
        if (at === to) return true;
        const until = performance.now() + 10;
        do {
            if (lines[at] !== undefined) take(lines[at], at);
            at += step;
        } while (at !== to && (at % 64 !== 0 || performance.now() < until));
    }
}
