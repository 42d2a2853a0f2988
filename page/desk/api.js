// Requests to the desk, and what came of each. The token lives in this module's memory alone: it is
// in no storage, no cookie and no address, and a reload forgets it. What was asked with a token
// ends with it: nothing of it reaches the next person.

import { refusal, reply } from './answers.js';

/** @typedef {import('./types.js').Answer} Answer */
/**
 * How a body goes out.
 * @typedef {{ progress?: (sent: number, whole: number) => void, stop?: AbortSignal }} How
 */

let token = '';

/** Ends what is asked with this token. */
let person = new AbortController();

/** @type {Promise<void> | null} ends once the person is back who is away */
let away = null;
let back = () => {};

/** @param {string} text what Desk-Token has from now on; empty for none */
export function setToken(text) {
    person.abort();
    person = new AbortController();
    goOn(text);
}

// Forgets the token while the person is away: what isn't sent yet waits.
export function hold() {
    token = '';
    away ??= new Promise((resolve) => (back = resolve));
}

/** @param {string} text the token with which all goes on */
export function goOn(text) {
    token = text;
    away = null;
    back();
}

/** @param {string} text a token @returns {Promise<Answer>} whose it is */
export const whose = (text) => once('/me', 'json', person.signal, text);

// What a person hears who has signed out: no answer ever comes.
/** @returns {Promise<any>} */
const never = () => new Promise(() => {});

// Whether a digest, in small letters, is the token that is in use.
/** @param {string} digest */
export const isOwnToken = (digest) => digest === token.toLowerCase();

/** @param {string} text */
export function isToken(text) {
    return /^[!-~]{16,128}$/.test(text);
}

/** @param {Record<string, string>} fields @param {string} own a token */
function headers(fields, own) {
    return own === '' ? fields : { 'Desk-Token': own, ...fields };
}

/**
 * @param {number} milliseconds
 * @param {AbortSignal} [stop] ends it before its time
 * @returns {Promise<unknown>}
 */
export function pause(milliseconds, stop) {
    return new Promise((resolve) => {
        setTimeout(resolve, milliseconds);
        stop?.addEventListener('abort', resolve);
    });
}

/** How long an answer may take once all is sent, in milliseconds; the proxy waits 300 seconds. */
const ANSWER = 330000;

/** How long to wait before each further try of its own, in milliseconds. */
export const PAUSES = [1000, 2000, 4000];

// Reads a resource, asking again by itself where no answer comes: reading changes nothing.
/** @param {string} path @param {'json' | 'text' | 'bytes'} [as] @returns {Promise<Answer>} */
export async function get(path, as = 'json') {
    const { signal } = person;
    const asks = async () => {
        await away;
        return once(path, as, signal, token);
    };
    let answer = await asks();
    for (const wait of PAUSES) {
        if (answer.kind !== 'lost') return answer;
        await pause(wait);
        answer = await asks();
    }
    return answer;
}

/**
 * @param {string} path
 * @param {'json' | 'text' | 'bytes'} as
 * @param {AbortSignal} signal of the person who asks
 * @param {string} own the token
 * @returns {Promise<Answer>}
 */
async function once(path, as, signal, own) {
    if (signal.aborted) return never();
    const ends = new AbortController();
    const end = () => ends.abort();
    const late = setTimeout(end, ANSWER);
    signal.addEventListener('abort', end);
    try {
        const response = await fetch(path, {
            headers: headers({}, own),
            cache: 'no-store',
            redirect: 'error',
            referrerPolicy: 'no-referrer',
            signal: ends.signal,
        });
        // (what has begun to come may take its time)
        clearTimeout(late);
        if (response.status !== 200) return refusal(response.status, await response.text());
        if (as === 'json') return { kind: 'value', value: await response.json() };
        if (as === 'text') return { kind: 'value', value: await response.text() };
        return { kind: 'value', value: new Uint8Array(await response.arrayBuffer()) };
    } catch {
        return signal.aborted ? never() : { kind: 'lost', status: 0 };
    } finally {
        clearTimeout(late);
        signal.removeEventListener('abort', end);
    }
}

/**
 * Posts a body once. XMLHttpRequest tells how much of it has gone out, which fetch doesn't.
 * @param {string} path
 * @param {Record<string, string>} fields
 * @param {string | Uint8Array} body
 * @param {How} [how]
 * @returns {Promise<Answer>}
 */
export function post(path, fields, body, how = {}) {
    const { signal } = person;
    if (away) return away.then(() => (signal.aborted ? never() : post(path, fields, body, how)));
    const request = new XMLHttpRequest();
    const stop = () => request.abort();
    for (const one of [how.stop, signal]) one?.addEventListener('abort', stop);
    let sent = false;
    let late = 0;
    /** @type {Promise<Answer>} */
    const answer = new Promise((resolve) => {
        const { upload } = request;
        const lost = () => resolve({ kind: 'lost', status: 0 });
        const stopped = () => signal.aborted || resolve({ kind: 'stopped', sent });
        const came = () => resolve(reply(request.status, request.responseText));
        upload.addEventListener('progress', ({ loaded, total }) => how.progress?.(loaded, total));
        upload.addEventListener('load', () => {
            sent = true;
            how.progress?.(1, 1);
            waits();
        });
        request.addEventListener('abort', stopped);
        request.addEventListener('error', lost);
        request.addEventListener('load', came);
        const waits = () => {
            late ||= setTimeout(() => {
                lost();
                stop();
            }, ANSWER);
        };
        // (an upload of nothing has no events)
        if (body.length === 0) waits();
    });
    request.addEventListener('loadend', () => {
        clearTimeout(late);
        for (const one of [how.stop, signal]) one?.removeEventListener('abort', stop);
    });
    request.open('POST', path);
    const all = headers(fields, token);
    for (const name of Object.keys(all)) request.setRequestHeader(name, all[name]);
    request.send(body);
    return answer;
}
