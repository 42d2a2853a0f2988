// A command takes effect once. Its key is made with it and is sent with each try; it is kept until
// an answer came that tells what the desk did. A lost answer is asked for again with the same key:
// by itself three times, then by a button. Behind a lost answer a refusal by the proxy tells
// nothing, so it counts as lost too. A command without an answer, whether it still waits, was given
// up or was stopped, shares its key with the next one that says the same; of those that ended with
// a file, the newest four do.

import { settles } from './answers.js';
import { PAUSES, pause, post } from './api.js';
import { hex } from '../formats/digests.js';

// The time and 64 random bits, as deskctl makes one: the minutes get a time by it.
function newKey() {
    const time = new Date().toISOString().replace(/\.\d+|[-:]/g, '');
    return `${time}-${hex(crypto.getRandomValues(new Uint8Array(8)))}`;
}

/** @typedef {import('./types.js').Answer} Answer */
/** @typedef {import('./api.js').How} How */

/** @type {Answer} the end of a command that the desk may have accepted */
const STOPPED = { kind: 'stopped', sent: true };

/** @type {Set<Command>} the commands under way, and those whose answer was lost */
export const unanswered = new Set();

/** @type {Set<Command>} those that were given up or stopped without an answer */
const left = new Set();

/** How many of them may have a file, which stays in memory with each. */
const FILES = 4;

/** Grows at each sign-out: a key of the person before is of no use. */
let turn = 0;

// Forgets all keys of the person who signs out.
export function forgetKeys() {
    turn += 1;
    for (const command of unanswered) command.forget();
    unanswered.clear();
    left.clear();
}

let listener = () => {};

/** @param {() => void} next is called when `unanswered`, or the state of one of them, changes */
export function onChange(next) {
    listener = next;
}

// Tells that a part of a view was emptied: what was shown there of one without an answer may be
// gone.
export const tell = () => listener();

export class Command {
    /**
     * @param {string} what as people say it, as "Confirm proposal 3"
     * @param {string} path
     * @param {string | Uint8Array} body
     * @param {Record<string, string>} [fields]
     */
    constructor(what, path, body, fields = {}) {
        this.what = what;
        this.path = path;
        this.body = body;
        this.fields = fields;
        const others = [...left, ...unanswered].filter((other) => !other.answered);
        const before = others.find((other) => same(this, other))?.key;
        this.key = before ?? newKey();
        /** Whether a try under its key may have been taken, though no answer said so. */
        this.open = before !== undefined;
        /** Whether another command with its key has a reply: nothing about the key is open. */
        this.answered = false;
        this.turn = turn;
        /** `idle`, `sending`, `again` (it asks by itself) or `lost` (it waits for a button) */
        this.state = 'idle';
        /** @type {import('./types.js').Lost} the last answer that didn't tell what the desk did */
        this.lost = { kind: 'lost', status: 0 };
        /** @type {HTMLElement | null} where its view shows that its answer is lost */
        this.box = null;
        /** @type {HTMLElement | null} its bar and *Stop*, if it has a file */
        this.bar = null;
        /** Ends the wait for the button. */
        this.release = (/** @type {boolean} */ _again) => {};
    }

    /** @param {string} state @param {(command: Command) => void} show */
    becomes(state, show) {
        this.state = state;
        show(this);
        listener();
    }

    /**
     * Sends it until an answer of the desk came, or the person stopped or forgot it. Only one run
     * of a command is under way at a time.
     * @param {(command: Command) => void} [show] is called at each change of state
     * @param {How} [how]
     * @returns {Promise<Answer>}
     */
    async run(show = () => {}, how = {}) {
        unanswered.add(this);
        how.stop?.addEventListener('abort', () => this.forget());
        let answer = await this.tries(show, how);
        while (answer.kind === 'lost') {
            this.lost = answer;
            this.becomes('lost', show);
            const again = await new Promise((resolve) => (this.release = resolve));
            answer = again ? await this.tries(show, how) : STOPPED;
        }
        return this.ends(answer, show);
    }

    // One try, and three more while no answer comes.
    /** @param {(command: Command) => void} show @param {How} how @returns {Promise<Answer>} */
    async tries(show, how) {
        this.becomes('sending', show);
        let answer = await this.send(how);
        for (const wait of PAUSES) {
            if (answer.kind !== 'lost') return answer;
            this.lost = answer;
            this.becomes('again', show);
            await pause(wait, how.stop);
            if (how.stop?.aborted || this.isGone()) return STOPPED;
            answer = await this.send(how);
        }
        return answer;
    }

    // One try. Behind one that may have been taken, what doesn't settle that is no answer, however
    // far this one came.
    /** @param {How} how @returns {Promise<Answer>} */
    async send(how) {
        const fields = { ...this.fields, 'Desk-Key': this.key };
        const answer = await post(this.path, fields, this.body, how);
        if (answer.kind === 'refused' && this.open && !settles(answer)) {
            const { status, name, number } = answer;
            return { kind: 'lost', status, name, number };
        }
        if (answer.kind === 'stopped' && this.open) return STOPPED;
        if (answer.kind === 'lost') this.open = true;
        return answer;
    }

    /** @param {Answer} answer @param {(command: Command) => void} show */
    ends(answer, show) {
        unanswered.delete(this);
        const isStopped = answer.kind === 'stopped';
        const mine = [...left, ...unanswered].filter((other) => other.key === this.key);
        if (isStopped || settles(answer)) for (const other of mine) left.delete(other);
        // (however far it came: the browser may not know yet that all of it is sent)
        if (isStopped && !this.answered && !this.isGone()) keep(this);
        // (a refusal says nothing of tries that are still on their way)
        if (answer.kind === 'value') {
            for (const other of unanswered) other.answered ||= other.key === this.key;
        }
        this.becomes('idle', show);
        return answer;
    }

    /** Whether its person has signed out since. */
    isGone() {
        return this.turn !== turn;
    }

    /** Asks once more, with the same key. */
    askAgain() {
        this.release(true);
    }

    /** Gives up: whether the desk accepted it stays open. */
    forget() {
        this.release(false);
    }
}

/** @param {Command} command */
function keep(command) {
    left.add(command);
    const withFile = [...left].filter((one) => one.body instanceof Uint8Array);
    for (const old of withFile.slice(0, -FILES)) left.delete(old);
}

/** @param {Command} one @param {Command} other */
function same(one, other) {
    return one.path === other.path && sameBody(one.body, other.body)
        && JSON.stringify(one.fields) === JSON.stringify(other.fields);
}

/** @param {string | Uint8Array} one @param {string | Uint8Array} other */
function sameBody(one, other) {
    if (!(one instanceof Uint8Array && other instanceof Uint8Array)) return one === other;
    return one.length === other.length && one.every((byte, at) => byte === other[at]);
}

/** @param {string} what @param {string} path @param {object} value @param {any} [fields] */
export function jsonCommand(what, path, value, fields) {
    return new Command(what, path, JSON.stringify(value), fields);
}
