// Numbers, sizes, states and rules as people read them.

import { wire } from './wire.js';

/** @param {number} count */
export function grouped(count) {
    return count.toLocaleString('en-US');
}

/** @param {number} count @param {string} one @param {string} [many] */
export function counted(count, one, many = `${one}s`) {
    return `${grouped(count)} ${count === 1 ? one : many}`;
}

// Whether a word is the number of a request or a proposal.
/** @param {string | undefined} word */
export const isNumber = (word) => /^[1-9][0-9]{0,5}$/.test(word ?? '');

/** @param {string[]} parts joined as in a sentence */
export function joined(parts) {
    if (parts.length < 2) return parts.join('');
    return `${parts.slice(0, -1).join(', ')} and ${parts[parts.length - 1]}`;
}

/** So many of a list are named. */
export const SOME = 5;

/**
 * The first names of a list, and how many more there are.
 * @param {string[]} names @param {string} [joint] @param {number} [count] of all
 */
export function someOf(names, joint = ', ', count = names.length) {
    const more = count - SOME;
    return names.slice(0, SOME).join(joint) + (more > 0 ? ` and ${grouped(more)} more` : '');
}

/** @param {number} length */
export function size(length) {
    if (length < 10240) return counted(length, 'byte');
    const [unit, name] = length < 1048576 ? [1024, 'KiB'] : [1048576, 'MiB'];
    return `${(length / unit).toFixed(1)} ${name} (${counted(length, 'byte')})`;
}

/** @param {{ state: string }[]} all */
export function stateCounts(all) {
    /** @type {Record<string, number>} */
    const counts = { all: all.length };
    for (const { state } of all) counts[state] = (counts[state] ?? 0) + 1;
    return counts;
}

// The states as choices, with all of them behind.
/** @param {import('./wire.js').States} states @returns {[state: string, name: string][]} */
export function stateChoices(states) {
    return [...Object.keys(states), 'all'].map((state) => [state, states[state]?.name ?? 'All']);
}

/** @param {string} state of a request or a proposal */
export function stateName(state) {
    return (wire.words.requests[state] ?? wire.words.proposals[state])?.name ?? state;
}

/** @param {import('../desk/types.js').Vote[]} votes of a request @param {string} state its own */
export function voteWords(votes, state) {
    const yes = votes.filter(({ vote }) => vote === 'yes').length;
    const no = votes.length - yes;
    if (no > 0) return `${no} no${yes > 0 ? `, ${yes} yes` : ''}`;
    return state === 'open' ? `${yes} of 2 yes` : counted(yes, 'yes', 'yes');
}

// How the votes on a request stand, and whose they are.
/** @param {import('../desk/types.js').Vote[]} votes @param {string} state */
export function votesBy(votes, state) {
    const names = votes.map(({ reviewer }) => reviewer).join(', ');
    return `${voteWords(votes, state)}${names === '' ? '' : `, by ${names}`}`;
}

// How long ago a time of `timeOf` was; '' if there is none.
/** @param {string} time @param {number} [now] */
export function ageWords(time, now = Date.now()) {
    const then = Date.parse(`${time.replace(' ', 'T')}Z`);
    if (Number.isNaN(then)) return '';
    const minutes = Math.max(0, Math.floor((now - then) / 60000));
    if (minutes < 60) return `${counted(minutes, 'minute')} ago`;
    const hours = Math.floor(minutes / 60);
    return `${hours < 24 ? counted(hours, 'hour') : counted(Math.floor(hours / 24), 'day')} ago`;
}

// What is wrong with a text that the desk takes as printable ASCII, or '' if nothing is.
/** @param {string} text @param {number} most @param {string} name */
export function textFault(text, most, name) {
    const odd = [...text].find((one) => one < ' ' || one > '~');
    if (odd) {
        return `The ${name} has “${odd}”. The desk takes letters, digits and signs of ASCII alone.`;
    }
    if (text.length <= most) return '';
    return `The ${name} has ${text.length} characters, ${text.length - most} too many.`;
}

/** @param {import('../desk/types.js').Verdict} verdict why an image is refused or barred */
export function ruleWords({ verdict, component, generation = 0, level = 0 }) {
    const numbers = { generation: grouped(generation), level: grouped(level) };
    const parts = { component, ...numbers, is: 'is', requires: 'requires' };
    return filled(wire.words.rules[verdict] ?? verdict, parts);
}

// A text with these words in its places.
/** @param {string} text @param {Record<string, unknown>} parts */
export function filled(text, parts) {
    return text.replace(/\{(\w+)\}/g, (place, name) => String(parts[name] ?? place));
}

// The rule that bars an image, behind "by".
/** @param {import('../desk/types.js').Verdict} rule */
export function byWords(rule) {
    if (rule.verdict === 'dbx-digest') return 'its digest';
    if (rule.verdict === 'dbx-certificate') return 'a certificate that it carries';
    return ruleWords(rule);
}
