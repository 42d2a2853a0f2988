// What this page shares with deskctl and the documents: page/wire/*.json, read once, before anybody
// signs in. Until then it is empty.

/**
 * @typedef {Record<string, string>} Texts
 * @typedef {{ number: number, name: string, means: string, told?: string, next?: string,
 *   page?: string, early?: boolean }} Refusal
 * @typedef {{ name: string, guid: string, entry?: [number, number | null] }} ListType
 * @typedef {{ types: ListType[], owners: Texts, versions: Texts }} Lists
 * @typedef {Record<string, { name: string, means: string }>} States
 * @typedef {{ votes: Texts, rules: Texts, names: Texts, shim: Texts, requests: States,
 *   returned: string, proposals: States, arches: Texts,
 *   looks: [begin: string, words: string][], brought: Texts }} Words
 * @typedef {{ kind: string, command: string, reply: string, sentence: string }} Sentence
 * @typedef {{ none: string, of: [word: string, one: string, many: string][] }} Count
 * @typedef {{ time: string, kinds: Texts, forms: Texts, nothing: Texts, touched: Texts,
 *   standing: Texts, answers: Texts, counts: Record<string, Count>, rows: Sentence[] }} Sentences
 * @typedef {{ refusals: Refusal[], lists: Lists, limits: Record<string, number>, words: Words,
 *   sentences: Sentences, questions: Record<string, Texts> }} Wire
 * @typedef {{ kind: 'lost', status: number }} Lost
 */

const NAMES = ['refusals', 'lists', 'limits', 'words', 'sentences', 'questions'];

export const wire = /** @type {Wire} */ ({});

/** @type {Promise<Lost | null> | null} */
let running = null;

/**
 * Reads it, once; where a part doesn't come, the next call tries again.
 * @param {(name: string) => Promise<any>} [read] a part by its name; throws the status of what came
 * @returns {Promise<Lost | null>} null once all of it is here
 */
export function readWire(read = fetched) {
    running ??= all(read);
    return running;
}

/** @param {(name: string) => Promise<any>} read @returns {Promise<Lost | null>} */
async function all(read) {
    try {
        const parts = await Promise.all(NAMES.map(read));
        Object.assign(wire, Object.fromEntries(NAMES.map((name, at) => [name, parts[at]])));
        return null;
    } catch (status) {
        running = null;
        return { kind: 'lost', status: typeof status === 'number' ? status : 0 };
    }
}

/** @param {string} name */
async function fetched(name) {
    const path = `/page/wire/${name}.json`;
    const response = await fetch(path, { redirect: 'error', referrerPolicy: 'no-referrer' });
    if (response.status !== 200) throw response.status;
    // (its texts have a typewriter's apostrophes)
    return JSON.parse((await response.text()).replaceAll('\'', '’'));
}
