// Minutes in words, by the sentences that deskctl has, too: page/wire/sentences.json.

import { wire } from './wire.js';
import { counted, joined } from './words.js';

/**
 * A command's text with its reply's, by their words in order, and what they say; a call's two
 * texts, read, with the values by the row's words; a line, whose `said` is null where the table has
 * no row.
 * @typedef {{ kind: string, command: string[], reply: string[], sentence: string }} Row
 * @typedef {{ row: Row, values: Record<string, string> }} Said
 * @typedef {{ number: number, caller: string, key: string, text: string, reply: string,
 *   said: Said | null }} Minute
 */

/** @type {typeof wire.sentences | null} what `rows` and `forms` were made of */
let made = null;
/** @type {Map<string, Row[]>} by the command's first word */
const rows = new Map();
/** @type {Map<string, RegExp>} */
const forms = new Map();

// The sentences, with their rows and forms made ready.
function table() {
    const { sentences } = wire;
    if (made === sentences) return sentences;
    made = sentences;
    for (const name of Object.keys(sentences.forms)) {
        forms.set(name, RegExp(`^(?:${sentences.forms[name]})$`));
    }
    for (const { command, reply, ...rest } of sentences.rows) {
        const row = { ...rest, command: command.split(' '), reply: reply.split(' ') };
        rows.set(row.command[0], [...(rows.get(row.command[0]) ?? []), row]);
    }
    return sentences;
}

/** @param {string} word a command's first */
function rowsOf(word) {
    table();
    return rows.get(word) ?? [];
}

// The kinds of calls: name and title.
export const kinds = () => Object.entries(table().kinds);

// The kind of a line by its command's first word; '' if the table has none.
/** @param {string} line */
export function kindOf(line) {
    const key = line.indexOf('\t', line.indexOf('\t') + 1) + 1;
    const at = line.indexOf('\t', key) + 1;
    return rowsOf(line.slice(at, line.indexOf(' ', at)))[0]?.kind ?? '';
}

// Reads a text by a row's words into the values. The last word takes what is left.
/** @param {string[]} words @param {string} text @param {Record<string, string>} values */
function matched(words, text, values) {
    let rest = text;
    return words.every((word, at) => {
        const end = at === words.length - 1 ? rest.length : rest.indexOf(' ');
        if (end < 0) return false;
        const part = rest.slice(0, end);
        rest = rest.slice(end + 1);
        const form = forms.get(word);
        if (!form) return part === word;
        values[word] ??= part;
        return form.test(part) && values[word] === part;
    });
}

// A command's text and its reply's by the table's row, if it has one.
/** @param {string} text @param {string} reply @returns {Said | null} */
function saidOf(text, reply) {
    for (const row of rowsOf(text.split(' ', 1)[0])) {
        /** @type {Record<string, string>} */
        const values = {};
        const isRow = matched(row.command, text, values) && matched(row.reply, reply, values);
        if (isRow) return { row, values };
    }
    return null;
}

// A line without its end; null where it isn't one of minutes.
/** @param {string} line @returns {Minute | null} */
export function minuteOf(line) {
    const [number, caller, key, text, reply, more] = line.split('\t');
    if (reply === undefined || more !== undefined || !/^[0-9]+$/.test(number)) return null;
    return { number: Number(number), caller, key, text, reply, said: saidOf(text, reply) };
}

// The time that its key begins with, by the clock of whoever made the key.
/** @param {string} key */
export function timeOf(key) {
    const found = RegExp(table().time).exec(key);
    return found ? `${found.slice(1, 4).join('-')} ${found.slice(4, 7).join(':')}` : '';
}

/** @param {Said} said @param {string} word */
function items({ values }, word) {
    return (values[word] ?? '-') === '-' ? [] : values[word].split(',');
}

/** @param {string} name @param {Said} said */
function countWords(name, said) {
    const { none, of } = table().counts[name];
    const found = of.flatMap(([word, one, many]) => {
        // (a digest may have no letter)
        const isCount = word.startsWith('NEW_');
        const count = isCount ? Number(said.values[word]) : items(said, word).length;
        return count > 0 ? [counted(count, one, many)] : [];
    });
    return joined(found) || none;
}

// The sentence of a line in parts: texts, and values by the word of the table that they are.
/** @param {Minute} minute @returns {(string | { word: string, value: string })[]} */
export function parts({ said, caller, text, reply }) {
    if (!said) return [`${caller}: ${text} (${reply})`];
    const { nothing, counts } = table();
    // (what stands in brackets is left out where a word in it has nothing)
    const sentence = said.row.sentence.replace(/\[([^\]]*)\]/g, (_, inner) => {
        const words = [...inner.matchAll(/\{(\w+)\}/g)].map(([, word]) => word);
        return words.some((word) => said.values[word] === nothing[word]) ? '' : inner;
    });
    // (each second part is a word in braces)
    return sentence.split(/\{(\w+)\}/).map((part, at) => {
        if (at % 2 === 0) return part;
        if (part === 'CALLER') return { word: part, value: caller };
        return { word: part, value: part in counts ? countWords(part, said) : said.values[part] };
    });
}

/** @param {Minute} minute */
export function sentenceOf(minute) {
    return parts(minute).map((part) => (typeof part === 'string' ? part : part.value)).join('');
}

// The values of a list and of a word alone.
/** @param {Said} said @param {string} list @param {string} alone */
function valuesOf(said, list, alone) {
    const value = said.values[alone];
    return value === undefined ? items(said, list) : [...items(said, list), value];
}

/** @param {Said} said */
export const digestsIn = (said) => valuesOf(said, 'DIGESTS', 'DIGEST');

/** @param {Said} said */
export const certificatesIn = (said) => valuesOf(said, 'CERTIFICATES', 'CERTIFICATE');

// The components that a call names, each with its generation.
/** @param {Said} said @returns {[name: string, generation: number][]} */
export function componentsIn(said) {
    const { COMPONENT, GENERATION } = said.values;
    const pairs = items(said, 'COMPONENTS');
    if (COMPONENT !== undefined) pairs.push(`${GENERATION}:${COMPONENT}`);
    return pairs.map((pair) => {
        const colon = pair.indexOf(':');
        return [pair.slice(colon + 1), Number(pair.slice(0, colon))];
    });
}
