// The text of an SBAT level, and where a variable or an image holds one.

import { sentence } from './brought.js';
import { textsIn } from './pe.js';
import { VARIABLE, isVariable } from './update.js';
import { wire } from './wire.js';
import { filled } from './words.js';

/** @typedef {{ stamp: number, names: Map<string, number> }} Level */

/** How a level begins, wherever it stands, and how a line of one does: its first may be missing. */
const LEVEL = /^sbat,0*1,[0-9]{10}(?![0-9])/;
const STAMPS = /^sbat,0*1,([0-9]{10})(?![0-9])/gm;
const ROW = /^[!-+\--~]{1,128},[0-9]{1,10}(?:,|\s*$)/;
/** So many stamps are told. */
const MANY = 20;
/** The sections of an image of revocations: the level that shim applies by itself, the latest. */
const LEVEL_SECTIONS = ['.sbata', '.sbatl'];

// A file as text, a byte a character.
/** @param {Uint8Array} bytes */
export const textOf = (bytes) => new TextDecoder('latin1').decode(bytes);

// Whether a text begins as a level does.
/** @param {string} text */
export const isLevel = (text) => LEVEL.test(text);

// Whether each line is one of a level's, or has nothing.
/** @param {Uint8Array} bytes */
export function looksLikeLevel(bytes) {
    const [first, ...others] = textOf(bytes).split('\n');
    return ROW.test(first) && others.every((line) => ROW.test(line) || /^[\s\0]*$/.test(line));
}

// What is said of a text with levels and more than one of them, or with words before it; nothing of
// another text.
/** @param {Uint8Array} bytes */
export function several(bytes) {
    const end = bytes.indexOf(0);
    const text = textOf(end < 0 ? bytes : bytes.subarray(0, end));
    const stamps = [...text.matchAll(STAMPS)].map(([, stamp]) => stamp);
    if (stamps.length === 0 || (stamps.length === 1 && text.startsWith('sbat,'))) return '';
    const { brought } = wire.words;
    const told = [...new Set(stamps.slice(0, MANY))].join(', ');
    return `${sentence(filled(brought.levels, { stamps: told }))} ${brought.alone}`;
}

// A level's text: its stamp, and the greatest generation of each name.
/** @param {string} text @returns {Level} */
export function levelOf(text) {
    const lines = text.split(/\r?\n/).filter((line) => line !== '');
    const [first, ...rows] = lines.map((line) => line.split(','));
    const names = greatest(rows.map(([name, generation]) => [name, Number(generation)]));
    return { stamp: Number(first?.[2]), names };
}

// Those of the components that are above a level.
/** @param {Iterable<[name: string, generation: number]>} components @param {Level} level */
export function higher(components, { names }) {
    return [...components].filter(([name, generation]) => generation > (names.get(name) ?? 0));
}

// The greatest generation of each name.
/** @param {[string, number][]} rows */
export function greatest(rows) {
    /** @type {Map<string, number>} */
    const names = new Map();
    for (const [name, generation] of rows) {
        names.set(name, Math.max(names.get(name) ?? 0, generation));
    }
    return names;
}

// The text of a level that a variable or an image holds, and what is said of that; null where none
// does.
/** @param {Uint8Array} bytes @returns {{ text: Uint8Array, notes: string[] } | null} */
export function levelHeld(bytes) {
    const { brought } = wire.words;
    if (isVariable(bytes) && textOf(bytes.subarray(4, 9)) === 'sbat,') {
        return { text: bytes.subarray(4), notes: [`4 bytes before it are left out: ${VARIABLE}.`] };
    }
    const isImage = textOf(bytes.subarray(0, 2)) === 'MZ';
    const [taken, ...others] = isImage ? textsIn(bytes, LEVEL_SECTIONS) : [];
    if (!taken) return null;
    const notes = [sentence(filled(brought.image, { section: taken[0] }))];
    for (const [section, text] of others.filter(([, text]) => textOf(text) !== textOf(taken[1]))) {
        const { stamp } = levelOf(textOf(text));
        notes.push(filled(brought.other, { section, stamp: String(stamp) }));
    }
    return { text: taken[1], notes };
}
