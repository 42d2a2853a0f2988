// Slips in a generation of the level, and in its stamp.

import { wire } from '../formats/wire.js';

/** @typedef {import('./doubts.js').Doubt} Doubt */
/** @typedef {import('./doubts.js').Known} Known */

const YEAR = 366 * 86400000;

const RAISED = 'Nothing lowers it again.';

/** @param {string} name @param {number} generation @param {Known} known @returns {Doubt[]} */
export function generationDoubts(name, generation, { now, names }) {
    const present = now.level.names.get(name);
    const texts = [];
    if (name === 'sbat') texts.push('The generation of sbat itself stays 1.');
    else if (generation <= (present ?? 0)) {
        texts.push(`${name} is at ${present} already; only a higher generation raises it.`);
    }
    if (generation > wire.limits.shim_generation) {
        const other = `so ${generation} isn’t what it compares with. ${RAISED}`;
        texts.push(`shim compares generations as 16 bits, ${other}`);
    } else if (generation >= (present ?? 0) + wire.limits.unusual_rise) {
        const above = `the present generation of ${name}, ${present ?? 'none'}. ${RAISED}`;
        texts.push(`${generation} is far above ${above}`);
    }
    if (!names.has(name)) {
        const nowhere = `Neither the level nor an image here has a component named ${name}.`;
        texts.push(`${nowhere} Is it spelt right?`);
    }
    return texts.map((text) => ({ text }));
}

/** @param {number} stamp @param {number} present @param {Date} [today] @returns {Doubt[]} */
export function stampDoubts(stamp, present, today = new Date()) {
    /** @type {Doubt[]} */
    const doubts = [];
    if (stamp <= present) doubts.push({ text: `The stamp isn’t above the level’s, ${present}.` });
    const text = String(stamp);
    const date = new Date(`${text.slice(0, 4)}-${text.slice(4, 6)}-${text.slice(6, 8)}T00:00:00Z`);
    const isDate = text.length === 10 && date.getUTCDate() === Number(text.slice(6, 8));
    if (!isDate || Math.abs(date.getTime() - today.getTime()) > YEAR) {
        const form = `a date of the last or the next year and two digits, as ${stampOf(today, 0)}`;
        doubts.push({ text: `${stamp} isn’t ${form}. Each later stamp has to be above it.` });
    }
    return doubts;
}

// The stamp of a day that is above the present one, if one is.
/** @param {Date} day @param {number} present */
export function stampOf(day, present) {
    const first = Number(`${day.toISOString().slice(0, 10).replaceAll('-', '')}00`);
    return present >= first && present < first + 99 ? present + 1 : first;
}
