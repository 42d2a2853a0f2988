// The level without the names that shim can do without, by page/wire/cases/levels.json.

import { get } from './api.js';
import { listed } from './lists.js';
import { levelOf } from '../formats/sbat.js';

/** @typedef {import('./types.js').Component} Component */
/** @typedef {Map<string, number>} Generations */
/** @typedef {{ state: string, stamp: number | null, components: Component[] }} Raise */
/** @typedef {{ text: string, level: Generations, left: Map<string, string> }} ForShim */

// Of `grub.debian.one` first `grub.debian`, then `grub`.
/** @param {string} name */
function parents(name) {
    const parts = name.split('.');
    return parts.slice(1).map((_, at) => parts.slice(0, parts.length - 1 - at).join('.'));
}

// Of each name the stamp of the first confirmed proposal that raised it to where it is.
/** @param {Generations} level @param {Iterable<Raise>} proposals */
export function reached(level, proposals) {
    /** @type {Generations} */
    const found = new Map();
    for (const { state, stamp, components } of proposals) {
        if (state !== 'confirmed' || !stamp) continue;
        for (const [name, generation] of components) {
            if (generation < (level.get(name) ?? generation + 1)) continue;
            found.set(name, Math.min(found.get(name) ?? stamp, stamp));
        }
    }
    return found;
}

/**
 * The names that a later raise of a parent covers, each with it; none that alone bars one of these
 * images, given by their components.
 * @param {Generations} level
 * @param {Generations} stamps
 * @param {Iterable<Component[]>} images
 */
export function covered(level, stamps, images) {
    /** @type {Map<string, string>} */
    const found = new Map();
    for (const name of level.keys()) {
        const own = stamps.get(name) ?? 0;
        const later = parents(name).filter((one) => own > 0 && own < (stamps.get(one) ?? 0));
        if (later.length > 0) found.set(name, later[later.length - 1]);
    }
    for (const components of images) {
        const lows = components
            .filter(([name, generation]) => generation < (level.get(name) ?? 0))
            .map(([name]) => name);
        if (lows.every((name) => found.has(name))) lows.forEach((name) => found.delete(name));
    }
    return found;
}

/** @param {number} stamp @param {Generations} level */
export function levelText(stamp, level) {
    const rows = [...level.keys()].sort().map((name) => `${name},${level.get(name)}\n`);
    return `sbat,1,${stamp}\n${rows.join('')}`;
}

// The level for shim, by the confirmed proposals and the requests.
/** @returns {Promise<import('./types.js').Answer<ForShim>>} */
export async function forShim() {
    const [now, proposals, requests] = await Promise.all(
        [get('/level', 'text'), listed('proposals'), listed('requests')],
    );
    if (now.kind !== 'value') return now;
    if (proposals.kind !== 'value') return proposals;
    if (requests.kind !== 'value') return requests;
    /** @type {Raise[]} */
    const raises = [];
    for (const { number, state, components } of proposals.value) {
        if (state !== 'confirmed' || components === 0) continue;
        const answer = await get(`/proposals/${number}`);
        if (answer.kind !== 'value') return answer;
        raises.push(answer.value);
    }
    const { stamp, names } = levelOf(now.value);
    const images = requests.value.map(({ components }) => components);
    const left = covered(names, reached(names, raises), images);
    const level = new Map([...names].filter(([name]) => !left.has(name)));
    return { kind: 'value', value: { text: levelText(stamp, level), level: names, left } };
}
