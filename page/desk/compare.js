// Whether a file at hand is the image of a request, what differs, and what the lists say of it
// today. The facts of both are the desk's; they are compared here.

import { grouped, size } from '../formats/words.js';

/**
 * @typedef {import('./types.js').Component} Component
 * @typedef {import('./types.js').Facts} Facts
 * @typedef {import('./types.js').Request} Request
 * @typedef {import('./standing.js').Standing} Standing
 * @typedef {import('./standing.js').Allowed} Allowed
 * @typedef {import('./standing.js').Revoked} Revoked
 * @typedef {{ kind: 'file' | 'returned' | 'image' | 'padding' | 'other', text: string }} Likeness
 * @typedef {[what: string, there: string, here: string]} Difference
 */

/** @param {Request} request @param {string} sha256 of a whole file @returns {Likeness | null} */
export function sameFile({ file, returned }, sha256) {
    if (sha256 === file) return { kind: 'file', text: 'This is the file that was submitted.' };
    if (sha256 !== returned) return null;
    return { kind: 'returned', text: 'This is the signed file that was returned.' };
}

// In which way a file is the image of a request, or that it isn't.
/** @param {Request} request @param {Facts} here @returns {Likeness} */
export function likeness(request, here) {
    const same = sameFile(request, here.file);
    if (same) return same;
    const { digest, signing } = request;
    const equal = [
        [here.digest, digest, 'its digest is that of the request'],
        [here.digest, signing, 'its digest is the one that the request has for a signature'],
        [here.signing, digest, 'its digest for a signature is that of the request'],
    ].find(([one, other]) => one === other);
    if (equal) {
        const text = `It is the same image with another signature table: ${equal[2]}.`;
        return { kind: 'image', text };
    }
    if (here.signing !== signing) return { kind: 'other', text: 'It is another image.' };
    const text = 'It is the same image but for zero bytes at its end, which padding adds.';
    return { kind: 'padding', text };
}

// The generations of each component, which may come twice.
/** @param {Component[]} components */
function generations(components) {
    /** @type {Map<string, number[]>} */
    const found = new Map();
    for (const [name, generation] of components) {
        found.set(name, [...(found.get(name) ?? []), generation].sort((one, other) => one - other));
    }
    return new Map([...found].map(([name, all]) => [name, all.map(grouped).join(' and ')]));
}

/**
 * What differs between the file that was submitted and one at hand.
 * @param {Request} request
 * @param {Facts} here
 * @param {Map<string, string>} whose the subjects of carried certificates
 */
export function differences(request, here, whose) {
    const [there, now] = [generations(request.components), generations(here.components)];
    const gone = request.carried.filter((one) => !here.carried.includes(one));
    const added = here.carried.filter((one) => !request.carried.includes(one));
    const names = [...new Set([...there.keys(), ...now.keys()])];
    /** @type {Difference[]} */
    const rows = [
        ['Length', `${grouped(request.length)} bytes`, `${grouped(here.length)} bytes`],
        ['Digest', request.digest, here.digest],
        ['Digest in a signature', request.signing, here.signing],
        ['Bytes in no section', grouped(request.gap), grouped(here.gap)],
    ];
    for (const name of names) {
        rows.push([`Component ${name}`, there.get(name) ?? 'none', now.get(name) ?? 'none']);
    }
    for (const one of gone) rows.push(['Certificate', one, 'not carried']);
    for (const one of added) rows.push(['Certificate', 'not carried', named(one, whose.get(one))]);
    return rows.filter(([, one, other]) => one !== other);
}

/**
 * A fact of an image, and the same of the image of its name that was signed last; `isOther` where
 * they differ, and versions as such don't: a size always does.
 * @typedef {{ what: 'size' | 'component' | 'gap', name: string, now: string, before: string,
 *   isOther: boolean }} Beside
 */

/**
 * The facts of a request's image beside those of the last signed one of its name.
 * @param {Request} one
 * @param {Request | null} last
 * @returns {Beside[]}
 */
export function besides(one, last) {
    const [now, then] = [generations(one.components), generations(last?.components ?? [])];
    /** @type {(what: Beside['what'], name: string, here: string, there?: string) => Beside} */
    const row = (what, name, here, there = 'none') => ({
        what, name, now: here, before: last ? there : '', isOther: last !== null && here !== there,
    });
    const components = [...new Set([...then.keys(), ...now.keys()])].map((name) => (
        row('component', name, now.get(name) ?? 'none', then.get(name))
    ));
    const whole = row('size', 'Size', size(one.length), last ? size(last.length) : '');
    const gap = row('gap', 'Bytes in no section', grouped(one.gap), grouped(last?.gap ?? 0));
    const hasGap = one.gap > 0 || gap.isOther;
    return [{ ...whole, isOther: false }, ...components, ...(hasGap ? [gap] : [])];
}

// Whether an image carries the same certificates as another one.
/** @param {Request} one @param {Request} other */
export const sameCarried = (one, other) => (
    JSON.stringify([...one.carried].sort()) === JSON.stringify([...other.carried].sort())
);

/** @param {string} hex @param {string | undefined} subject */
const named = (hex, subject) => (subject ? `${hex} (${subject})` : hex);

/**
 * An entry that speaks of an image: where it stands, what it says, and what it names.
 * @typedef {{ where: 'dbx' | 'level' | 'db', text: string, asked: import('./calls.js').Asked,
 *   bars: boolean }} Entry
 */

// Each entry of dbx, of the level and of db that speaks of an image today.
/** @param {Standing} now @param {Facts} here @returns {Entry[]} */
export function entries({ listed, revoked, level }, { digest, signing, carried, components }) {
    const digests = [{ hex: digest, what: 'its digest', text: digest }];
    if (digest !== signing) {
        digests.push({ hex: signing, what: 'its digest in a signature', text: signing });
    }
    const certificates = carried.map((hex) => {
        const text = named(hex, listed.certificates.get(hex)?.subject);
        return { hex, what: 'a certificate that it carries', text };
    });
    /** @type {(where: 'dbx' | 'db', how: string, lists: Revoked | Allowed) => Entry[]} */
    const inLists = (where, how, lists) => [
        ...digests.filter(({ hex }) => lists.digests.has(hex)),
        ...certificates.filter(({ hex }) => lists.certificates.has(hex)),
    ].map(({ hex, what, text }) => (
        { where, text: `${what} is ${how}: ${text}`, asked: { hex }, bars: where === 'dbx' }
    ));
    return [
        ...inLists('dbx', 'revoked', revoked),
        ...levelEntries(level.names, components),
        ...inLists('db', 'listed', listed),
    ];
}

/** @param {Map<string, number>} names @param {Component[]} components @returns {Entry[]} */
function levelEntries(names, components) {
    return components.flatMap(([component, generation]) => {
        const needed = names.get(component);
        if (needed === undefined) return [];
        const bars = generation < needed;
        const than = grouped(needed);
        const how = bars ? `is below its ${than}: barred` : `isn’t below its ${than}`;
        const text = `${component} ${grouped(generation)} ${how}`;
        return [{ where: 'level', text, asked: { component }, bars }];
    });
}
