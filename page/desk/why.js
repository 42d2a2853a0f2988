// Why: each call of the minutes that speaks of an image, a certificate, a component or a proposal,
// the requests that these touch, and what stands now by them.

import { minutes, readOn, slices } from './calls.js';
import { certificatesIn, componentsIn, digestsIn, minuteOf } from '../formats/sentences.js';
import { wire } from '../formats/wire.js';
import { filled } from '../formats/words.js';

/**
 * @typedef {import('./calls.js').Asked} Asked
 * @typedef {import('../formats/sentences.js').Minute} Minute
 * @typedef {import('../formats/sentences.js').Said} Said
 * @typedef {{ kind: string, name: string, generation: number }} Named
 * @typedef {{ number: number, submitter: string, title: string, how: string,
 *   state: string }} Touched
 * @typedef {{ files: Set<string>, digests: Set<string>, certificates: Set<string>,
 *   components: Set<string>, proposal: string, image: [string, number][] | null }} Names
 * `image` has the components of the image that is asked about, with their generations
 */

/** The calls that are read whatever they name: they speak of requests and proposals by number. */
const BY_NUMBER = /^(?:confirm|drop|explain|review|withdraw|return) /;

/** @type {Record<string, string>} the state of a request after a command */
const ENDS = { withdraw: 'withdrawn', return: 'signed' };

/** @param {Asked} asked @returns {Names} */
export function namesOf({ hex, component, proposal = '', image }) {
    const known = hex ? [hex] : [];
    const names = image ? image.components.map(([name]) => name) : component ? [component] : [];
    return {
        files: new Set(image ? [image.file] : known),
        digests: new Set(image ? [image.digest, image.signing] : known),
        certificates: new Set(image ? image.carried : known),
        components: new Set(names),
        proposal,
        image: image?.components ?? null,
    };
}

export class Story {
    /** @param {Names} names */
    constructor(names) {
        this.names = names;
        /** @type {Minute[]} */
        this.calls = [];
        /** @type {Map<number, Touched>} */
        this.requests = new Map();
        /** @type {Map<string, string>} the lines of requests, which a returned file may touch */
        this.submitted = new Map();
        /** @type {Map<string, string>} what stands, in words */
        this.now = new Map();
        /** @type {Map<string, Named[]>} */
        this.proposals = new Map();
        /** @type {Map<string, number>} */
        this.generations = new Map();
        /** @type {Map<string, number>} the call that listed, revoked or raised a name, or 0 */
        this.by = new Map();
    }

    // Takes what the image of a file that is asked about has.
    /** @param {string} line */
    widen(line) {
        const { files, digests, certificates, components } = this.names;
        if (![...files].some((file) => line.includes(file))) return;
        const said = minuteOf(line)?.said;
        if (!said || !files.has(said.values.FILE)) return;
        this.names.image = componentsIn(said);
        for (const digest of [said.values.DIGEST, said.values.SIGNING]) digests.add(digest);
        for (const certificate of certificatesIn(said)) certificates.add(certificate);
        for (const [name] of componentsIn(said)) components.add(name);
    }

    // Whether a line may matter, at little cost.
    /** @param {string} line */
    concerns(line) {
        const { files, digests, certificates, components, proposal } = this.names;
        if (proposal !== '' && line.endsWith(`\tproposed ${proposal}`)) return true;
        const at = line.indexOf('\t', line.indexOf('\t', line.indexOf('\t') + 1) + 1) + 1;
        if (BY_NUMBER.test(line.slice(at, at + 10))) return true;
        if (line.startsWith('submit ', at)) {
            this.submitted.set(line.slice(line.lastIndexOf(' ') + 1), line);
        }
        const all = [files, digests, certificates, components];
        return all.some((set) => [...set].some((name) => line.includes(name)));
    }

    /** @param {string} line */
    take(line) {
        const minute = this.concerns(line) ? minuteOf(line) : null;
        if (!minute?.said) return;
        const { said } = minute;
        if (said.row.kind === 'requests') this.request(said);
        else if (said.row.kind !== 'people') this.entry(minute, said);
    }

    /** @param {Said} said */
    request(said) {
        const { row, values } = said;
        const number = Number(values.REQUEST);
        const how = values.FILE ? this.touches(said) : '';
        if (how !== '' && !this.requests.has(number)) {
            const asked = minuteOf(this.submitted.get(values.REQUEST) ?? '');
            const [title, submitter] = [asked?.said?.values.TITLE ?? '', asked?.caller ?? ''];
            this.requests.set(number, { number, submitter, title, how, state: 'open' });
        }
        const one = this.requests.get(number);
        if (one) one.state = ENDS[row.command[0]] ?? values.STATE ?? 'open';
    }

    // How the image of a request or of its returned file is touched; '' if it isn't.
    /** @param {Said} said */
    touches(said) {
        const { touched } = wire.sentences;
        const { files, digests, certificates, components, image } = this.names;
        if (files.has(said.values.FILE)) return touched.file;
        const { DIGEST, SIGNING } = said.values;
        if (digests.has(DIGEST) || digests.has(SIGNING)) return touched.image;
        if (image) return '';
        if (certificatesIn(said).some((one) => certificates.has(one))) return touched.certificate;
        const its = componentsIn(said).find(([name]) => components.has(name));
        return its ? filled(touched.component, { NAME: its[0], GENERATION: its[1] }) : '';
    }

    // Those of the names that a listing or a revocation names.
    /** @param {Said} said @returns {Named[]} */
    named(said) {
        const { digests, certificates, components, proposal } = this.names;
        const all = proposal !== '' && said.values.PROPOSAL === proposal;
        /** @type {(kind: string, pairs: [string, number][], asked: Set<string>) => Named[]} */
        const those = (kind, pairs, asked) => pairs.filter(([name]) => all || asked.has(name))
            .map(([name, generation]) => ({ kind, name, generation }));
        return [
            ...those('digest', digestsIn(said).map((name) => [name, 0]), digests),
            ...those('certificate', certificatesIn(said).map((name) => [name, 0]), certificates),
            ...those('component', componentsIn(said), components),
        ];
    }

    /** @param {Minute} minute @param {Said} said */
    entry(minute, said) {
        const { kind, command: [word], reply: [how] } = said.row;
        const number = said.values.PROPOSAL ?? '';
        const byNumber = ['confirm', 'drop', 'explain'].includes(word);
        const named = byNumber ? this.proposals.get(number) : this.named(said);
        // (an import may name nothing, and a proposal that is asked about is told of all the same)
        if (!named || named.length === 0 && (!number || number !== this.names.proposal)) return;
        this.calls.push(minute);
        if (byNumber && word !== 'explain') this.now.delete(`open ${number}`);
        const isRevocation = word === 'confirm' || number === '' && kind === 'revoking';
        if (isRevocation) this.inForce(minute, named, number);
        else if (kind === 'listing') this.stands(minute, named[0], how, '');
        else if (!byNumber) this.proposed(minute, named, number);
    }

    /** @param {Minute} minute @param {Named[]} named @param {string} number */
    proposed(minute, named, number) {
        this.proposals.set(number, named);
        const words = { PROPOSAL: number, NAME: named[0]?.name ?? 'nothing', CALL: minute.number };
        this.now.set(`open ${number}`, filled(wire.sentences.standing.open, words));
    }

    /** @param {Minute} minute @param {Named[]} named @param {string} number */
    inForce(minute, named, number) {
        for (const one of named) {
            if (one.kind !== 'component') {
                const isNew = !this.now.has(`revoked ${one.name}`);
                if (isNew) this.stands(minute, one, 'revoked', number);
            } else if (one.generation > (this.generations.get(one.name) ?? 0)) {
                this.generations.set(one.name, one.generation);
                this.stands(minute, one, 'raised', number);
            }
        }
    }

    /** @param {Minute} minute @param {Named} one @param {string} how @param {string} number */
    stands(minute, { kind, name, generation }, how, number) {
        const { standing } = wire.sentences;
        const BY = number === '' ? '' : filled(standing.by, { PROPOSAL: number });
        const words = { KIND: kind, NAME: name, GENERATION: generation, BY, CALL: minute.number };
        const list = how === 'unlisted' ? 'listed' : how;
        this.now.set(`${list} ${name}`, filled(standing[how], words));
        this.by.set(`${list} ${name}`, how === 'unlisted' ? 0 : minute.number);
    }
}

/**
 * Reads the minutes on, and what they tell of it, while it is still wanted.
 * @param {Asked} asked @param {() => boolean} goes @param {() => void} [progress]
 * @returns {Promise<import('./types.js').Answer<Story>>}
 */
export async function storyOf(asked, goes, progress) {
    const answer = await readOn(progress);
    if (answer.kind !== 'value') return answer;
    const story = new Story(namesOf(asked));
    const { length } = minutes().lines;
    if (asked.hex) await slices(0, length, (line) => story.widen(line), goes);
    await slices(0, length, (line) => story.take(line), goes);
    return { kind: 'value', value: story };
}
