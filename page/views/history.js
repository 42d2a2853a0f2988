// For officers: the whole history in words, from the minutes, by person, kind and text.

import { refusalBox } from './act.js';
import { address, callTable } from './calls.js';
import { buttons, faulty, field, fill, h, heading, line, quiet, quietStatus } from './dom.js';
import { isComponent } from './numbers.js';
import { choices } from './table.js';
import { callerOf, minutes, readOn, slices, wordsAhead, wordsAt } from '../desk/calls.js';
import { digestTyped } from '../formats/digests.js';
import { kindOf, kinds } from '../formats/sentences.js';
import { grouped } from '../formats/words.js';

/** How many rows a page of the table has. */
const PAGE = 100;

/** @param {HTMLElement} place */
export function historyView(place) {
    heading(place, 'History');
    place.append(
        quiet(
            'Each accepted command, the newest first. ',
            'A time is what the key of the command begins with, by its sender’s clock.',
        ),
        askForm(),
    );
    list(place);
}

const NOTHING = 'A SHA-256 has 64 hexadecimal digits; a component has no spaces.';

// Asks why something is barred or allowed.
function askForm() {
    const input = line();
    const onsubmit = (/** @type {Event} */ event) => {
        event.preventDefault();
        const text = input.value.trim();
        const hex = digestTyped(text);
        const isName = isComponent(text) && !/^[0-9a-fA-F:]{32,}$/.test(text);
        if (faulty([input, hex !== null || isName ? '' : NOTHING])) return undefined;
        location.hash = address(hex ? { hex } : { component: text });
        return undefined;
    };
    const why = field('Why? A SHA-256, or a component', input);
    const go = buttons(h('button', {}, 'Ask why'));
    return h('form', { class: 'ask', novalidate: true, onsubmit }, why, go);
}

/**
 * The fields that filter the calls, which stay as they are set until the sign-out.
 * @param {() => void} changed is called when one of them is set
 */
function filterPart(changed) {
    const { filter } = minutes();
    const set = (/** @type {Partial<typeof filter>} */ one) => {
        Object.assign(filter, one);
        changed();
    };
    const person = h('select', { onchange: () => set({ person: person.value }) });
    const oninput = () => set({ text: search.value });
    const search = h('input', { type: 'search', autocomplete: 'off', value: filter.text, oninput });
    /** @type {Record<string, number>} */
    let counts = {};
    const byKind = choices('Calls by kind', [['', 'All'], ...kinds()], (kind) => {
        set({ kind });
        show(counts);
        byKind.focus();
    });
    /** @param {Record<string, number>} now of each kind */
    function show(now) {
        counts = now;
        byKind.show(filter.kind, counts);
        people(person, filter.person);
    }
    show(counts);
    const fields = [field('Person', person), field('Filter by text, name or digest', search)];
    const tools = h('div', { class: 'tools' }, byKind.place);
    return { places: [tools, h('div', { class: 'tools filters' }, fields)], show };
}

/** @param {HTMLElement} place */
function list(place) {
    const table = callTable('Calls', 'No call is like this.', PAGE);
    const told = quietStatus('Reading from the desk…');
    const filters = filterPart(() => scan(false));
    let turn = 0;
    /** How many lines were there at the last scan. */
    let seen = 0;
    /** Whether the desk gave no more of them, which stays told. */
    let failed = false;
    place.append(...filters.places, told, table.place);

    // Looks at all lines that are here.
    /** @param {boolean} keep the page of the table that is shown */
    async function scan(keep) {
        const mine = ++turn;
        seen = minutes().known;
        let early = keep;
        const found = await scanned(minutes().filter, (rows) => {
            if (turn !== mine || !place.isConnected) return false;
            if (!early && rows.length >= PAGE) table.set(rows.slice(0, PAGE));
            early ||= rows.length >= PAGE;
            return true;
        });
        if (!found) return;
        filters.show(found.counts);
        table.set(found.rows, keep);
        if (!failed) told.textContent = progressWords(found.rows.length);
    }

    // (each time twice as many lines are here, so that it isn't done over and over)
    readOn(() => {
        if (!place.isConnected) return;
        const { known, lines } = minutes();
        if (known >= 2 * seen) scan(seen > 0);
        else if (known < lines.length && !failed) told.textContent = progressWords(0);
    }).then((answer) => {
        if (!place.isConnected) return undefined;
        failed = answer.kind !== 'value';
        if (answer.kind !== 'value') fill(told, h('span', { role: 'alert' }, refusalBox(answer)));
        wordsAhead(() => place.isConnected);
        // (what is kept is shown all the same)
        return failed && minutes().known === 0 ? undefined : scan(true);
    });
}

/**
 * The lines that pass a filter, the newest first, and how many of each kind do but for their kind;
 * null if they aren't wanted any longer.
 * @param {{ person: string, kind: string, text: string }} filter
 * @param {(rows: string[]) => boolean} goes on with what is there so far
 */
async function scanned(filter, goes) {
    /** @type {string[]} */
    const rows = [];
    /** @type {Record<string, number>} */
    const counts = { '': 0 };
    const isLike = test(filter);
    const take = (/** @type {string} */ line, /** @type {number} */ at) => {
        if (!isLike(line, at)) return;
        const kind = kindOf(line) || 'other';
        counts[kind] = (counts[kind] ?? 0) + 1;
        counts[''] += 1;
        if (filter.kind === '' || filter.kind === kind) rows.push(line);
    };
    const ended = await slices(minutes().lines.length - 1, -1, take, () => goes(rows));
    return ended ? { rows, counts } : null;
}

/** @param {number} count of the rows that are shown */
function progressWords(count) {
    const { known, lines } = minutes();
    const all = `${grouped(known)} calls`;
    if (known < lines.length) {
        return `Reading: ${grouped(known)} of ${grouped(lines.length)} calls so far…`;
    }
    return count === known ? `${all}.` : `${grouped(count)} of ${all}.`;
}

// The people who made calls, to choose one of.
/** @param {HTMLSelectElement} select @param {string} chosen */
function people(select, chosen) {
    const names = [...minutes().callers].sort();
    if (chosen !== '' && !names.includes(chosen)) names.push(chosen);
    if (select.options.length === names.length + 1) return;
    const options = names.map((name) => h('option', { value: name }, name));
    fill(select, h('option', { value: '' }, 'Everybody'), options);
    select.value = chosen;
}

/**
 * @param {{ person: string, text: string }} filter
 * @returns {(line: string, at: number) => boolean}
 */
function test({ person, text }) {
    const wanted = text.trim().toLowerCase();
    return (line, at) => {
        if (person !== '' && callerOf(line) !== person) return false;
        return wanted === '' || wordsAt(at).includes(wanted) || line.toLowerCase().includes(wanted);
    };
}
