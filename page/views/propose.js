// What an officer proposes: images, a certificate, a generation. Before it goes out the page asks
// back about what looks like a slip; the officer decides, and the desk judges.

import { form } from './asking.js';
import { certificateField } from './certificates.js';
import { faultAt, field, fill, h, heading, line, quiet, quietStatus } from './dom.js';
import { imagesForm } from './imagesform.js';
import { importForm } from './importing.js';
import { STAMP_FAULT, isComponent, isGeneration, isStamp, numberLine } from './numbers.js';
import { certificateDoubts, colonDoubts, issuedDoubts } from '../desk/doubts.js';
import { generationDoubts, stampDoubts, stampOf } from '../desk/generations.js';
import { jsonCommand } from '../desk/journal.js';
import { standing } from '../desk/standing.js';
import { digestTyped } from '../formats/digests.js';
import { counted } from '../formats/words.js';

const NO_CERTIFICATE = 'Choose a certificate’s file, or give 64 hexadecimal digits.';
const NO_COMPONENT = 'A component’s name has no space and no comma, as shim or grub.debian.';
const NO_GENERATION = 'A generation is a number from 1 to 4,294,967,295.';

function certificateForm() {
    const { parts, input, given } = certificateField();
    return form('Revoke a certificate', parts, () => {
        const text = input.value;
        const digest = digestTyped(text);
        if (!digest) return { faults: [[input, NO_CERTIFICATE]] };
        const what = 'Propose to revoke a certificate';
        const colons = colonDoubts(text, 'certificate');
        return {
            named: { digests: [], certificates: [digest], components: [] },
            doubts: (all) => [
                ...colons,
                ...certificateDoubts(digest, all),
                ...issuedDoubts([digest], all, given),
            ],
            command: () => jsonCommand(what, '/dbx/certificates', { digest }),
        };
    });
}

function levelForm() {
    const told = quietStatus();
    const names = h('datalist', { id: 'components' });
    const name = line({ maxlength: 128, list: 'components' });
    const [generation, stamp] = [numberLine(), numberLine()];
    standing().then((answer) => {
        if (answer.kind !== 'value') return;
        const { level } = answer.value;
        fill(names, [...level.names.keys()].map((one) => h('option', { value: one })));
        const count = counted(level.names.size, 'generation');
        fill(told, `The level has the stamp ${level.stamp} and ${count}.`);
        stamp.value ||= String(stampOf(new Date(), level.stamp));
        faultAt(stamp);
        name.addEventListener('input', () => fill(told, presentWords(level, name.value)));
    });
    const fields = [
        field('Component', name, 'As shim or grub.debian.'),
        names,
        field('Generation', generation, 'Above its present one.'),
        field('Stamp', stamp, 'The date and two digits.'),
    ];
    const body = [h('div', { class: 'row' }, fields), told];
    return form('Raise a generation of the level', body, () => raised(name, generation, stamp));
}

/** @param {import('../formats/sbat.js').Level} level @param {string} name */
function presentWords({ names }, name) {
    return names.has(name)
        ? `${name} is at generation ${names.get(name)}.`
        : `The level has no generation of ${name || 'it'} yet.`;
}

/**
 * What is proposed, as it was typed, or what is wrong with it.
 * @param {HTMLInputElement} name
 * @param {HTMLInputElement} typed
 * @param {HTMLInputElement} day
 * @returns {import('./asking.js').Made}
 */
function raised(name, typed, day) {
    const component = name.value;
    const [generation, stamp] = [Number(typed.value), Number(day.value)];
    const areGood = [isComponent(component), isGeneration(typed.value), isStamp(day.value)];
    if (areGood.includes(false)) {
        const words = [NO_COMPONENT, NO_GENERATION, STAMP_FAULT];
        const fields = [name, typed, day];
        return { faults: fields.map((one, at) => [one, areGood[at] ? '' : words[at]]) };
    }
    const value = { component, generation, stamp };
    return {
        named: { digests: [], certificates: [], components: [[component, generation]] },
        doubts: (all) => [
            ...generationDoubts(component, generation, all),
            ...stampDoubts(stamp, all.now.level.stamp),
        ],
        command: () => jsonCommand(`Propose ${component} ${generation}`, '/level', value),
    };
}

/** @type {[string, string, (number?: string) => HTMLElement][]} by the word of their address */
const FORMS = [
    ['image', 'Images', imagesForm],
    ['certificate', 'A certificate', certificateForm],
    ['level', 'A generation', levelForm],
    ['import', 'An import', importForm],
];

/** @param {HTMLElement} place @param {string[]} words which form, and a request's number for it */
export function proposeView(place, [which, number]) {
    const [mine, , make] = FORMS.find(([word]) => word === which) ?? FORMS[0];
    heading(place, 'Propose');
    const tabs = FORMS.map(([word, text]) => {
        const current = word === mine ? 'page' : null;
        return h('a', { href: `#/propose/${word}`, 'aria-current': current }, text);
    });
    place.append(
        quiet(
            'A proposal changes nothing until another officer confirms it. ',
            'Once confirmed, nothing takes it back.',
        ),
        h('nav', { class: 'tabs', 'aria-label': 'Kinds of proposal' }, tabs),
        make(number),
    );
}
