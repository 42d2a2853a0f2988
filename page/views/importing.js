// An import, with a look at what is in the file before it is proposed.

import { refusalBox } from './act.js';
import { WHY, formPart, onceAtATime, propose } from './asking.js';
import {
    answers, box, buttons, faulty, field, fill, h, p, status, strong, submitButton,
} from './dom.js';
import { fileField, noFile } from './files.js';
import { STAMP_FAULT, isStamp, numberLine } from './numbers.js';
import { whyField } from './reasons.js';
import { stampDoubts, stampOf } from '../desk/generations.js';
import { look } from '../desk/imports.js';
import { Command } from '../desk/journal.js';

/** @typedef {import('../desk/imports.js').Look} Look */

/** The longest file that is looked at. */
const MOST = 67108864;

const HINT = 'Signature lists, as a published dbx; the desk’s CSV; a level’s text; '
    + 'Microsoft’s dbx_info or Debian’s debian-dbx.hashes. Choose it, or drop it here.';
const STAMP_HINT = 'The date and two digits. '
    + 'An import that raises a generation needs one above the level’s.';

/** @param {Look} found */
function lookBox({ fault, kind, lines }) {
    return box(
        fault ? 'bad' : 'note',
        p(strong(`${kind}.`), fault ? ` ${fault}` : ''),
        h('ul', {}, lines.map((line) => h('li', {}, line))),
    );
}

export function importForm() {
    const said = answers();
    const inside = status();
    const stamp = numberLine();
    const stampField = field('Stamp', stamp, STAMP_HINT);
    stampField.hidden = true;
    const why = whyField(WHY);
    /** @type {{ look: Look, name: string } | null} */
    let found = null;
    let turn = 0;
    const { place, input } = fileField('File', HINT, async (chosen) => {
        const mine = ++turn;
        found = null;
        stampField.hidden = true;
        fill(inside);
        fill(said);
        if (!chosen) return;
        const seen = await look(chosen.bytes, chosen.file.name);
        if (mine !== turn) return;
        if (seen.kind !== 'value') return fill(inside, refusalBox(seen));
        found = { look: seen.value, name: chosen.file.name };
        stampField.hidden = !seen.value.asksStamp;
        stamp.value ||= String(stampOf(new Date(), seen.value.present));
        return fill(inside, lookBox(seen.value));
    }, MOST);
    const go = submitButton('Propose this import');
    const submit = onceAtATime(async () => {
        const none = noFile(input, 'Choose a file.');
        const wrong = found?.look.fault ? 'This file can’t be imported.' : '';
        if (faulty([input, found ? wrong : none]) || !found) return undefined;
        const { look: { named, asksStamp, raises, present, doubts, path, body }, name } = found;
        const isOdd = asksStamp && !isStamp(stamp.value);
        if (faulty([stamp, isOdd ? STAMP_FAULT : ''], why.fault())) return undefined;
        const own = asksStamp && raises ? stampDoubts(Number(stamp.value), present) : [];
        const fields = asksStamp ? { 'Desk-Stamp': stamp.value } : undefined;
        const make = () => new Command(`Import of ${name}`, path, body, fields);
        return propose(named, [...doubts, ...own], make, said, [go, input], why.text());
    });
    const body = [place, inside, stampField, why.place, buttons(go)];
    return formPart('Import revocations', submit, body, said);
}
