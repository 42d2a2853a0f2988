// A level's text beside the desk's level: a stamp that the desk refuses, and what it keeps.

import { higher } from '../formats/sbat.js';
import { wire } from '../formats/wire.js';
import { filled } from '../formats/words.js';

/** @typedef {import('../formats/sbat.js').Level} Level */

// What a text's stamp and names are beside the desk's, a fact a line.
/** @param {Level} text @param {Level} level the desk's */
export function levelLines({ stamp, names }, level) {
    const { brought } = wire.words;
    const present = level.stamp;
    const isLate = stamp <= present && higher(names, level).length > 0;
    const kept = [...level.names].filter(([name, here]) => (names.get(name) ?? 0) < here).sort();
    const rows = kept.map(([name, here]) => (
        filled(brought.kept, { name, here, there: names.get(name) ?? 'none' })
    ));
    return [
        filled(brought.stamps, { stamp, present }),
        ...(isLate ? [brought.late] : []),
        ...(rows.length > 0 ? [brought.keeps] : []),
        ...rows,
    ];
}
