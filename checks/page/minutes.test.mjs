// Minutes in words, and what "why" finds in them, by page/wire/cases/minutes.json; and how they are
// read.
import assert from 'node:assert/strict';
import { test } from 'node:test';

import { text } from './cases.mjs';
import { forgetMinutes, minutes, readOn } from '../../page/desk/calls.js';
import { answerOf } from '../../page/desk/answering.js';
import { reasonsIn, reasonsOf } from '../../page/desk/reasons.js';
import { Story, namesOf } from '../../page/desk/why.js';
import { minuteOf, sentenceOf, timeOf } from '../../page/formats/sentences.js';

const cases = JSON.parse(text('cases/minutes').replace(/<(\w\w)>/g, (_, byte) => byte.repeat(32)));

const line = (number, caller, command, reply) => [number, caller, 'k', command, reply].join('\t');

for (const [caller, command, reply, sentence] of cases.sentences) test(`“${sentence}”`, () => {
    assert.equal(sentenceOf(minuteOf(line(7, caller, command, reply))), sentence);
});

test('a text that has no sentence stands as it is', () => {
    for (const [caller, command, reply] of cases.unknown) {
        const minute = minuteOf(line(7, caller, command, reply));
        assert.equal(minute.said, null, command);
        assert.equal(sentenceOf(minute), `${caller}: ${command} (${reply})`);
    }
});

test('a key begins with a time, or has none', () => {
    for (const [key, time] of Object.entries(cases.times)) assert.equal(timeOf(key), time);
});

test('a line that isn’t one of minutes is none', () => {
    for (const one of cases.lines) assert.equal(minuteOf(one), null);
});

// ---- why

const history = cases.history.map((row, at) => line(at + 1, ...row));

function story(asked) {
    const found = new Story(namesOf(asked));
    for (const one of history) if (asked.hex) found.widen(one);
    for (const one of history) found.take(one);
    return found;
}

const callsOf = (asked) => story(asked).calls.map(({ number }) => number);

for (const ask of cases.asks) test(`why ${ask.hex ?? ask.component}`, () => {
    const { now, calls, requests } = story(ask);
    assert.deepEqual(
        {
            now: [...now.values()],
            calls: calls.map(({ number }) => number),
            requests: [...requests.values()].map(({ number, state, how }) => [number, state, how]),
        },
        { now: ask.now, calls: ask.calls, requests: ask.requests },
    );
});

for (const { file, until, answer } of cases.answers) {
    test(`why ${file} after ${until} calls: ${answer || 'no answer'}`, () => {
        const found = new Story(namesOf({ hex: file }));
        for (const one of history.slice(0, until)) found.widen(one);
        for (const one of history.slice(0, until)) found.take(one);
        assert.equal(answerOf(found), answer);
    });
}

test('an image by its facts is the one of its file', () => {
    const [file, digest] = ['04'.repeat(32), '02'.repeat(32)];
    const carried = ['0b'.repeat(32)];
    const image = { name: 'x', file, digest, signing: digest, carried, components: [['shim', 4]] };
    assert.deepEqual(callsOf({ image }), cases.asks[1].calls);
});

test('of a proposal each call is told, whatever it names', () => {
    const calls = [1, 2, 3, 4, 5, 6].map((number) => callsOf({ proposal: String(number) }));
    assert.deepEqual(calls, [[8, 10], [9, 14], [12, 13], [15, 22], [17, 21, 23], []]);
});

// ---- the reasons of proposals

for (const [number, told] of Object.entries(cases.reasons)) test(`reasons of ${number}`, () => {
    const found = reasonsIn(history).get(Number(number)) ?? [];
    assert.deepEqual(found.map(({ officer, text: said }) => [officer, said]), told);
});

test('reasons are read from the proposal’s own call on, the newest lines first', async () => {
    const all = Array.from({ length: 4200 }, (_, at) => line(at, 'ann', 'withdraw 1', 'withdrawn 1'));
    all[1500] = line(1500, 'olga', 'revoke-digest x', 'proposed 1');
    for (const at of [1499, 1501, 3300, 4199]) {
        all[at] = line(at, 'olga', `explain 1 at ${at}`, 'explained 1');
    }
    const asked = [];
    globalThis.fetch = async (path) => {
        asked.push(path);
        const first = Number(path.split('/')[2]);
        const part = all.slice(first - 1, first + 999).map((one) => `${one}\n`).join('');
        return { status: 200, text: async () => part, json: async () => ({ changes: 4200 }) };
    };
    const { value } = await reasonsOf(1);
    assert.deepEqual(value.map(({ text: said }) => said), [1499, 1501, 3300, 4199].map(
        (at) => `at ${at}`,
    ));
    const parts = ['/changes', '/minutes/3201', '/minutes/2201', '/minutes/1201'];
    assert.deepEqual(asked, parts);
});

// ---- the minutes are read on from where they ended, the newest first

test('minutes are read on, and anew from a desk that was restored', async () => {
    let all = Array.from({ length: 2500 }, (_, at) => (
        line(at + 1, 'olga', `list-digest ${String(at).padStart(64, '0')}`, 'listed')
    ));
    let asked = [];
    globalThis.fetch = async (path) => {
        asked.push(path);
        const first = Number(path.split('/')[2]);
        const part = all.slice(first - 1, first + 999).map((one) => `${one}\n`).join('');
        const report = `people  7\ncommands                ${all.length}\n`;
        return { status: 200, text: async () => (path === '/report' ? report : part) };
    };
    const reads = async (...paths) => {
        asked = [];
        assert.equal((await readOn()).kind, 'value');
        assert.deepEqual(asked, paths);
        const { lines, known, whole } = minutes();
        assert.deepEqual([lines.slice(0, all.length), known, whole], [all, all.length, all.length]);
    };
    await reads('/report', '/minutes/1501', '/minutes/1', '/minutes/1001', '/minutes/2501');
    await reads('/minutes/2500', '/minutes/2501');
    all.push(line(2501, 'otto', 'drop 1', 'dropped 1'));
    await reads('/minutes/2500', '/minutes/2502');
    all = all.slice(0, 700);
    await reads('/minutes/2501', '/report', '/minutes/1', '/minutes/701');
    all[699] = line(700, 'otto', 'drop 2', 'dropped 2');
    await reads('/minutes/700', '/report', '/minutes/1', '/minutes/701');
    forgetMinutes();
    assert.deepEqual([minutes().lines, minutes().known], [[], 0]);
});
