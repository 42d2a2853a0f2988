// What the page says of open proposals, by page/wire/cases/proposals.json.
import assert from 'node:assert/strict';
import { test } from 'node:test';

import { text } from './cases.mjs';
import { namesOf, namesWords, openDoubts } from '../../page/desk/proposals.js';

// (`<aa>` is a SHA-256 of this byte alone)
const cases = JSON.parse(text('cases/proposals').replace(/<(..)>/g, (_, byte) => byte.repeat(32)));
const none = { digests: [], certificates: [], components: [] };

for (const { name, asks, ...named } of cases.proposes) {
    test(`${name}: what an open proposal names is asked about`, () => {
        const found = openDoubts({ ...none, ...named }, cases.open);
        assert.deepEqual(found.map((doubt) => doubt.text), asks);
    });
}

const signers = Object.entries(cases.listed).map(([tbs, subject]) => [tbs, { tbs, subject }]);
const now = { listed: { certificates: new Map(signers) } };

for (const { name, bars = null, says, ...named } of cases.rows) {
    test(`${name}: a list says what it is`, () => {
        assert.equal(namesWords({ ...none, ...named }, now, bars), says);
    });
}

test('for the words of a list the desk’s lists are read where a certificate is named', async () => {
    const [digest, tbs] = ['ab'.repeat(32), 'cd'.repeat(32)];
    const counts = { state: 'open', officer: 'olga', digests: 0, certificates: 0, components: 0 };
    const rows = [{ ...counts, number: 1, digests: 1 }, { ...counts, number: 2, certificates: 1 }];
    const empty = new Uint8Array();
    const desk = {
        '/proposals/1': { ...none, number: 1, digests: [digest] },
        '/proposals/1/impact': { bars: [] },
        '/proposals/2': { ...none, number: 2, certificates: [tbs] },
        '/level': 'sbat,1,2024010100\n',
        '/db': empty,
        '/dbx': empty,
    };
    let asked = [];
    globalThis.fetch = async (path) => {
        asked.push(path);
        const body = async () => desk[path];
        return { status: 200, text: body, json: body, arrayBuffer: body };
    };
    const found = await namesOf(rows.slice(0, 1));
    assert.deepEqual([...found], [[1, 'digest abababab.., which newly bars no known image']]);
    assert.deepEqual(asked, ['/proposals/1', '/proposals/1/impact']);
    asked = [];
    assert.equal((await namesOf(rows)).get(2), 'certificate cdcdcdcd..');
    assert.deepEqual(asked.slice(0, 3), ['/level', '/db', '/dbx']);
});
