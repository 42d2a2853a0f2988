// What the page asks and tells of files that are to be imported, and of answers of the proxy. How
// files are read is in files.test.mjs.
import assert from 'node:assert/strict';
import { test } from 'node:test';

import { json, plain, rowBytes } from './cases.mjs';
import { allowDoubts } from '../../page/desk/allowing.js';
import { levelLines } from '../../page/desk/beside.js';
import { knownOf } from '../../page/desk/doubts.js';
import { lookOf } from '../../page/desk/imports.js';
import { givenOf } from '../../page/formats/certificates.js';
import { tbsOf } from '../../page/formats/der.js';
import { sha256 } from '../../page/formats/digests.js';
import { revocationsOf } from '../../page/formats/revocations.js';
import { wire } from '../../page/formats/wire.js';
import { filled } from '../../page/formats/words.js';
import { lostWords } from '../../page/views/act.js';

const { parts, certificates, owner, allows, levels } = json('cases/imports');
// A desk that holds nothing.
const known = knownOf([], {
    level: { stamp: 2021030218, names: new Map([['sbat', 1]]) },
    listed: { digests: new Set(), certificates: new Map() },
    revoked: { digests: new Set(), certificates: new Set() },
    owners: new Set(),
});
const looked = async (bytes, name) => lookOf(await revocationsOf(bytes, name), known, name);

async function partOf(name) {
    const bytes = rowBytes(parts[name], parts);
    return givenOf(await sha256(tbsOf(bytes)), bytes);
}

for (const { name, file, bytes, listed = {}, revoked = [], asks, ...words } of allows) {
    test(`${name}: what looks like a list of the allowed is asked about`, async () => {
        const hexes = (all = []) => new Set(all.map((byte) => byte.repeat(32)));
        const signers = await Promise.all((listed.certificates ?? []).map(partOf));
        const now = {
            listed: {
                digests: hexes(listed.digests),
                certificates: new Map(signers.map((one) => [one.tbs, one])),
            },
            revoked: { digests: hexes(revoked), certificates: new Set() },
            owners: new Set([owner]),
        };
        const found = await revocationsOf(rowBytes(bytes, parts));
        const due = asks.map((one) => filled(wire.questions.import[one], { ...words, name: file }));
        assert.deepEqual(allowDoubts(file, found, now).map(({ text }) => text), due);
    });
}

for (const { name, stamp, names, desk, says } of levels) {
    test(`${name}: it is told beside the desk’s`, () => {
        const level = { stamp: desk.stamp, names: new Map(desk.names) };
        assert.deepEqual(levelLines({ stamp, names: new Map(names) }, level).map(plain), says);
    });
}

test('a certificate that stands in a file whole is told, with whose it is', async () => {
    const row = [...allows.find(({ file }) => file === 'MokListRT').bytes];
    const { lines, doubts } = await looked(rowBytes(row, parts), 'MokListRT');
    assert.ok(lines.includes('Certificate: C=DE, O=A distribution, CN=Boot CA, a CA’s.'), lines);
    assert.ok(lines.includes('Certificate: O=A distribution, CN=Boot signer 2026.'), lines);
    assert.equal(doubts.length, 2);
});

const STATUSES = [
    [{ status: 0 }, 'The connection was lost.'],
    [{ status: 429 }, 'Too many requests'],
    [{ status: 502 }, 'couldn’t reach the desk (502)'],
    [{ status: 503, name: 'Store', number: 41 }, 'its disk failed (503): Store (41).'],
    [{ status: 503, name: '', number: 0 }, 'The desk is closed (503)'],
    [{ status: 504 }, 'in time (504)'],
    [{ status: 500 }, 'The proxy failed (500).'],
    [{ status: 404 }, 'refused unread (404). '],
    [
        { status: 401, name: 'UnknownCaller', number: 20 },
        'refused unread (401): UnknownCaller (20). ',
    ],
    [{ status: 200 }, 'in the desk’s place (200)'],
];
for (const [lost, told] of STATUSES) test(`of no answer it is said: ${told}`, () => {
    assert.ok(lostWords(lost).includes(told), lostWords(lost));
});
