// What the page asks before a vote, a withdrawal, a return and a drop, by
// page/wire/cases/questions.json.
import assert from 'node:assert/strict';
import { test } from 'node:test';

import { json, rowBytes } from './cases.mjs';
import {
    carriedWords, issuedWords, returnQuestion, severalQuestion, twiceQuestion, unknownWords, yesQuestion,
} from '../../page/desk/questions.js';
import { issuedDoubts, itemDoubts, knownOf } from '../../page/desk/doubts.js';
import { losingIn } from '../../page/desk/unlisting.js';
import { givenOf, namesIn } from '../../page/formats/certificates.js';
import { tbsOf } from '../../page/formats/der.js';
import { sha256 } from '../../page/formats/digests.js';
import { signaturesOf } from '../../page/formats/pkcs7.js';
import { wire } from '../../page/formats/wire.js';

const {
    level, revoked, own, submits, several, yes, returns, issued, unknown,
} = json('cases/questions');
const now = {
    level: { names: new Map(Object.entries(level)) },
    revoked: {
        digests: new Set(revoked.digests),
        certificates: new Set(revoked.certificates),
    },
};
const plain = { number: 7, digest: '', signing: '', carried: [], components: [], votes: [] };

for (const { name, file, digests, asks = '' } of submits) {
    test(`${name} is submitted`, () => (
        assert.equal(twiceQuestion(own, file, digests)?.words ?? '', asks)
    ));
}

for (const { name, vote, requests, title, lines } of several) {
    test(`${name}, on several requests`, () => {
        const given = requests.map(([number, { votes = [], ...facts }]) => (
            { ...plain, ...facts, number, votes: votes.map((one) => ({ vote: one })) }
        ));
        const button = `Vote ${vote}`;
        assert.deepEqual(severalQuestion(given, vote, now), { title, lines, button });
    });
}

for (const { name, asks, why = '', another = false, votes = [], ...facts } of yes) {
    test(`${name}: a yes asks about ${asks.join(', ') || 'nothing'}`, () => {
        const request = { ...plain, ...facts, votes: votes.map((vote) => ({ vote })) };
        const found = yesQuestion(request, now, another);
        const due = asks.map((word) => wire.questions.yes[word]
            .replace('{why}', why).replace('{number}', '7'));
        assert.deepEqual(found?.lines ?? [], due);
        if (found) assert.equal(found.title, 'Vote yes on request 7?');
    });
}

const looks = json('cases/looks');

for (const { name, signature, listed, asks } of returns) {
    test(`${name}: a return asks about ${asks.join('') || 'nothing'}`, () => {
        const { bytes } = looks.signatures.find((one) => one.name === signature);
        const bodies = listed.map((part) => rowBytes(looks.parts[part], looks.parts));
        const words = carriedWords(signaturesOf(rowBytes(bytes, looks.parts)), bodies);
        assert.equal(words !== '', asks.length > 0, words);
        assert.doesNotMatch(words, /[{}]/);
        if (words) assert.deepEqual(returnQuestion(7, words).lines, [words]);
    });
}

async function partOf(name) {
    const bytes = rowBytes(looks.parts[name], looks.parts);
    const tbs = tbsOf(bytes);
    return { ...givenOf(await sha256(tbs), bytes), ...namesIn(tbs) };
}

// What a case lists and revokes, by the names of parts.
async function standingOf({ listed, revoked: those = [] }) {
    const all = await Promise.all(listed.map(partOf));
    const barred = await Promise.all(those.map(partOf));
    return {
        listed: { certificates: new Map(all.map((one) => [one.tbs, one])) },
        revoked: { certificates: new Set(barred.map(({ tbs }) => tbs)) },
    };
}

for (const { name, revokes, asks, ...desk } of issued) {
    test(`${name}: it is told what it issued`, async () => {
        const [at, ones] = [await standingOf(desk), await Promise.all(revokes.map(partOf))];
        const named = new Set(ones.map(({ tbs }) => tbs));
        const said = ones.map((one) => issuedWords(one, at, named)).filter((line) => line !== '');
        assert.deepEqual(said, asks ? [asks] : []);
    });
}

for (const { name, says, ...desk } of unknown) {
    test(`${name}: of an unknown certificate the listed ones' issuers are said`, async () => {
        assert.equal(unknownWords(await standingOf(desk)), says);
    });
}

// (`<aa>` is a SHA-256 of this byte alone)
const unlist = JSON.parse(JSON.stringify(json('cases/questions').unlist)
    .replace(/<(..)>/g, (_, byte) => byte.repeat(32)));

for (const { name, entry, loses } of unlist.cases) {
    test(`${name}: the signed files that only an entry allows are found`, () => {
        const { listed, minutes } = unlist;
        const at = {
            listed: {
                digests: new Set(listed.digests),
                certificates: new Map(listed.certificates.map((tbs) => [tbs, { tbs }])),
            },
            revoked: {
                digests: new Set(unlist.revoked.digests),
                certificates: new Set(unlist.revoked.certificates),
            },
            level: { names: new Map(Object.entries(unlist.level)) },
        };
        const found = minutes.map((line) => losingIn(at, line, entry));
        assert.deepEqual(found.filter((number) => number !== null), loses);
    });
}

test('what a certificate issued is told at a Confirm, and at a proposal by its file', async () => {
    const [{ listed, asks }] = issued;
    const [ca, desk] = [await partOf('ca'), await standingOf({ listed: [...listed, 'ca'] })];
    const now = {
        listed: { ...desk.listed, digests: new Set() },
        revoked: { ...desk.revoked, digests: new Set() },
        level: { stamp: 2026112700, names: new Map() },
    };
    const named = { digests: [], certificates: [ca.tbs], components: [], stamp: null };
    assert.deepEqual(itemDoubts(named, knownOf([], now)).map(({ text }) => text), [asks]);
    now.listed.certificates.delete(ca.tbs);
    assert.deepEqual(itemDoubts(named, knownOf([], now)), []);
    const found = issuedDoubts([ca.tbs], knownOf([], now), new Map([[ca.tbs, ca]]));
    assert.deepEqual(found.map(({ text }) => text), [asks]);
});
