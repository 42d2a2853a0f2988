// What the page asks back about before it proposes, by page/wire/cases/doubts.json.
import assert from 'node:assert/strict';
import { test } from 'node:test';

import { json } from './cases.mjs';
import { certificateDoubts, digestDoubts, knownOf } from '../../page/desk/doubts.js';
import { generationDoubts, stampDoubts } from '../../page/desk/generations.js';

const WORDS = {
    file: /is the SHA-256 of the (whole|returned) file/,
    certificate: /names a certificate/,
    fingerprint: /is the fingerprint of/,
    image: /is of an image|stands in the lists as an image/,
    half: /Revoke both/,
    revoked: /is revoked already/,
    far: /far above/,
    bits: /16 bits/,
    name: /Is it spelt right/,
    sbat: /sbat itself stays/,
    date: /isn’t a date/,
};

const { today, desk: { listed, revoked, level, requests }, cases } = json('cases/doubts');
const certificates = listed.certificates.map(({ tbs, fingerprint }) => (
    [tbs, { subject: '', tbs, fingerprint }]
));
const known = knownOf(requests, {
    listed: { digests: new Set(listed.digests), certificates: new Map(certificates) },
    revoked: { digests: new Set(revoked.digests), certificates: new Set(revoked.certificates) },
    level: { stamp: level.stamp, names: new Map(level.names) },
});

for (const { name, asks, ...named } of cases) test(`${name}: asks back about what is odd`, () => {
    const { digests = [], certificates: signers = [], components = [], stamp } = named;
    const found = [
        ...digests.flatMap((one) => digestDoubts(one, known)),
        ...signers.flatMap((one) => certificateDoubts(one, known)),
        ...components.flatMap(([one, generation]) => generationDoubts(one, generation, known)),
        ...(stamp ? stampDoubts(stamp, 0, new Date(`${today}T12:00:00Z`)) : []),
    ].map(({ text }) => text);
    const all = found.join('\n');
    assert.equal(found.length, asks.length, all);
    for (const ask of asks) assert.match(all, WORDS[ask]);
});
