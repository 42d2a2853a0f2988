// What the page says of images and certificates at hand, by page/wire/cases/looks.json.
import assert from 'node:assert/strict';
import { test } from 'node:test';

import { json, plain, rowBytes } from './cases.mjs';
import { differences, entries, likeness } from '../../page/desk/compare.js';
import { imageDoubts, signerDoubts, withName } from '../../page/desk/signer.js';
import { certificateOf, subjectOf } from '../../page/formats/certificates.js';
import { authenticode } from '../../page/formats/pe.js';
import {
    algorithmDoubt, issuerNames, signatureWords, signaturesOf,
} from '../../page/formats/pkcs7.js';

const { parts, signatures, listings, compares, todays } = json('cases/looks');

const ASKS = {
    rsa: /key isn’t RSA/,
    ca: /It is a CA’s/,
    revoked: /It is revoked/,
    issuer: /issuer is revoked/,
    image: /doesn’t carry it/,
};
const HOLDS = {
    same: 'the image’s digest',
    digest: 'the image’s digest, unpadded',
    signing: 'the image’s digest, padded',
    other: 'the digest of other bytes',
};
const WHAT = {
    length: 'Length',
    digest: 'Digest',
    signing: 'Digest in a signature',
    gap: 'Bytes in no section',
    component: 'Component',
    certificate: 'Certificate',
};

const certificate = (name) => withName(certificateOf(rowBytes(parts[name], parts)));

// What a case lists and revokes; a name of a part is its certificate.
async function standing({ listed = [], revoked = [], level = [] }) {
    const lists = [listed, revoked].map((list) => (
        Array.isArray(list) ? { certificates: list, digests: [] } : list
    ));
    const [known, gone] = await Promise.all(
        lists.map(({ certificates }) => Promise.all(certificates.map(certificate))),
    );
    const bodies = known.map(({ name, tbs, of }) => [name, { subject: subjectOf(tbs), of }]);
    const revocations = new Set(gone.map(({ name }) => name));
    return {
        listed: { digests: new Set(lists[0].digests), certificates: new Map(bodies) },
        revoked: { digests: new Set(lists[1].digests), certificates: revocations },
        level: { stamp: 0, names: new Map(level) },
        known,
    };
}

for (const { name, bytes, says, holds, misses, issuers, ...image } of signatures) {
    test(`${name}: each signature is told, and whom it is by`, async () => {
        const found = signaturesOf(rowBytes(bytes, parts));
        const wanted = says.map((words, at) => (
            plain(holds[at] ? `${words}; it holds ${HOLDS[holds[at]]}` : words)
        ));
        assert.deepEqual(found.map((one) => plain(signatureWords(one, image))), wanted);
        const missed = [...algorithmDoubt(found).matchAll(/signature (\d+) \(over/g)];
        assert.deepEqual(missed.map(([, number]) => Number(number)), misses);
        const named = issuerNames(found);
        const all = ['between', 'ca', 'leaf', 'low', 'other'];
        const those = await Promise.all(all.map(certificate));
        assert.deepEqual(all.filter((_, at) => named.includes(those[at].of)), [...issuers].sort());
    });
    if (!name.startsWith('the digest as')) test(`${name}: its digests`, async () => {
        const { digest, signing } = image;
        assert.deepEqual(await authenticode(rowBytes(bytes, parts)), [digest, signing]);
    });
    test(`${name}: no beginning throws`, () => {
        const whole = rowBytes(bytes, parts);
        for (let length = 1024; length < whole.length; length += 7) {
            for (const one of signaturesOf(whole.subarray(0, length))) {
                assert.equal(typeof signatureWords(one, image), 'string');
            }
        }
    });
}

for (const { name, asks, image, ...row } of listings) {
    test(`${name}: what is asked before it is listed`, async () => {
        const [one, now] = [await certificate(row.certificate), await standing(row)];
        const certificates = await Promise.all((image ?? []).map(certificate));
        const carried = certificates.map((its) => its.name);
        const beside = image ? imageDoubts(one, { file: 'an image', carried, certificates }) : [];
        const found = [...signerDoubts(one, now, [...now.known, ...certificates]), ...beside];
        const titles = found.map(({ title }) => title);
        assert.equal(titles.length, asks.length, titles.join('\n'));
        for (const ask of asks) assert.ok(titles.some((title) => ASKS[ask].test(title)), ask);
    });
}

for (const { name, request, facts, like, differs } of compares) {
    test(`${name}: how a file is like a request, and what differs`, () => {
        assert.equal(likeness(request, facts).kind, like);
        const found = differences(request, facts, new Map());
        const what = found.map(([word]) => word.replace(/^Component .*/, 'Component'));
        assert.deepEqual(what, differs.map((one) => WHAT[one]));
    });
}

for (const { name, facts, says, ...row } of todays) {
    test(`${name}: what the lists say of it today`, async () => {
        const found = entries(await standing(row), facts);
        assert.deepEqual(found.map(({ where, text }) => plain(`${where}: ${text}`)), says);
    });
}
