// What the page makes of each file of revocations and of certificates in page/wire/cases/imports.json.
import assert from 'node:assert/strict';
import { execFileSync } from 'node:child_process';
import { mkdtempSync, readFileSync, rmSync } from 'node:fs';
import { tmpdir } from 'node:os';
import { join } from 'node:path';
import { test } from 'node:test';

import { json, plain, rowBytes } from './cases.mjs';
import { certificateOf, subjectOf } from '../../page/formats/certificates.js';
import { sha256 } from '../../page/formats/digests.js';
import { certificateIn } from '../../page/formats/pem.js';
import { revocationsOf } from '../../page/formats/revocations.js';

const { parts, imports, certificates } = json('cases/imports');
const { brought } = json('words');
const sorted = (set) => [...set].sort();
const total = (counts) => [...counts.values()].reduce((sum, one) => sum + one, 0);
const csvOf = (digests) => [...digests].reduce(
    (text, digest) => `${text}sha256,${digest},\n`,
    'kind,value,generation\n',
);

function isRefused(found, word) {
    assert.equal(found.refused, word);
    assert.notEqual(found.fault, '');
}

// What is sent: the case's bytes, Microsoft's images as CSV, or the file without what stands
// before.
function sentOf(row, found, bytes) {
    if (row.body) return rowBytes(row.body, parts);
    if (['microsoft', 'hashes'].includes(row.kind)) return Buffer.from(csvOf(found.digests));
    return bytes.subarray(bytes.length - found.body.length);
}

for (const row of imports) test(`“${row.name}” is imported, or refused`, async () => {
    const bytes = rowBytes(row.bytes, parts);
    const found = await revocationsOf(bytes, row.file);
    if (row.refused) {
        isRefused(found, row.refused);
        if (row.stamps) {
            const text = brought.levels.replace('{stamps}', row.stamps).slice(1);
            assert.ok(plain(found.fault).endsWith(`${text}. ${brought.alone}`), found.fault);
        }
        const said = ['certificate', 'mok', 'kek'].filter((one) => (
            plain(found.fault).toLowerCase().includes(brought[one].split('{')[0].toLowerCase())
        ));
        return assert.deepEqual(said, row.says ?? []);
    }
    assert.deepEqual(
        {
            refused: found.refused,
            fault: found.fault,
            kind: found.kind,
            digests: sorted(found.digests),
            certificates: sorted(found.certificates),
            components: sorted(found.components),
            stamp: found.stamp,
            aside: Object.fromEntries(found.aside),
            skipped: total(found.skipped),
            timed: found.timed,
        },
        {
            refused: '',
            fault: '',
            kind: row.kind,
            digests: row.digests ?? [],
            certificates: row.certificates ?? [],
            components: row.components ?? [],
            stamp: row.stamp ?? null,
            aside: row.aside ?? {},
            skipped: row.skipped ?? 0,
            timed: row.timed ?? 0,
        },
    );
    assert.deepEqual(Buffer.from(found.body), Buffer.from(sentOf(row, found, bytes)));
    return undefined;
});

for (const row of certificates) test(`“${row.name}” is a certificate or none`, async () => {
    const found = certificateIn(rowBytes(row.bytes, parts));
    if (row.refused) return isRefused(found, row.refused);
    assert.ok(found.der, found.fault);
    const { tbs, subject, issuer, key, authority: ca } = certificateOf(found.der);
    assert.deepEqual(
        { tbs: await sha256(tbs), subject, issuer, key, ca },
        { tbs: row.tbs, subject: row.subject, issuer: row.issuer, key: row.key, ca: row.ca },
    );
    return undefined;
});

// Each beginning of each file is read, or refused in words: nothing throws.
for (const [rows, read] of [[imports, revocationsOf], [certificates, certificateIn]]) {
    for (const row of rows) test(`no beginning of “${row.name}” throws`, async () => {
        const bytes = rowBytes(row.bytes, parts);
        const step = Math.max(1, Math.floor(bytes.length / 400));
        for (let length = 0; length < bytes.length; length += step) {
            const { fault = '' } = await read(bytes.subarray(0, length));
            assert.equal(typeof fault, 'string');
        }
    });
}

// A name that has a mark which turns a line round, and a line feed.
const KEYS = [
    ['RSA, 2048 bits', '-newkey', 'rsa:2048'],
    ['EC, P-384', '-newkey', 'ec', '-pkeyopt', 'ec_paramgen_curve:P-384'],
    ['Ed25519', '-newkey', 'ed25519'],
];
for (const [kind, ...words] of KEYS) test(`a certificate by openssl with a key ${kind}`, () => {
    const room = mkdtempSync(join(tmpdir(), 'page-'));
    try {
        const file = join(room, 'one.pem');
        words.push('-keyout', join(room, 'key.pem'), '-out', file, '-subj', '/CN=A\u202eB\nC');
        execFileSync('openssl', ['req', '-x509', '-nodes', '-utf8', ...words], { stdio: 'pipe' });
        const found = certificateIn(new Uint8Array(readFileSync(file)));
        assert.ok(found.der, found.fault);
        const { key, subject, tbs } = certificateOf(found.der);
        assert.deepEqual([key, subject], [kind, 'CN=A\\u{202e}B\\u{a}C']);
        assert.equal(subjectOf(tbs), 'A\\u{202e}B\\u{a}C');
    } finally {
        rmSync(room, { recursive: true });
    }
});
