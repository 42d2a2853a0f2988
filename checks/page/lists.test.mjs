// The lists in parts, and the requests with one of a few digests: what is asked for, what comes of
// it.
import assert from 'node:assert/strict';
import { test } from 'node:test';

import './cases.mjs';
import { setToken } from '../../page/desk/api.js';
import { listed, requestsWith } from '../../page/desk/lists.js';

let asked = [];
/** How many were asked for at once at most. */
let most = 0;

const digest = (number) => String(number).padStart(64, '0');
// Ten requests of a hundred have it as that of their file, and ten others as that of their image.
const one = (number) => ({ number, file: digest(number % 10), digest: digest((number + 1) % 10) });

const WITH = /^\/requests\/with\/([0-9a-f]{64})$/;
const FROM = /^\/requests\/from\/([0-9]+)$/;
const FORBIDDEN = [403, JSON.stringify({ name: 'Forbidden', refused: 53 })];

// A desk with so many requests, which refuses what `refuses` has an answer for.
function desk(count, refuses = () => null, make = one) {
    [asked, most] = [[], 0];
    const all = Array.from({ length: count }, (_, at) => make(3 * at + 2));
    let running = 0;
    globalThis.fetch = async (path) => {
        asked.push(path);
        running += 1;
        most = Math.max(most, running);
        await new Promise((resolve) => setTimeout(resolve, 1));
        running -= 1;
        const [, hex] = WITH.exec(path) ?? [];
        const from = Number(FROM.exec(path)?.[1] ?? 0);
        const rows = hex
            ? all.filter((row) => row.file === hex || row.digest === hex)
            : all.filter(({ number }) => number >= from);
        const [status, text] = refuses(path) ?? [200, ''];
        const json = async () => rows.slice(0, 1000);
        return { status, json, text: async () => text };
    };
    return all;
}

for (const [count, parts] of [[0, 1], [999, 1], [1000, 2], [2500, 3]]) {
    test(`${count} requests come in ${parts} parts, each once`, async () => {
        const all = desk(count);
        const counts = [];
        const answer = await listed('requests', (some) => counts.push(some.length));
        assert.deepEqual(answer, { kind: 'value', value: all });
        assert.equal(asked.length, parts);
        assert.deepEqual(counts, [1000, 2000].slice(0, parts - 1));
        if (parts > 1) assert.equal(asked[1], '/requests/from/3000');
    });
}

test('a list of which a part doesn’t come is none', async () => {
    desk(2500, (path) => (FROM.exec(path)?.[1] > 2000 ? FORBIDDEN : null));
    assert.equal((await listed('requests')).kind, 'refused');
});

const digests = (count) => Array.from({ length: count }, (_, at) => digest(at));
const paths = (some) => some.map((hex) => `/requests/with/${hex}`);

for (const [count, due] of [[0, 0], [1, 20], [2, 30], [10, 100], [20, 100]]) {
    test(`the requests with one of ${count} digests are told by ${count} answers`, async () => {
        const all = desk(100);
        const some = digests(count);
        const answer = await requestsWith([...some, ...some]);
        const value = all.filter((row) => some.includes(row.file) || some.includes(row.digest));
        assert.equal(value.length, due);
        assert.deepEqual(answer, { kind: 'value', value });
        assert.deepEqual(asked, paths(some));
        assert.equal(most, Math.min(count, 4));
    });
}

test('for more digests than 20 the list is read', async () => {
    const all = desk(1100);
    assert.deepEqual(await requestsWith(digests(21)), { kind: 'value', value: all });
    assert.deepEqual(asked, ['/requests/from/1', '/requests/from/3000']);
});

test('a token that was typed as a digest goes into no address', async () => {
    const hex = 'ab'.repeat(32);
    for (const token of [hex, hex.toUpperCase()]) {
        const all = desk(7);
        setToken(token);
        assert.deepEqual(await requestsWith([...digests(2), hex]), { kind: 'value', value: all });
        setToken('');
        assert.deepEqual(asked, ['/requests/from/1']);
    }
});

test('where more requests may have a digest than one answer tells, the list is read', async () => {
    for (const [count, reads] of [[999, 0], [1000, 2], [1001, 2]]) {
        const all = desk(count, undefined, (number) => ({ number, file: digest(1) }));
        assert.deepEqual(await requestsWith([digest(1)]), { kind: 'value', value: all });
        assert.equal(asked.filter((path) => FROM.test(path)).length, reads);
    }
});

test('where one answer doesn’t come, there are none', async () => {
    desk(7, (path) => (path.endsWith('5') ? FORBIDDEN : null));
    assert.equal((await requestsWith(digests(10))).kind, 'refused');
    assert.equal(asked.some((path) => FROM.test(path)), false);
});
