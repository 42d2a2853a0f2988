// The files of an upload: which requests are one, how their reviews stand, what was signed before.
import assert from 'node:assert/strict';
import { beforeEach, test } from 'node:test';

import './cases.mjs';
import { setToken } from '../../page/desk/api.js';
import { me } from '../../page/desk/session.js';
import { changed } from '../../page/desk/standing.js';
import {
    lastSigned, reviewWords, uploadOf, uploadsIn, waitsForVote,
} from '../../page/desk/uploads.js';
import { forgetWaiting } from '../../page/desk/waiting.js';

const vote = (reviewer, of = 'yes') => ({ note: '', reviewer, vote: of });
const request = (number, title, state = 'open', votes = [], submitter = 'ann') => (
    { number, submitter, state, votes, title, components: [], carried: [], gap: 0, length: 512 }
);

let asked;
/** What is at each path. */
let desk;

beforeEach(() => {
    [asked, desk] = [[], {}];
    setToken('');
    forgetWaiting();
    changed();
    Object.assign(me, { known: true, name: 'me', reviewer: true, submitter: true });
    globalThis.fetch = async (path) => {
        asked.push(path);
        const body = desk[path] ?? { name: 'NoRoute', refused: 53 };
        const text = JSON.stringify(body);
        const bytes = new Uint8Array();
        return {
            status: path in desk ? 200 : 404,
            text: async () => (typeof body === 'string' ? body : text),
            json: async () => JSON.parse(text),
            arrayBuffer: async () => bytes.buffer,
        };
    };
});

const names = (all) => all.map((one) => (
    'files' in one ? [one.name, ...one.files.map(({ number }) => number)] : one.number
));

test('the files of an upload are one where the first of them stands', () => {
    const all = uploadsIn([
        request(1, 'shim 16 amd64'), request(2, 'linux 6.12 / amd64'), request(3, 'a loader'),
        request(4, 'linux 6.12 / arm64'), request(5, 'linux 6.13 / amd64'), request(6, 'a loader'),
        request(7, 'linux 6.12 / amd64 rt'), request(8, 'linux 6.12 / riscv64', 'open', [], 'me'),
        request(9, 'Fedora 41 shim 15.8 x64'), request(10, 'Fedora 41 shim 15.8 aa64'),
    ]);
    assert.deepEqual(names(all), [1, ['linux 6.12', 2, 4, 7], 3, 5, 6, 8, 9, 10]);
    assert.deepEqual(uploadsIn([]), []);
});

test('reviews are told as one where all agree, and how many of each where they don’t', () => {
    const one = request(1, '', 'open', [vote('rosa')]);
    assert.equal(reviewWords([one, one, one]), '1 of 2 yes, by rosa');
    const some = '2 with 1 of 2 yes, by rosa; 1 with 0 of 2 yes';
    assert.equal(reviewWords([one, request(2, ''), one]), some);
    assert.equal(
        reviewWords([request(1, '', 'rejected', [vote('rosa', 'no')]), one]),
        '1 with 1 no, by rosa; 1 with 1 of 2 yes, by rosa',
    );
});

test('what waits for the vote is another’s, open, and without one’s own', () => {
    const all = [
        request(1, ''), request(2, '', 'open', [], 'me'), request(3, '', 'open', [vote('me')]),
        request(4, '', 'approved'), request(5, '', 'open', [vote('raul')]),
    ];
    assert.deepEqual(all.filter(waitsForVote).map(({ number }) => number), [1, 5]);
    me.reviewer = false;
    assert.deepEqual(all.filter(waitsForVote), []);
});

test('of each name the last signed one is found, and no part more is read', async () => {
    desk['/requests/from/1501'] = [
        request(1501, 'linux 6.1 / amd64', 'signed'), request(1502, 'linux 6.2 / amd64', 'signed'),
        request(1503, 'linux 6.3 / amd64', 'rejected'), request(2500, 'linux 6.4 / amd64'),
    ];
    desk['/requests/from/501'] = [
        request(600, 'linux 6.0 / arm64', 'signed'), request(601, 'linux 5.9 / amd64', 'signed'),
    ];
    const some = [request(2499, 'linux 6.4 / arm64'), request(2500, 'linux 6.4 / amd64')];
    const found = await lastSigned(some);
    assert.deepEqual(
        [...found.value].map(([name, { number }]) => [name, number]).sort(),
        [['linux / amd64', 1502], ['linux / arm64', 600]],
    );
    assert.deepEqual(asked, ['/requests/from/1501', '/requests/from/501']);
});

test('an upload is what waits of it now, at most fifty files of it', async () => {
    const waits = [
        request(3, 'linux 6.12 / amd64'), request(4, 'linux 6.13 / amd64'),
        request(5, 'linux 6.12 / rt'),
        request(6, 'linux 6.12 / armhf', 'open', [], 'me'),
        request(8, 'linux 6.12 / armhf', 'open', [], 'raul'),
    ];
    desk = {
        '/requests/2': request(2, 'linux 6.12 / arm64', 'open', [vote('me')]),
        '/requests/7': request(7, 'a loader'),
        '/changes': { changes: 1 },
        '/waiting': { requests: waits, proposals: [] },
        '/requests/from/1': [request(1, 'linux 6.11 / amd64', 'signed'), ...waits],
        '/level': 'sbat,1,2026112700\n', '/db': {}, '/dbx': {},
    };
    const found = await uploadOf(2);
    assert.equal(found.kind, 'value', JSON.stringify(found));
    const { name, files, count, before } = found.value;
    assert.deepEqual([name, count, names(files)], ['linux 6.12', 2, [3, 5]]);
    assert.deepEqual([...before.keys()], ['linux / amd64']);
    // Though nothing changed by the small answer, what waits is read again.
    desk['/waiting'].requests = Array.from({ length: 60 }, (_, at) => (
        request(at + 10, `linux 6.12 / amd64 x${at}`)
    ));
    const more = (await uploadOf(2)).value;
    assert.deepEqual([more.files.length, more.count], [50, 60]);
    desk['/waiting'].requests.push(request(7, 'a loader'));
    assert.deepEqual(names((await uploadOf(7)).value.files), [7]);
});
