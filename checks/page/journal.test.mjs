// A command takes effect once, whatever comes in place of an answer; nothing of one person reaches
// the next.
import assert from 'node:assert/strict';
import { beforeEach, test } from 'node:test';

import './cases.mjs';
import { PAUSES, get, setToken } from '../../page/desk/api.js';
import { matching } from '../../page/desk/answers.js';
import { Command, forgetKeys, unanswered } from '../../page/desk/journal.js';

// The answers of a proxy and a desk to each try in turn, by status and text; 0 loses the
// connection.
class Line {
    constructor(...answers) {
        this.answers = answers;
        this.keys = [];
        this.matches = [];
        const line = this;
        globalThis.XMLHttpRequest = class extends EventTarget {
            upload = new EventTarget();
            open() {
                line.matches.push(undefined);
            }
            setRequestHeader(name, value) {
                if (name === 'Desk-Key') line.keys.push(value);
                if (name === 'If-Match') line.matches.splice(-1, 1, value);
            }
            abort() {
                for (const kind of ['abort', 'loadend']) this.dispatchEvent(new Event(kind));
            }
            send() {
                const [status, text = ''] = line.answers.shift();
                this.status = status;
                this.responseText = text;
                if (status === 'never') return;
                const events = [status === 0 ? 'error' : 'load', 'loadend'];
                setTimeout(() => events.forEach((kind) => this.dispatchEvent(new Event(kind))));
            }
        };
    }

    // How many keys there are among the tries from one to another.
    count(from = 0, to = this.keys.length) {
        return new Set(this.keys.slice(from, to)).size;
    }
}

const refused = (name, number) => JSON.stringify({ name, refused: number });
const WRONG = [409, refused('WrongState', 24)];
const MISMATCH = [412, refused('Mismatch', 49)];
const DONE = [200, '{"reply":"submitted","request":1}'];
const LOST = Array(4).fill([0]);
// What doesn't tell whether the try before it acted.
const UNREAD = [
    [404, '<html>'],
    [403, ''],
    [413, ''],
    [301, ''],
    [401, refused('UnknownCaller', 20)],
    [400, refused('BadHead', 50)],
    [400, refused('BadField', 51)],
    [404, refused('NoRoute', 53)],
    [405, refused('BadMethod', 54)],
    [411, refused('LengthNeeded', 55)],
    [413, refused('TooLarge', 56)],
    [501, refused('NotSupported', 57)],
    [502, ''],
    [503, refused('NoMemory', 41)],
    [429, ''],
    [200, 'captive'],
];

const command = (body = 'body') => new Command('Submit', '/requests', body);
const about = (tag) => new Command('Drop', '/proposals/1/drop', '', matching(tag));

// Runs a command, and stops it at once.
function stoppedAtOnce(one) {
    const stop = new AbortController();
    const run = one.run(() => {}, { stop: stop.signal });
    stop.abort();
    return run;
}

// Runs a command until its answer is lost; gives what it ends with.
async function untilLost(one) {
    let run;
    await new Promise((resolve) => {
        run = one.run(({ state }) => state === 'lost' && resolve());
    });
    return { run };
}

beforeEach(() => {
    PAUSES.fill(1);
    forgetKeys();
});

for (const answer of [DONE, WRONG, [404, '<html>'], [401, refused('UnknownCaller', 20)]]) {
    test(`an answer of ${answer[0]} to a first try is an end: then another key`, async () => {
        const line = new Line(answer, DONE);
        assert.equal((await command().run()).kind, answer[0] === 200 ? 'value' : 'refused');
        await command().run();
        assert.equal(line.count(), 2);
    });
}

for (const answer of UNREAD) {
    test(`behind a lost answer ${answer} is no end: the key stays`, async () => {
        const line = new Line([0], answer, answer, answer, answer, DONE);
        const states = [];
        const ended = await command().run((one) => {
            states.push(one.state);
            if (one.state === 'lost') setTimeout(() => one.askAgain());
        });
        assert.equal(ended.kind, 'value');
        assert.ok(states.includes('lost'), `${states}`);
        assert.equal(line.count(), 1);
    });
}

test('one that is given again has the key, whatever the proxy answers', async () => {
    const line = new Line([0], ...Array(7).fill([404, '']), DONE);
    const gives = (one) => one.state === 'lost' && setTimeout(() => one.forget());
    for (let times = 0; times < 2; times += 1) {
        assert.deepEqual(await command().run(gives), { kind: 'stopped', sent: true });
    }
    assert.equal((await command().run()).kind, 'value');
    assert.deepEqual([line.keys.length, line.count()], [9, 1]);
});

for (const refusal of [WRONG, MISMATCH]) {
    test(`the desk’s own refusal settles a lost one: ${refusal}`, async () => {
        const line = new Line([0], refusal, DONE);
        assert.equal((await command().run()).kind, 'refused');
        await command().run();
        assert.equal(line.count(), 2);
    });
}

test('If-Match goes out with each try under its key, also where it is asked again', async () => {
    const line = new Line(...LOST, ...LOST, DONE);
    const one = about('aa');
    let lost = 0;
    const ended = await one.run(({ state }) => {
        lost += state === 'lost';
        if (state === 'lost') setTimeout(() => one.askAgain());
    });
    assert.deepEqual([ended.kind, lost], ['value', 2]);
    assert.deepEqual([line.matches, line.count()], [Array(9).fill('"aa"'), 1]);
});

test('a command about another tag shares no key with one that waits', async () => {
    const line = new Line(...LOST, DONE, DONE, DONE);
    const first = about('aa');
    const { run } = await untilLost(first);
    for (const tag of ['bb', 'cc']) await about(tag).run();
    first.askAgain();
    assert.equal((await run).kind, 'value');
    assert.deepEqual(line.matches, [...Array(4).fill('"aa"'), '"bb"', '"cc"', '"aa"']);
    assert.deepEqual([line.count(0, 4), line.count(3, 6), line.count()], [1, 3, 3]);
    assert.equal(line.keys[6], line.keys[0]);
});

test('nor does one about another tag with one that was given up; the same has its key', async () => {
    const line = new Line(['never'], DONE, DONE);
    await stoppedAtOnce(about('aa'));
    for (const tag of ['bb', 'aa']) await about(tag).run();
    assert.deepEqual(line.matches, ['"aa"', '"bb"', '"aa"']);
    assert.notEqual(line.keys[1], line.keys[0]);
    assert.equal(line.keys[2], line.keys[0]);
});

test('a stop doesn’t settle it, however far the upload came', async () => {
    const line = new Line(['never'], DONE);
    assert.deepEqual(await stoppedAtOnce(command()), { kind: 'stopped', sent: false });
    await command().run();
    assert.equal(line.count(), 1);
});

test('one that says the same as one that waits has its key until an answer', async () => {
    const line = new Line(...LOST, DONE, DONE);
    const first = command();
    const { run } = await untilLost(first);
    assert.equal((await command().run()).kind, 'value');
    first.forget();
    assert.equal((await run).kind, 'stopped');
    await command().run();
    assert.deepEqual([line.keys.length, line.count(0, 5), line.count()], [6, 1, 2]);
});

test('what is never answered is lost after a time, and is asked for again', async () => {
    const line = new Line(['never'], DONE);
    const inTime = globalThis.setTimeout;
    globalThis.setTimeout = (act, time) => inTime(act, Math.min(time ?? 0, 5));
    try {
        const withdraw = new Command('Withdraw', '/requests/1/withdraw', '');
        assert.equal((await withdraw.run()).kind, 'value');
    } finally {
        globalThis.setTimeout = inTime;
    }
    assert.deepEqual([line.keys.length, line.count()], [2, 1]);
});

test('one who signs out hears of nothing more, and leaves no key', async () => {
    const line = new Line(['never'], DONE);
    let heard = false;
    const run = command().run(() => (heard = true));
    run.then(() => assert.fail('an answer after the sign-out'));
    heard = false;
    forgetKeys();
    setToken('');
    await new Promise((resolve) => setTimeout(resolve, 20));
    assert.equal(heard, false);
    assert.equal(unanswered.size, 0);
    await command().run();
    assert.equal(line.count(), 2);
});

test('a refusal unread leaves the key to one that was stopped meanwhile', async () => {
    const line = new Line([404, '<html>'], ['never'], DONE);
    const first = command().run();
    assert.equal((await stoppedAtOnce(command())).kind, 'stopped');
    assert.equal((await first).kind, 'refused');
    const third = command();
    assert.ok(third.open);
    assert.equal((await third.run()).kind, 'value');
    assert.equal(line.count(), 1);
});

test('a refusal of a lost one leaves the key to one that may still be taken', async () => {
    const line = new Line(...LOST, ['never'], WRONG, DONE, DONE);
    const lost = command();
    assert.ok(!lost.open);
    const { run } = await untilLost(lost);
    const stop = new AbortController();
    const other = command().run(() => {}, { stop: stop.signal });
    lost.askAgain();
    assert.equal((await run).kind, 'refused');
    stop.abort();
    assert.equal((await other).kind, 'stopped');
    await command().run();
    await command().run();
    assert.deepEqual([line.count(0, 7), line.count()], [1, 2]);
});

test('of uploads that were stopped the newest four have their keys, of others each', async () => {
    const bodies = ['text', ...[1, 2, 3, 4, 5].map((byte) => Uint8Array.of(byte))];
    const line = new Line(...Array(6).fill(['never']), ...Array(6).fill(DONE));
    for (const body of bodies) await stoppedAtOnce(command(body));
    for (const body of bodies) await command(body).run();
    const isKept = line.keys.slice(6).map((key, at) => key === line.keys[at]);
    assert.deepEqual(isKept, [true, false, true, true, true, true]);
});

test('a read of one person isn’t asked in the next one’s name; nobody hears of it', async () => {
    PAUSES.fill(5);
    const asked = [];
    globalThis.fetch = async (path, { headers, signal }) => {
        asked.push(headers['Desk-Token']);
        await new Promise((resolve) => setTimeout(resolve, path === '/slow' ? 20 : 0));
        if (signal.aborted) throw new Error('aborted');
        return { status: 502, text: async () => '' };
    };
    const [first, next] = ['the-first-person', 'the-next-person'];
    setToken(first);
    for (const path of ['/slow', '/quick']) {
        get(path).then(() => assert.fail('an answer to the person before'));
    }
    await new Promise((resolve) => setTimeout(resolve, 2));
    setToken(next);
    assert.equal((await get('/slow')).kind, 'lost');
    assert.deepEqual(asked, [...Array(2).fill(first), ...Array(4).fill(next)]);
});
