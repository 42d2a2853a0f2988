// What the page reads of page/wire/, and what it does where a part of it doesn't come.
import assert from 'node:assert/strict';
import { test } from 'node:test';

import { json, plain } from './cases.mjs';
import { explained } from '../../page/desk/refusals.js';

test('each refusal is told in its words, with what to do about it', () => {
    const rows = json('refusals');
    assert.ok(rows.length > 50);
    for (const { name, means, told = means, next, page = next } of rows) {
        const { why, todo } = explained({ name });
        assert.deepEqual([plain(why), plain(todo)], [told, page], name);
        assert.ok(todo, name);
        assert.equal(explained({ name, at: 7 }).why, `${why} Here it is 7.`);
    }
});

test('what isn’t the desk’s refusal is told, too', () => {
    assert.match(explained({ name: 'HTTP 418' }).why, /The proxy refused it/);
    assert.match(explained({ name: 'NoHashing' }).why, /can’t work out a SHA-256/);
});

test('a part that doesn’t come is told, and is asked for again', async () => {
    const fresh = await import('../../page/formats/wire.js?fresh');
    const parts = { sentences: 404 };
    const read = async (name) => {
        if (parts[name]) throw parts[name];
        return json(name);
    };
    assert.deepEqual(await fresh.readWire(read), { kind: 'lost', status: 404 });
    assert.deepEqual(fresh.wire, {});
    parts.sentences = new TypeError('the connection was lost');
    assert.deepEqual(await fresh.readWire(read), { kind: 'lost', status: 0 });
    delete parts.sentences;
    assert.equal(await fresh.readWire(read), null);
    assert.deepEqual(fresh.wire.refusals, json('refusals'));
    assert.equal(await fresh.readWire(() => assert.fail('it is read once')), null);
});
