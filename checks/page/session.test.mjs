// Who is signed in: nobody before all that the page reads of page/wire/ is there, nor by a text that is
// no token.
import assert from 'node:assert/strict';
import { test } from 'node:test';

import { me, signIn, tokenFault } from '../../page/desk/session.js';

test('a sign-in waits for all of page/wire/, says what doesn’t come, and tries again', async () => {
    let asked = [];
    let isThere = false;
    globalThis.fetch = async (path) => {
        asked.push(path);
        const status = path.endsWith('/lists.json') && !isThere ? 404 : 200;
        const json = async () => ({ name: 'ann', role: 'reviewer' });
        return { status, json, text: async () => '{}' };
    };
    assert.deepEqual(await signIn('a-token-of-someone'), { kind: 'lost', status: 404 });
    assert.ok(!asked.includes('/me') && !me.known, `${asked}`);
    isThere = true;
    assert.equal(await signIn('a-token-of-someone'), null);
    assert.equal(asked.at(-1), '/me');
    assert.deepEqual([me.known, me.name, me.role], [true, 'ann', 'reviewer']);
    assert.deepEqual([me.reviewer, me.submitter, me.signer], [true, true, false]);
    asked = [];
    assert.equal(await signIn('a-token-of-another'), null);
    assert.deepEqual(asked, ['/me']);
});

test('what is no token is told before anything is asked', () => {
    const tokens = ['', '0123456789abcdef', '!'.repeat(128)];
    for (const token of tokens) assert.equal(tokenFault(token), '');
    assert.match(tokenFault('0123456789 abcdef'), /no spaces/);
    assert.match(tokenFault('0123456789abcde'), /this has 15/);
    const odd = ['é'.repeat(16), '~'.repeat(129)];
    for (const token of odd) assert.match(tokenFault(token), /16 to 128/);
});
