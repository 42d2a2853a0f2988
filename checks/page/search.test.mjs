// Which requests and proposals a search takes, by page/wire/cases/search.json.
import assert from 'node:assert/strict';
import { test } from 'node:test';

import { json } from './cases.mjs';
import { proposalMatches, requestMatches } from '../../page/desk/search.js';

const { request, cases, proposal, proposals } = json('cases/search');

for (const [text, due] of cases) {
    test(`a search for "${text}"`, () => assert.equal(requestMatches(request, text), due));
}

for (const [text, due] of proposals) {
    test(`a search for the proposal "${text}"`, () => (
        assert.equal(proposalMatches(proposal, text), due)
    ));
}
