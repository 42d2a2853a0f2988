// What the files of one upload are called, and the next version, by page/wire/cases/titles.json.
import assert from 'node:assert/strict';
import { test } from 'node:test';

import { json } from './cases.mjs';
import { apartIn, groupOf, nameOf } from '../../page/desk/titles.js';

for (const [title, group, apart, name] of json('cases/titles').titles) {
    test(`"${title}" has an upload, what tells it apart there, and a name`, () => {
        const found = [groupOf(title), apartIn(title), nameOf(title)];
        assert.deepEqual(found, [group, apart ?? title, name]);
    });
}
