// The level for shim, by page/wire/cases/levels.json.
import assert from 'node:assert/strict';
import { test } from 'node:test';

import { json } from './cases.mjs';
import { covered, levelText, reached } from '../../page/desk/levels.js';

const { upstream, cases } = json('cases/levels');
const mapped = (object) => new Map(Object.entries(object));

for (const { name, level, proposals, images, left } of cases) {
    test(name, () => {
        const names = mapped(level);
        const found = covered(names, reached(names, proposals), images);
        assert.deepEqual(Object.fromEntries(found), left);
    });
}

test('a desk that follows upstream has its names for shim', () => {
    const level = new Map();
    const proposals = [];
    for (const { stamp, names, shim } of upstream.filter((one) => one.shim)) {
        const higher = Object.entries(names).filter(([name, to]) => to > (level.get(name) ?? 0));
        for (const [name, to] of higher) level.set(name, to);
        proposals.push({ state: 'confirmed', stamp, components: higher });
        const left = covered(level, reached(level, proposals), []);
        const stays = new Map([...level].filter(([name]) => !left.has(name)));
        assert.equal(levelText(stamp, stays), levelText(stamp, mapped(shim)));
    }
});
