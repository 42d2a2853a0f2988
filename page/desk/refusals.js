// Refusals in words, by page/wire/refusals.json: why, and what to do about it.

import { wire } from '../formats/wire.js';

const RETRY = 'Try again in a minute; if it comes back, tell the desk’s administrator.';

/** @type {Record<string, string[]>} what the page itself refuses, and what isn't the desk's */
const OWN = {
    NoHashing: [
        'The page can’t work out a SHA-256 here, so it can’t tell what is listed: '
            + 'browsers do it over https or at localhost alone.',
        'Open the desk over https, or on its own machine at localhost.',
    ],
    '': ['The proxy refused it, not the desk.', RETRY],
};

/** @param {{ name: string, at?: number }} answer */
export function explained({ name, at }) {
    const row = wire.refusals.find((one) => one.name === name);
    const words = row && [row.told ?? row.means, row.page ?? row.next ?? ''];
    const [why, todo] = words ?? OWN[name] ?? OWN[''];
    return { why: at === undefined ? why : `${why} Here it is ${at}.`, todo };
}
