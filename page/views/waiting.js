// The looks at what waits for the person: every two minutes while the page is shown, and behind
// each command. Their count stands in the window's title and at the link of the first view.

import { titled } from './dom.js';
import { pause } from '../desk/api.js';
import { count, forgetWaiting, listen, look } from '../desk/waiting.js';

/** How long is waited between two looks, in milliseconds: an hour of them has less than 10 KB. */
const PAUSE = 120000;
/** And at least so many times what an answer took. */
const REST = 100;

let turn = 0;

// Looks from now on, until the sign-out.
export async function beginWaiting() {
    const mine = ++turn;
    while (mine === turn) {
        const begun = Date.now();
        await look();
        await pause(Math.max(PAUSE, REST * (Date.now() - begun)));
        await shown();
    }
}

// Looks no more: the person signs out.
export function endWaiting() {
    turn += 1;
    forgetWaiting();
    titled('Kovelamiru', 0);
}

// What a page hears that somebody sees; a hidden one once it is seen again.
/** @returns {Promise<unknown>} */
function shown() {
    if (!document.hidden) return Promise.resolve();
    return new Promise((resolve) => {
        document.addEventListener('visibilitychange', resolve, { once: true });
    });
}

// The count, kept at a link of the navigation and in the title.
/** @param {() => Element | null} place */
export function counts(place) {
    const tell = () => {
        titled(undefined, count());
        const at = place();
        if (at) at.textContent = count() > 0 ? ` ${count()}` : '';
    };
    listen(tell);
    return tell;
}
