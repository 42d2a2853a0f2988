// How long nobody has touched the page: a minute before half an hour is over it warns, and then it
// is covered.

/** In milliseconds: when it is covered, and how long before that it warns. */
export const AWAY = 30 * 60000;
export const WARNING = 60000;

/** The clock, which tests set. */
export const clock = { now: () => Date.now() };

let touched = 0;

// Somebody is here.
export function touch() {
    touched = clock.now();
}

// Whether somebody is `here`, it is `soon` too long, or they are `away`.
export function idle() {
    const left = touched + AWAY - clock.now();
    if (left <= 0) return 'away';
    return left <= WARNING ? 'soon' : 'here';
}
