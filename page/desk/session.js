// Who is signed in, by the desk's own word.

import { get, goOn, hold, isToken, setToken, whose } from './api.js';
import { readWire } from '../formats/wire.js';

const NOBODY = {
    known: false,
    name: '',
    role: '',
    officer: false,
    reviewer: false,
    submitter: false,
    signer: false,
    /** Whether a token signed in, and not a certificate. */
    hasToken: false,
};

const queue = () => ({
    state: '', text: '', from: 0, scroll: 0, open: /** @type {Set<string>} */ (new Set()),
});

/** What the person may do, and the name. */
export const me = {
    ...NOBODY,
    /**
     * What the queue was last set to: the filter, the first row, and how far it was scrolled; and
     * which uploads are open in any list.
     */
    queue: queue(),
};

// Who a name is, where it is the person's own.
/** @param {string} name */
export const withYou = (name) => (name === me.name ? `${name} (you)` : name);

// Signs in. Gives null if the desk knows the token, or what came instead.
/** @param {string} token @returns {Promise<import('./types.js').NoValue | null>} */
export async function signIn(token) {
    const missing = await readWire();
    if (missing) return missing;
    signOut();
    setToken(token);
    const told = await get('/me');
    if (told.kind !== 'value') {
        setToken('');
        return told;
    }
    const { name, role } = /** @type {import('./types.js').Person} */ (told.value);
    Object.assign(me, { known: true, name, role, [role]: true, hasToken: token !== '' });
    if (role === 'reviewer') me.submitter = true;
    return null;
}

/** The person is away: the token is forgotten, and nothing is asked. */
export const leaves = hold;

/**
 * The person is back, if this token is theirs.
 * @param {string} token
 * @returns {Promise<import('./types.js').NoValue | 'other' | null>} null if all goes on
 */
export async function comesBack(token) {
    const told = await whose(token);
    if (told.kind !== 'value') return told;
    if (told.value.name !== me.name) return 'other';
    goOn(token);
    return null;
}

// Forgets the token and all that was found out with it.
export function signOut() {
    setToken('');
    Object.assign(me, { ...NOBODY, queue: queue() });
}

// What is wrong with a typed token, or ''. An empty one is for a proxy that knows people by their
// certificates and sets Desk-Token itself.
/** @param {string} token */
export function tokenFault(token) {
    if (token === '' || isToken(token)) return '';
    if (/\s/.test(token)) return 'A token has no spaces and no line ends.';
    if (token.length < 16) return `A token has at least 16 characters; this has ${token.length}.`;
    return 'A token has 16 to 128 characters of ASCII.';
}
