// A file that is chosen or dropped, and its SHA-256, worked out in the page.

import { button, faultAt, faultIn, field, fill, h, p, quiet } from './dom.js';
import { digest } from './marks.js';
import { sha256 } from '../formats/digests.js';
import { wire } from '../formats/wire.js';
import { size } from '../formats/words.js';

/** What is said where a file that was chosen isn't read, or can't be. */
export const UNREAD = 'The file isn’t read yet: wait, or take it out.';

// What is wrong where a file is due and there is none.
/** @param {HTMLInputElement} input @param {string} words where none was chosen */
export const noFile = (input, words) => (
    input.files?.length ? faultIn(input) || UNREAD : words
);

const NO_SUM = 'isn’t worked out: browsers do it over https alone.';

/**
 * @typedef {{ file: File, bytes: Uint8Array, sha256: string }} Chosen
 */

/**
 * A field for one file, by a click, by the keyboard or by dropping it.
 * @param {string} label
 * @param {string} hint
 * @param {(chosen: Chosen | null) => void} take is called with each file once it is read, and null
 * if there is none
 * @param {number} [most] how many bytes it may have
 */
export function fileField(label, hint, take, most = wire.limits.image) {
    const input = h('input', { type: 'file', onchange: () => chosen(input.files?.[0]) });
    const told = h('div', { class: 'file-told', role: 'status' });
    const place = h('div', { class: 'drop' }, field(label, input, hint), told);
    let turn = 0;
    const takeOut = button('Take it out', () => {
        input.value = '';
        chosen(undefined);
        input.focus();
    }, 'small');
    const fault = (/** @type {string} */ text) => {
        faultAt(input, text);
        fill(told, takeOut);
    };
    const chosen = async (/** @type {File | undefined} */ file) => {
        const mine = ++turn;
        faultAt(input);
        take(null);
        if (!file) return fill(told);
        const { name } = file;
        if (file.size > most) {
            return fault(`${name} has ${size(file.size)}; at most ${size(most)} are taken.`);
        }
        fill(told, quiet(`Reading ${name}…`));
        const bytes = await bytesOf(file);
        if (mine !== turn) return undefined;
        if (!bytes) return fault(`${name} can’t be read.`);
        const sum = await sha256(bytes);
        if (mine !== turn) return undefined;
        const shown = sum ? digest(sum, 'the SHA-256 of this file') : NO_SUM;
        fill(told, p(`${name}, ${size(bytes.length)}`), p('SHA-256 of the file ', shown));
        return take({ file, bytes, sha256: sum });
    };
    takesDrops(place, input, chosen);
    return { place, input };
}

/** @param {File} file @returns {Promise<Uint8Array | null>} */
async function bytesOf(file) {
    try {
        return new Uint8Array(await file.arrayBuffer());
    } catch {
        return null;
    }
}

/**
 * Lets a file be dropped in a place, as if it were chosen in its input.
 * @param {HTMLElement} place
 * @param {HTMLInputElement} input
 * @param {(file: File) => void} chosen
 */
function takesDrops(place, input, chosen) {
    place.addEventListener('dragover', (event) => {
        event.preventDefault();
        place.classList.add('over');
    });
    place.addEventListener('dragleave', () => place.classList.remove('over'));
    place.addEventListener('drop', (event) => {
        event.preventDefault();
        place.classList.remove('over');
        const file = event.dataTransfer?.files[0];
        if (!file || input.disabled) return;
        const one = new DataTransfer();
        one.items.add(file);
        input.files = one.files;
        chosen(file);
    });
}

// Hands bytes to the person as a file.
/** @param {BlobPart[]} parts @param {string} name */
export function download(parts, name) {
    const at = URL.createObjectURL(new Blob(parts, { type: 'application/octet-stream' }));
    const link = h('a', { href: at, download: name, hidden: true });
    document.body.append(link);
    link.click();
    link.remove();
    setTimeout(() => URL.revokeObjectURL(at), 60000);
}
