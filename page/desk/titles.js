// What the files of one upload are called, by their titles: page/wire/cases/titles.json.

/** What stands between an upload and what tells its file apart. */
const APART = ' / ';

// What an upload is called.
/** @param {string} title @returns {string | null} null: the file stands alone */
export function groupOf(title) {
    const at = title.lastIndexOf(APART);
    return at > 0 ? title.slice(0, at) : null;
}

// What tells the file of an upload apart; a whole title that stands alone.
/** @param {string} title */
export const apartIn = (title) => (
    groupOf(title) === null ? title : title.slice(title.lastIndexOf(APART) + APART.length)
);

// A title without its version: what the next version is called, too.
/** @param {string} title */
export function nameOf(title) {
    const words = title.split(' ').filter((word) => word !== '');
    const at = words.findIndex((word, place) => place > 0 && /^v?\d/.test(word));
    return at > 0 ? words.filter((_, place) => place !== at).join(' ') : title;
}
