// Which requests and proposals a search takes, by page/wire/cases/search.json.

// So many digits of a digest are a search for it.
const DIGITS = 8;

/**
 * By its number, and parts of its title and its submitter's name; by the beginning of one of its
 * digests.
 * @param {import('./types.js').Request} one
 * @param {string} text
 */
export function requestMatches(one, text) {
    const { number, title, submitter, file, digest, signing, returned } = one;
    const like = text.trim().toLowerCase();
    if (String(number) === like || submitter.includes(like)) return true;
    if (title.toLowerCase().includes(like)) return true;
    const names = [file, digest, signing, returned ?? ''];
    return like.length >= DIGITS && names.some((name) => name.startsWith(like));
}

/**
 * By its number, and parts of its officer's name and of what it names, as far as that is read.
 * @param {import('./types.js').ProposalRow} one
 * @param {string} text
 * @param {string} [names]
 */
export function proposalMatches({ number, officer }, text, names = '') {
    const like = text.trim().toLowerCase();
    return String(number) === like || officer.includes(like) || names.toLowerCase().includes(like);
}
