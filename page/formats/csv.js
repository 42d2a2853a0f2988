// CSV as RFC 4180 has it.

const FIELD = /(?:"((?:[^"]|"")*)"|([^",\r\n]*))(,|\r?\n|$)/y;

// The records of a text, without empty lines; null where a field isn't whole.
/** @param {string} text @returns {string[][] | null} */
export function recordsOf(text) {
    /** @type {string[][]} */
    const found = [];
    /** @type {string[]} */
    let record = [];
    for (let at = 0; at < text.length;) {
        FIELD.lastIndex = at;
        const field = FIELD.exec(text);
        if (!field) return null;
        const [all, quoted, plain, end] = field;
        record.push(quoted === undefined ? plain : quoted.replaceAll('""', '"'));
        at += all.length;
        if (end === ',' && at < text.length) continue;
        if (end === ',') record.push('');
        if (record.length > 1 || record[0] !== '') found.push(record);
        record = [];
    }
    return found;
}

// Whether it is a record of the desk's CSV.
/** @param {string[]} row */
export function isRecord([kind, value, generation, ...more]) {
    if (generation === undefined || more.length > 0) return false;
    if (kind === 'sbat') return value !== '' && /^[1-9][0-9]*$/.test(generation);
    const isDigest = /^[0-9a-fA-F]{64}$/.test(value) && generation === '';
    return (kind === 'sha256' || kind === 'x509_sha256') && isDigest;
}
