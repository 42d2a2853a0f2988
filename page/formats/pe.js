// An image's sections and digests, as docs/FORMATS.md has them. This isn't proved.

import { sha256 } from './digests.js';

/**
 * The texts in an image's sections of these names, each up to its first zero byte.
 * @param {Uint8Array} bytes @param {string[]} names
 * @returns {[name: string, text: Uint8Array][]}
 */
export function textsIn(bytes, names) {
    try {
        const found = sections(bytes).filter(({ name }) => names.includes(name));
        const texts = found.map(({ name, begin, end }) => /** @type {const} */ ([
            name, untilZero(bytes.subarray(begin, end)),
        ]));
        const held = new Map(texts.filter(([, text]) => text.length > 0));
        return names.flatMap((name) => {
            const text = held.get(name);
            return text ? [[name, text]] : [];
        });
    } catch {
        return [];
    }
}

/** @param {Uint8Array} bytes */
function untilZero(bytes) {
    const end = bytes.indexOf(0);
    return end < 0 ? bytes : bytes.subarray(0, end);
}

// Of each section its name, and where its raw data begin and end; throws where the file is cut.
/** @param {Uint8Array} bytes */
function sections(bytes) {
    const numbers = new DataView(bytes.buffer, bytes.byteOffset, bytes.byteLength);
    const head = numbers.getUint32(0x3c, true);
    const first = head + 24 + numbers.getUint16(head + 20, true);
    return Array.from({ length: numbers.getUint16(head + 6, true) }, (_, number) => {
        const at = first + 40 * number;
        const [size, begin] = [numbers.getUint32(at + 16, true), numbers.getUint32(at + 20, true)];
        const name = new TextDecoder('latin1').decode(untilZero(bytes.subarray(at, at + 8)));
        return { name, begin, end: begin + size };
    });
}

// The ranges that Authenticode hashes of an image whose layout is good, and whether it has a
// certificate table.
/** @param {Uint8Array} bytes */
function hashedRanges(bytes) {
    const numbers = new DataView(bytes.buffer, bytes.byteOffset, bytes.byteLength);
    const number = (/** @type {number} */ at) => numbers.getUint32(at, true);
    const optional = number(0x3c) + 24;
    const entry = optional + (numbers.getUint16(optional, true) === 0x20b ? 144 : 128);
    const [heads, checksum] = [number(optional + 60), optional + 64];
    const hasEntry = number(entry - 36) >= 5;
    const [table, size] = hasEntry ? [number(entry), number(entry + 4)] : [0, 0];
    const raw = sections(bytes).filter(({ begin, end }) => end > begin)
        .sort((one, other) => one.begin - other.begin);
    const last = raw.reduce((sum, { begin, end }) => sum + end - begin, heads);
    /** @type {[from: number, to: number][]} */
    const ranges = [
        [0, checksum],
        [checksum + 4, hasEntry ? entry : heads],
        [hasEntry ? entry + 8 : heads, heads],
        ...raw.map(({ begin, end }) => /** @type {[number, number]} */ ([begin, end])),
        [last, size > 0 ? table : bytes.length],
    ];
    return { ranges, hasTable: size > 0 };
}

// The digest of an image whose layout is good, and the one that a signature holds.
/** @param {Uint8Array} bytes @returns {Promise<[digest: string, signing: string]>} */
export async function authenticode(bytes) {
    const { ranges, hasTable } = hashedRanges(bytes);
    const hashed = await new Blob(ranges.map(([from, to]) => bytes.subarray(from, to)))
        .arrayBuffer();
    const padding = hasTable ? 0 : (8 - (bytes.length % 8)) % 8;
    const padded = new Uint8Array(hashed.byteLength + padding);
    padded.set(new Uint8Array(hashed));
    return [await sha256(padded.subarray(0, hashed.byteLength)), await sha256(padded)];
}
