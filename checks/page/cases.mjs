// The tables of page/wire/cases with their bytes made (README.md there has their form), and the page's
// modules with what they read of page/wire/ from the disk.
import { webcrypto } from 'node:crypto';
import { readFileSync } from 'node:fs';

import { readWire } from '../../page/formats/wire.js';

// (Node 18 has it under this name alone.)
globalThis.crypto ??= webcrypto;

const WIRE = new URL('../../page/wire/', import.meta.url);
export const text = (name) => readFileSync(new URL(`${name}.json`, WIRE), 'utf8');
export const json = (name) => JSON.parse(text(name));
await readWire(async (name) => json(name));

const ofHex = (digits) => Buffer.from(digits.replaceAll(' ', ''), 'hex');

function pem(bytes, label) {
    const lines = bytes.toString('base64').match(/.{1,64}/g);
    return [`-----BEGIN ${label}-----`, ...lines, `-----END ${label}-----`, ''].join('\n');
}

function pieceBytes(piece, parts) {
    if (typeof piece === 'string') return ofHex(piece);
    if ('hex' in piece) return Buffer.concat(Array(piece.times).fill(ofHex(piece.hex)));
    if ('part' in piece) return rowBytes(parts[piece.part], parts);
    if ('base64' in piece) {
        const der = Buffer.from(rowBytes(parts[piece.base64], parts));
        return Buffer.from(pem(der, piece.label ?? 'CERTIFICATE'));
    }
    if ('utf-16le' in piece) return Buffer.from(piece['utf-16le'], 'utf16le');
    if ('utf-16be' in piece) return Buffer.from(piece['utf-16be'], 'utf16le').swap16();
    return Buffer.from(piece.text);
}

// A row of pieces, as a part of a longer buffer: no reader may look at what is beside it.
export function rowBytes(row, parts) {
    const bytes = Buffer.concat(row.map((piece) => pieceBytes(piece, parts)));
    const whole = Buffer.concat([ofHex('ffee'), bytes, ofHex('dd')]);
    return new Uint8Array(whole).subarray(2, 2 + bytes.length);
}

// The page's apostrophe is a typographer's.
export const plain = (words) => words.replaceAll('’', '\'');
