// A certificate, by its file or by the SHA-256 of its TBSCertificate.

import { box, facts, faultAt, field, fill, line, status, strong } from './dom.js';
import { fileField } from './files.js';
import { digest } from './marks.js';
import { withName } from '../desk/signer.js';
import { certificateOf, givenOf } from '../formats/certificates.js';
import { certificateIn } from '../formats/pem.js';
import { wire } from '../formats/wire.js';

const HINT = 'As “desk facts” prints it for an image. '
    + 'The fingerprint that openssl prints is another one.';
const NO_SUM = 'isn’t worked out: browsers do it over https alone';

/**
 * A certificate from a file.
 * @typedef {import('../desk/signer.js').Certificate & { der: Uint8Array }} Certificate
 */

// Fields for one certificate: the last one, `input`, has its name in dbx; `given` has those whose
// files were chosen.
export function certificateField() {
    const input = line({ class: 'mono' });
    /** @type {Map<string, import('../formats/certificates.js').Given>} */
    const given = new Map();
    const { place, said } = certificateFile('Its file', (chosen) => {
        input.value = chosen?.name ?? '';
        if (chosen) given.set(chosen.name, givenOf(chosen.name, chosen.der));
        faultAt(input);
    });
    const name = field('Or the SHA-256 of its TBSCertificate', input, HINT);
    return { parts: [place, said, name], input, given };
}

/** @param {Certificate} certificate */
export function certificateFacts({ name, subject, issuer, key, authority }) {
    return facts([
        ['Subject', strong(subject)],
        ['Issuer', issuer === subject ? 'the same: it is self-issued' : issuer],
        ['Key', key],
        ['CA', authority ? strong('yes, it can issue others') : 'no'],
        [
            'SHA-256 of its TBSCertificate',
            name ? digest(name, 'the SHA-256 of the TBSCertificate') : NO_SUM,
        ],
    ]);
}

// A field for a certificate's file, DER or PEM.
/** @param {string} label @param {(chosen: Certificate | null) => void} take */
export function certificateFile(label, take) {
    const said = status();
    const hint = 'DER or PEM. Choose it, or drop it here.';
    const { place, input } = fileField(label, hint, async (chosen) => {
        fill(said);
        take(null);
        if (!chosen) return;
        const found = certificateIn(chosen.bytes);
        if ('fault' in found) return faultAt(input, found.fault);
        const certificate = { ...await withName(certificateOf(found.der)), der: found.der };
        fill(said, box('note', certificateFacts(certificate)));
        return take(certificate);
    }, wire.limits.certificate * 2);
    return { place, said, input };
}
