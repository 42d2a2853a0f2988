// SHA-256 digests: worked out, written and read.

/** @param {Uint8Array} bytes */
export function hex(bytes) {
    return Array.from(bytes, (byte) => byte.toString(16).padStart(2, '0')).join('');
}

/** @param {string} digits hexadecimal, two a byte */
export function bytesOf(digits) {
    return Uint8Array.from(digits.match(/../g) ?? [], (two) => parseInt(two, 16));
}

/**
 * @param {Uint8Array} bytes
 * @returns {Promise<string>} in hexadecimal digits; '' where the browser hashes only over https
 */
export async function sha256(bytes) {
    if (!crypto.subtle) return '';
    return hex(new Uint8Array(await crypto.subtle.digest('SHA-256', bytes)));
}

// What a person typed as a digest, as 64 digits in lower case, or null. Colons and spaces are
// dropped.
/** @param {string} text */
export function digestTyped(text) {
    const plain = text.replace(/[\s:]/g, '').toLowerCase();
    return /^[0-9a-f]{64}$/.test(plain) ? plain : null;
}
