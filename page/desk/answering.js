// Whether the image that "why" asks about is barred or allowed, and by what.

import { wire } from '../formats/wire.js';
import { filled } from '../formats/words.js';

/** @param {import('./why.js').Story} story @returns {string} '' where no image is asked about */
export function answerOf({ names: { digests, certificates, image }, generations, by }) {
    if (!image) return '';
    const { answers } = wire.sentences;
    const sets = Object.entries({ digest: digests, certificate: certificates });
    const found = (/** @type {'revoked' | 'listed'} */ how) => sets.flatMap(([kind, set]) => {
        const calls = [...set].flatMap((one) => by.get(`${how} ${one}`) || []);
        return calls.length > 0 ? { kind, CALL: Math.min(...calls) } : [];
    })[0];
    const revoked = found('revoked');
    if (revoked) return filled(answers[revoked.kind], revoked);
    const low = image.find(([name, has]) => has < (generations.get(name) ?? 0));
    if (low) {
        const [NAME, HAS] = low;
        const words = { NAME, HAS, CALL: by.get(`raised ${NAME}`) };
        return filled(answers.component, { ...words, GENERATION: generations.get(NAME) });
    }
    const listed = found('listed');
    return listed ? filled(answers[`listed ${listed.kind}`], listed) : answers.none;
}
