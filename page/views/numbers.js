// Generations and stamps, as they are typed.

import { line } from './dom.js';
import { wire } from '../formats/wire.js';

export const numberLine = () => line({ inputmode: 'numeric', spellcheck: null, maxlength: 10 });

/** @param {string} text */
export const isStamp = (text) => /^[1-9][0-9]{9}$/.test(text);

export const STAMP_FAULT = 'A stamp has ten digits: the date and two more, as 2026112700.';

/** @param {string} text */
export const isGeneration = (text) => (
    /^[1-9][0-9]*$/.test(text) && Number(text) <= wire.limits.generation
);

/** @param {string} text */
export const isComponent = (text) => /^[!-+\--~]{1,128}$/.test(text);
