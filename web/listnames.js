// SPDX-License-Identifier: MIT OR Apache-2.0
// What the name of a file says: whether it is a list, and of which hash.
import { hashNamed } from './functions.js';

const HASH = 'sha-?(?:2-)?(?:256|512)|blake2b(?:-\\d+)?|blake2s(?:-\\d+)?|blake2|blake3|b2|b3';
const LIST = '(?:sum|digest|hash|checksum)(?:s|es)?';
// What a browser, an editor or a signature puts after the name of a list.
const ADDED = /( ?\(\d+\)|\.(txt|text|list|asc|gpg|sign))$/;

// The end of a name, then a name as a whole, and then one that begins or ends as such. BLAKE2SUMS is of BLAKE2b.
const OF_HASH = [
  new RegExp(`\\.(${HASH})(?:${LIST})?$`),
  new RegExp(`^(${HASH})[-_. ]?(?:${LIST})?$`),
  /^(sha)sums?[-_.]?(256|512)$/,
  new RegExp(`^${LIST}[-_. ](${HASH})(?![a-z0-9])`),
  new RegExp(`[-_. ](${HASH})[-_. ]?(?:${LIST})?$`),
];
const PLAIN = new RegExp(`(^|[^a-z])(check|sha|md5)?${LIST}$`);

/** A name in lower case, without what was put after it. */
function stem(name) {
  const lower = name.toLowerCase().trim();
  return ADDED.test(lower) ? stem(lower.replace(ADDED, '')) : lower;
}

/** The hash that the name of a list names, or null. */
export function hashOfList(name) {
  const own = stem(name);
  for (const form of OF_HASH) {
    const found = form.exec(own);
    if (found) return hashNamed(found.slice(1).join(''));
  }
  return null;
}

/** Whether a name is one of a list, as far as a name tells. */
export const isListName = (name) => hashOfList(name) !== null || PLAIN.test(stem(name));
