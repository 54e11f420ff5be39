// SPDX-License-Identifier: MIT OR Apache-2.0
// A digest that is pasted alone, in the forms that people have: bare, after the name of its hash, in groups, and as
// sha256:, openssl, Get-FileHash, certutil and gpg --print-md write it.
import { toHex } from '../bindings/js/bytes.js';
import { HASHES } from '../bindings/js/hashes.js';
import { FEWEST_DIGITS, hashNamed, isNotHere, onlyOf, otherHash, TITLES, usual } from './functions.js';

const FEWEST_SEEN = 32; // digits, those of MD5
const GROUPS = [2, 4, 8, 16];
const WHOLE_DIGITS = [64, 128];
const LABELS = 'sha-?(?:2-)?(?:256|512)|sha-?(?:1|224|384)|sha-?3-\\d+(?!\\d)|md5|blake2b|blake2s|blake3';
// in the name of a file, such as blake3-1.0.tgz, it is none
const LABEL = new RegExp(`(?<![a-z0-9])(${LABELS})(?![a-z]|(?:[-_]\\S{0,99})?\\.[a-z0-9])`, 'gi');
const BASE64 =
  /(?<![a-z0-9])sha(?:256|512)-((?:[a-z0-9+/]{4}){10,21}(?:[a-z0-9+/]{3}=|[a-z0-9+/]{2}==))(?![a-z0-9+/=])/gi;
const PART_OF_ONE = /(?<![^\s:=])[0-9a-f]{16,31}(?!\S)/gi;
const INVISIBLE = /[\u200b-\u200d\u2060\ufeff]/g;
const NO_DIGEST = 'it is neither a digest nor the lines of a list';
const SEVERAL_DIGESTS = 'it has several digests: paste each on a line of its own, or the lines of a list';

/** Groups of as many digits each that follow one another, as one text each. */
function grouped(text) {
  const found = [];
  let [run, size] = ['', 0];
  for (const word of [...text.split(/[\s:.-]+/), '']) {
    const isGroup = /^[0-9a-f]+$/i.test(word) && GROUPS.includes(word.length);
    if (run && (!isGroup || word.length !== size)) {
      if (run.length >= FEWEST_SEEN) found.push(run);
      run = '';
    }
    if (isGroup) [run, size] = [run + word, word.length];
  }
  return found;
}

/** The digits of each digest that a text has in hexadecimal digits. */
function hexadecimalIn(text) {
  const runs = text.match(/(?<![0-9a-z])(?:0x)?[0-9a-f]{8,}(?![0-9a-z])/gi) ?? [];
  const solid = runs.map((it) => it.replace(/^0x/i, '').toLowerCase());
  const long = solid.filter((it) => it.length >= FEWEST_SEEN);
  // one digest over two lines
  const isCut = long.length < 2 && solid.length > 1 && WHOLE_DIGITS.includes(solid.join('').length);
  if (isCut) return [solid.join('')];
  const groups = long.length ? [] : grouped(text).map((it) => it.toLowerCase());
  return groups.length ? groups : [...long, ...(text.match(PART_OF_ONE) ?? [])];
}

/** The digits of each digest in a text, in lower case. */
function digestsIn(text) {
  const digitsOf = (base64) => toHex(Uint8Array.from(atob(base64), (it) => it.charCodeAt(0)));
  const inBase64 = Array.from(text.matchAll(BASE64), ([, base64]) => digitsOf(base64));
  return [...new Set([...inBase64, ...hexadecimalIn(text.replace(BASE64, ' '))])];
}

/** The functions that a digest may be of, or why there are none. */
function functionsOf(digits, hash) {
  if (hash && !Object.hasOwn(HASHES, hash)) return { of: [], fault: isNotHere(hash) };
  const other = hash ? null : otherHash(digits);
  if (other) return { of: [], fault: `it has ${other}` };
  if (digits < FEWEST_DIGITS) return { of: [], fault: `it has ${digits} digits, too few: was it copied whole?` };
  const of = hash ? onlyOf(hash, digits).filter(Boolean) : usual(digits);
  if (of.length) return { of, fault: '' };
  const named = hash ? `no digest of ${TITLES[hash]} has as many` : 'no hash here has as many, unless you choose one';
  return { of, fault: `it has ${digits} digits, and ${named}: was it copied whole?` };
}

/**
 * What a text with one digest is: `{ digest, of, fault }`, its digits and the functions that it may be of, one if the
 * text or else `chosen` names it. If it is no such digest, `of` is empty, and `fault` says why.
 */
function digestOf(text, chosen) {
  const digests = digestsIn(text);
  if (digests.length !== 1) return { digest: '', of: [], fault: digests.length ? SEVERAL_DIGESTS : NO_DIGEST };
  const labels = new Set(Array.from(text.matchAll(LABEL), ([, label]) => hashNamed(label)));
  const hash = labels.size === 1 ? [...labels][0] : chosen;
  return { digest: digests[0], ...functionsOf(digests[0].length, hash) };
}

/** The parts of a text with several digests: each line with one, and what stands before it. */
function partsWithDigest(text) {
  const parts = [];
  let part = '';
  for (const line of text.split('\n')) {
    part += `${line}\n`;
    if (!digestsIn(line).length) continue;
    parts.push(part);
    part = '';
  }
  return parts;
}

/** What a text is that is no list: each of its digests. */
export function pastedDigests(text, chosen) {
  const plain = text.replace(INVISIBLE, '');
  const parts = digestsIn(plain).length > 1 ? partsWithDigest(plain) : [];
  return (parts.length ? parts : [plain]).map((it) => digestOf(it, chosen));
}
