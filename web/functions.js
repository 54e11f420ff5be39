// SPDX-License-Identifier: MIT OR Apache-2.0
// Functions, which are a hash and the length of its digests in bytes, and digests by how many digits they have.
import { HASHES } from '../bindings/js/hashes.js';

/** Of a digest alone, 32 bytes: what is shorter is a part of one, or says little. */
export const FEWEST_DIGITS = 64;
export const TITLES =
  { sha256: 'SHA-256', sha512: 'SHA-512', blake2b: 'BLAKE2b', blake2s: 'BLAKE2s', blake3: 'BLAKE3' };
/** Hashes that are not here, by how many digits their digests have. */
const OTHERS = { 32: 'MD5', 40: 'SHA-1', 56: 'SHA-224', 96: 'SHA-384' };

export const titleOf = ({ hash, length }) => TITLES[hash] + (length === HASHES[hash].digest ? '' : `-${8 * length}`);
export const keyOf = ({ hash, length }) => `${hash} ${length}`;
export const wholeOf = (hash) => ({ hash, length: HASHES[hash].digest });

/** The function of this hash whose digests have so many digits, or null. */
export function sized(hash, digits) {
  const length = digits / 2;
  const { least, digest } = HASHES[hash];
  return Number.isInteger(length) && length >= least && length <= digest ? { hash, length } : null;
}

const arrays = new Map();
/** One array of functions for each key, since half a million lines may have it. */
function shared(key, make) {
  if (!arrays.has(key)) arrays.set(key, make());
  return arrays.get(key);
}

/** The function of this hash whose digests have so many digits. */
export const onlyOf = (hash, digits) => shared(`${hash} ${digits}`, () => [sized(hash, digits)]);

/** The functions that digests of so many digits are of if no hash is named: those of usual lengths. */
export const usual = (digits) => shared(digits, () => {
  const all = Object.keys(HASHES).map((hash) => sized(hash, digits)).filter(Boolean);
  const isUsual = ({ hash, length }) => length === HASHES[hash].digest || digits === FEWEST_DIGITS;
  return digits < FEWEST_DIGITS ? [] : all.filter(isUsual);
});

const ONLY_DIGITS = /^\s*([0-9A-Fa-f]{32,128})\s*$/;
/** The digits of a text that is a digest alone, or nothing. */
export function onlyDigits(bytes) {
  return bytes.length < 1024 ? ONLY_DIGITS.exec(String.fromCharCode(...bytes))?.[1] ?? '' : '';
}

/** What a word stands for, such as SHA-256, b2 or blake2s-256: one of HASHES, or the title of another hash. */
export function hashNamed(word) {
  const [, family, rest] = /^(sha|md|blake|b)-?(.*)$/.exec(word.toLowerCase());
  const own = `${family}${rest.replace(/^2-/, '')}`;
  if (Object.hasOwn(HASHES, own)) return own;
  if (family === 'md') return 'MD5';
  if (family === 'sha') return `SHA${rest.startsWith('3-') ? '' : '-'}${rest}`;
  return { 3: 'blake3', '2s': 'blake2s' }[rest.split('-')[0]] ?? 'blake2b';
}

export const isNotHere = (hash) => `${hash} is not one of the hashes here: ask the maker for SHA-256`;

/** What is said of digests of so many digits if they are those of a hash that is not here, or null. */
export function otherHash(digits) {
  const its = OTHERS[digits];
  return its ? `${digits} digits, as ${its} has them, and ${isNotHere(its)}` : null;
}
