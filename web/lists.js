// SPDX-License-Identifier: MIT OR Apache-2.0
// Lists of digests: what counts as one, what its lines say, as the library reads them, and what is to be said of it.
import { onlyDigits, onlyOf, otherHash, sized, TITLES, usual } from './functions.js';
import { hashOfList, isListName } from './listnames.js';
import { armourOf, hasMark, isSigned, isUtf16, asUtf8 } from './texts.js';

const MOST_LINES = 500000; // `sums check` has no bound, and keeps one line at a time
const TOO_MANY_LINES = `it has more than ${MOST_LINES} lines: use sums check`;
export const SNIFFED = 65536; // bytes from which a file is taken for a list
const LF = 10;
const ANY = 'blake2b'; // has digests of every length that another hash has
const NO_LINES = { lines: [], notes: [], fault: '', digest: '', isPartlySigned: false };

/** Whether a text has more than so many lines, skipped ones too. */
function hasMoreLines(bytes, most) {
  let count = 0;
  for (let at = 0; at < bytes.length && count <= most; count++) {
    const end = bytes.indexOf(LF, at);
    at = end < 0 ? bytes.length : end + 1;
  }
  return count > most;
}

/**
 * The lines of a list that are not skipped, `{ line, name, digest, of }` each: its number, and the functions that the
 * digest may be of. The name of a malformed one is null, and `isUntagged` says that it would be an entry if some hash
 * were named.
 */
function linesOf({ readList }, bytes, hash) {
  return Array.from(readList(bytes, hash, { malformed: 'yield' }), (it) => it.name === null
    ? { line: it.line, name: null, isUntagged: it.untagged }
    : { line: it.line, name: it.name, digest: it.digest, of: onlyOf(it.hash, it.digest.length) });
}

/** The lines of a list of which an untagged one may be of each hash whose usual digests are as long. */
function open(library, lines, bytes) {
  const all = linesOf(library, bytes, ANY);
  return lines.map((line, at) => {
    const of = line.isUntagged ? usual(all[at].digest.length) : [];
    return of.length ? { ...all[at], of } : line;
  });
}

/** Why lines are malformed that would be entries of another hash. */
function notOfHash(library, lines, { bytes, hash }) {
  const all = linesOf(library, bytes, ANY);
  const others = all.filter(({ name }, at) => name !== null && lines[at].name === null);
  const lengths = [...new Set(others.map(({ digest }) => digest.length))];
  if (!lengths.length) return [];
  const other = lengths.map(otherHash).find(Boolean);
  if (other) return [`its digests have ${other}.`];
  if (hash) return [`it has digests of ${lengths[0]} digits, and ${TITLES[hash]} has others. Choose its hash above.`];
  return ['its lines do not say which hash they are of. Choose it above.'];
}

/** What a text is like around its lines. */
function notesOnText(bytes, lines, { armour, isPartlySigned }) {
  const notes = [];
  if (isUtf16(bytes)) notes.push('it is a text of UTF-16, as PowerShell writes it: save it as UTF-8.');
  if (hasMark(bytes)) notes.push('a byte order mark makes its first line MALFORMED: save it without one.');
  if (armour) notes.push('it is signed. No signature is checked here.');
  if (isPartlySigned) notes.push('it has lines outside of the signed text.');
  if (!lines.length) notes.push('no entries.');
  return notes;
}

/** The lines of a signed list without its armour. Whatever is an entry stays, and is said to be unsigned outside. */
function withoutArmour(lines, armour) {
  if (!armour) return lines;
  const isInside = ({ line }) => line >= armour.first && line <= armour.last;
  const isArmour = (it) => it.name === null && !isInside(it) && it.line <= armour.end;
  return lines.filter((it) => !isArmour(it)).map((it) => (isInside(it) ? it : { ...it, isUnsigned: true }));
}

/**
 * What a list says, as the library reads it: its `lines` as linesOf has them, and notes on it; or the fault of one that
 * is too long; or the digits of one that is a `digest` alone. Its hash is the one that was chosen, or that its name
 * says, or else each that has digests as long as those of its lines.
 */
export function readList(library, name, bytes, chosen) {
  const digest = onlyDigits(bytes);
  if (digest) return { ...NO_LINES, digest };
  if (hasMoreLines(bytes, MOST_LINES)) return { ...NO_LINES, fault: TOO_MANY_LINES };
  const named = hashOfList(name);
  const hash = chosen ?? named;
  const tagged = linesOf(library, bytes, hash);
  const all = !hash && tagged.some((it) => it.isUntagged) ? open(library, tagged, bytes) : tagged;
  const armour = armourOf(bytes);
  const lines = withoutArmour(all, armour);
  const isPartlySigned = lines.some((it) => it.isUnsigned);
  const notes = notesOnText(bytes, lines, { armour, isPartlySigned });
  if (lines.some((it) => it.name === null)) notes.push(...notOfHash(library, all, { bytes, hash }));
  if (chosen && named && chosen !== named) {
    notes.push(`its name says ${TITLES[named]}, and ${TITLES[chosen]} was chosen.`);
  }
  return { ...NO_LINES, lines, notes, isPartlySigned };
}

/** How many entries a text has, whose digests are of usual lengths or of this hash, and how many other lines. */
function entriesIn(library, bytes, hash) {
  const lines = linesOf(library, bytes, ANY);
  const tagged = linesOf(library, bytes, null);
  const isUsual = (digits) => usual(digits).length > 0 || (hash !== null && sized(hash, digits) !== null);
  const isEntry = ({ name, digest }, at) => name !== null && (tagged[at].name !== null || isUsual(digest.length));
  const entries = lines.filter(isEntry).length;
  return { entries, others: lines.length - entries };
}

/**
 * Whether a file is a list by its content: at least half of its first lines are entries, or one in a signed text, or in
 * a file whose name says the hash. So is a digest alone in a file that is called as a list is.
 */
export function looksLikeList(library, bytes, name) {
  if (onlyDigits(bytes)) return isListName(name);
  const text = asUtf8(bytes.subarray(0, SNIFFED));
  const lineEnd = bytes.length <= SNIFFED ? text.length : text.lastIndexOf(LF) + 1;
  const hash = hashOfList(name);
  const { entries, others } = entriesIn(library, text.subarray(0, lineEnd), hash);
  return entries > 0 && (hash !== null || isSigned(bytes) || entries >= others);
}
