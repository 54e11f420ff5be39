// SPDX-License-Identifier: MIT OR Apache-2.0
// A list of the files that were added, as `sums hash` writes it.
import { keyOf } from './functions.js';
import { RESULT } from './plan.js';

const NAMES =
  { sha256: 'SHA256SUMS', sha512: 'SHA512SUMS', blake2b: 'B2SUMS', blake2s: 'BLAKE2SSUMS', blake3: 'B3SUMS' };

/**
 * The list of all rows, `{ name, text }`, or null if one of them is no digest, or of a file that has another name where
 * it comes from. The names count from the folder that was added, if nothing else was.
 */
export function writtenList({ formatLine }, rows, places) {
  if (!rows.length || rows.some((it) => it.result !== RESULT.digest)) return null;
  const isAlone = places.all.length === 1 && places.all[0].isFolder;
  if (!isAlone && rows.some(({ item }) => item.place.isRenamed)) return null;
  const [{ hash }] = rows[0].of;
  const named = rows.map(({ item, of }) => [isAlone ? item.path : item.name, item.reading.digests.get(keyOf(of[0]))]);
  named.sort(([one], [two]) => (one < two ? -1 : 1));
  return { name: NAMES[hash], text: named.map(([name, digest]) => formatLine(hash, digest, name)).join('') };
}
