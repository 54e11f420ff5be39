// SPDX-License-Identifier: MIT OR Apache-2.0
// Times hashes of a message in pieces, ours and the others' in turn.

import { toHex } from './bytes.js';

const LENGTH = 2 ** 18;
const PIECE = 65536;
const NAMES = ['sha256', 'blake2b', 'blake3'];

const data = Uint8Array.from({ length: LENGTH }, (_, at) => (at * 7) & 255);

function inPieces(message) {
  for (let at = 0; at < LENGTH; at += PIECE) message.update(data.subarray(at, at + PIECE));
  return message.digest('hex');
}

/** The ways to hash by an algorithm: ours, `others`, and that of crypto.subtle, which takes a whole message. */
function waysOf(name, createHash, others) {
  const ways = { ours: () => inPieces(createHash(name)) };
  if (others[name]) ways.other = () => inPieces(others[name]());
  if (name === 'sha256') ways.subtle = async () => toHex(new Uint8Array(await crypto.subtle.digest('SHA-256', data)));
  return ways;
}

/** MB/s by algorithm and way, each the best of so many rounds. */
export async function measure(createHash, others, rounds) {
  const rows = {};
  for (const name of NAMES) {
    const ways = waysOf(name, createHash, others);
    const best = {};
    const digests = new Set();
    for (let round = 0; round < rounds; round++) {
      for (const [way, run] of Object.entries(ways)) {
        const begun = performance.now();
        digests.add(await run());
        best[way] = Math.max(best[way] ?? 0, LENGTH / 1e3 / (performance.now() - begun));
      }
    }
    if (digests.size !== 1) throw new Error(`${name}: the digests differ`);
    rows[name] = best;
  }
  return rows;
}
