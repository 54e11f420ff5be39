// SPDX-License-Identifier: MIT OR Apache-2.0
// Prints digests of "abc" and a tag: node examples/digests.mjs
import { createHash, createHmac, hash, Refused } from 'sums-hash';

console.log('blake2s', hash('blake2s', 'abc'));

const message = createHash('blake3');
for (const piece of ['a', 'b', 'c']) message.update(piece);
console.log('blake3 ', message.digest('hex'));

console.log('tag    ', createHmac('sha256', 'key').update('abc').digest('hex'));

try {
  hash('blake2b', 'abc', { outputLength: 65 });
} catch (error) {
  if (error instanceof Refused) console.log('refused:', error.message);
}
