// SPDX-License-Identifier: MIT OR Apache-2.0
// Prints the root of a file's Merkle tree as BitTorrent v2 has it (BEP 52, "pieces root"). The leaves are the SHA-256
// digests of blocks of 16 KiB, and each node above is that of its two: node examples/merkle.mjs FILE
import { readFileSync } from 'node:fs';
import { hashPieces, toHex } from 'sums-hash';

const BLOCK = 16384;
const DIGEST = 32;

function merkleRoot(data) {
  const leaves = hashPieces('sha256', data, BLOCK);
  // leaves of zeros fill the layer up to a power of two
  const width = 2 ** Math.ceil(Math.log2(leaves.length / DIGEST));
  let layer = new Uint8Array(width * DIGEST);
  layer.set(leaves);
  while (layer.length > DIGEST) layer = hashPieces('sha256', layer, 2 * DIGEST);
  return layer;
}

const data = readFileSync(process.argv[2]);
if (data.length === 0) throw new Error('a file without a byte has no root');
console.log(toHex(merkleRoot(data)));
