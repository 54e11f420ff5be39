// SPDX-License-Identifier: MIT OR Apache-2.0
// For browsers, and whatever else fetches: the module stands beside this file.
import { bind } from './library.js';

const response = await fetch(new URL('./sums_hash.wasm', import.meta.url));
if (!response.ok) throw new Error(`${response.url}: ${response.status}`);
const { module, instance } = await WebAssembly.instantiate(await response.arrayBuffer());

export const {
  createHash, createHmac, hash, hashOf, hashPieces, hkdfSync, deriveKey, readList, check, formatLine, formatReport,
} = bind(module, instance);
export { toHex } from './bytes.js';
export { getHashes } from './hashes.js';
export { MalformedLine } from './lines.js';
export { Refused } from './machine.js';
