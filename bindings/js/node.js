// SPDX-License-Identifier: MIT OR Apache-2.0
// For Node: the module stands beside this file, and is compiled before the first call.
import { readFileSync } from 'node:fs';
import { bind } from './library.js';

const module = new WebAssembly.Module(readFileSync(new URL('./sums_hash.wasm', import.meta.url)));

export const {
  createHash, createHmac, hash, hashOf, hashPieces, hkdfSync, deriveKey, readList, check, formatLine, formatReport,
} = bind(module);
export { toHex } from './bytes.js';
export { getHashes } from './hashes.js';
export { MalformedLine } from './lines.js';
export { Refused } from './machine.js';
