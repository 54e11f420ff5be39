// SPDX-License-Identifier: MIT OR Apache-2.0
// For require() in Node, and for what takes CommonJS alone. The module stands beside this file, as do the modules of
// the package as one script of CommonJS, which tools/commonjs.py writes.
'use strict';
const { readFileSync } = require('node:fs');
const { join } = require('node:path');
const { bind, getHashes, MalformedLine, Refused, toHex } = require('./modules.cjs');

const compiled = new WebAssembly.Module(readFileSync(join(__dirname, 'sums_hash.wasm')));
const {
  createHash, createHmac, hash, hashOf, hashPieces, hkdfSync, deriveKey, readList, check, formatLine, formatReport,
} = bind(compiled);

module.exports = {
  createHash, createHmac, hash, hashOf, hashPieces, hkdfSync, deriveKey, readList, check, formatLine, formatReport,
  toHex, getHashes, MalformedLine, Refused,
};
