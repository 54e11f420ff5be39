// SPDX-License-Identifier: MIT OR Apache-2.0
// The vectors of the repository, which are those of the standards.
import assert from 'node:assert/strict';
import test from 'node:test';
import { createHash, createHmac, deriveKey, getHashes, hash, hkdfSync, toHex } from '../node.js';
import { optionsOf, spelled, table } from './tables.mjs';

const fresh = (data) => toHex(new Uint8Array(data));

test('each hash of "abc"', () => {
  const rows = table('hashes');
  assert.deepEqual(rows.map((it) => it.name), getHashes());
  for (const { name, abc } of rows) assert.equal(hash(name, 'abc'), abc);
});

test('SHA-2', () => {
  for (const row of table('vectors/sha2')) assert.equal(hash(row.hash, spelled(row.message)), row.digest);
});

test('BLAKE2, with keys, salts and personalizations', () => {
  for (const row of table('vectors/blake2')) {
    const options = { outputLength: row.digest.length / 2, ...optionsOf(row, ['key', 'salt', 'personal']) };
    assert.equal(hash(row.hash, spelled(row.message), options), row.digest, JSON.stringify(row));
  }
});

test('BLAKE3 from a position on, with keys and contexts', () => {
  for (const row of table('vectors/blake3')) {
    const message = createHash('blake3', optionsOf(row, ['key', 'context'])).update(spelled(row.message));
    assert.equal(toHex(message.output(row.output.length / 2, BigInt(row.position))), row.output, JSON.stringify(row));
    if (row.context === '-' || row.position !== '0') continue;
    assert.equal(toHex(deriveKey(spelled(row.context), spelled(row.message), row.output.length / 2)), row.output);
  }
});

test('HMAC', () => {
  for (const { hash: name, key, text, tag } of table('vectors/hmac')) {
    const message = createHmac(name, spelled(key), { outputLength: tag.length / 2 }).update(spelled(text));
    assert.equal(message.digest('hex'), tag);
  }
});

test('HKDF', () => {
  for (const { hash: name, salt, material, info, okm } of table('vectors/hkdf')) {
    assert.equal(fresh(hkdfSync(name, spelled(material), spelled(salt), spelled(info), okm.length / 2)), okm);
  }
});
