// SPDX-License-Identifier: MIT OR Apache-2.0
// Random messages beside node:crypto, and each call beside another that has to give the same.
import assert from 'node:assert/strict';
import crypto from 'node:crypto';
import { Readable } from 'node:stream';
import test from 'node:test';
import { createHash, createHmac, deriveKey, getHashes, hash, hashOf, hashPieces, hkdfSync, toHex } from '../node.js';

const THEIRS = { sha256: 'sha256', sha512: 'sha512', blake2b: 'blake2b512', blake2s: 'blake2s256' };
const theirs = (name, data) => crypto.createHash(THEIRS[name]).update(data).digest('hex');
const random = (length) => crypto.randomBytes(length);
const below = (bound) => crypto.randomInt(bound);
const oneOf = (all) => all[below(all.length)];
const times = (count, call) => Array.from({ length: count }, (_, at) => call(at));

/** A hash or an HMAC, as ours and as theirs. */
function pair() {
  const name = oneOf(Object.keys(THEIRS));
  if (below(2)) return [createHash(name), crypto.createHash(THEIRS[name])];
  const key = random(below(300));
  return [createHmac(name, key), crypto.createHmac(THEIRS[name], key)];
}

test('several random messages at once, in random pieces', () => {
  for (let round = 0; round < 200; round++) {
    const pairs = times(4, pair);
    for (let piece = 0; piece < 12; piece++) {
      const data = random(below(round % 3 ? 400 : 9000));
      for (const it of oneOf(pairs)) it.update(data);
    }
    for (const [ours, other] of pairs) {
      const copy = ours.copy();
      const digest = other.digest('hex');
      assert.equal(ours.digest('hex'), digest);
      assert.equal(copy.digest('hex'), digest);
    }
  }
});

test('each length about blocks and chunks, in one piece and in two', () => {
  const data = random(2200);
  for (let length = 0; length <= data.length; length += length < 300 ? 1 : 97) {
    for (const name of getHashes()) {
      const digest = hash(name, data.subarray(0, length));
      const cut = below(length + 1);
      const message = createHash(name).update(data.subarray(0, cut)).update(data.subarray(cut, length));
      assert.equal(message.digest('hex'), digest);
      if (THEIRS[name]) assert.equal(theirs(name, data.subarray(0, length)), digest);
    }
  }
});

test('HKDF', () => {
  for (let round = 0; round < 100; round++) {
    const name = oneOf(Object.keys(THEIRS));
    const words = [random(below(200)), random(below(200)), random(below(200)), below(1000) + 1];
    const ours = hkdfSync(name, ...words);
    assert.ok(ours instanceof ArrayBuffer);
    assert.deepEqual(Buffer.from(ours), Buffer.from(crypto.hkdfSync(THEIRS[name], ...words)));
  }
});

/** Names that node:crypto takes, beside those of getHashes. */
const SPELLINGS = [
  'SHA256', 'Sha256', 'SHA-256', 'sha-256', 'SHA2-256', 'sha2-256', 'SHA512', 'SHA-512', 'sha2-512',
  'BLAKE2b512', 'BLAKE2B-512', 'blake2b-512', 'BLAKE2s256', 'BLAKE2S-256', 'blake2s-256',
];

test('names in the spellings that node:crypto takes', () => {
  for (const name of SPELLINGS) {
    assert.equal(hash(name, 'abc'), crypto.createHash(name).update('abc').digest('hex'));
    assert.equal(createHmac(name, 'k').digest('hex'), crypto.createHmac(name, 'k').digest('hex'));
    assert.deepEqual(hkdfSync(name, 'm', 's', 'i', 40), crypto.hkdfSync(name, 'm', 's', 'i', 40));
  }
  for (const name of ['BLAKE2b', 'BLAKE2s', 'BLAKE3']) assert.equal(hash(name, 'x'), hash(name.toLowerCase(), 'x'));
  assert.equal(toHex(hashPieces('SHA-256', 'abc', 2)), toHex(hashPieces('sha256', 'abc', 2)));
  assert.deepEqual(getHashes(), ['sha256', 'sha512', 'blake2b', 'blake2s', 'blake3']);
});

test('copies, with the length of a digest', () => {
  const message = createHash('blake3').update('abc');
  const long = message.copy({ outputLength: 64 });
  assert.equal(long.digest('hex'), hash('blake3', 'abc', { outputLength: 64 }));
  const short = message.copy({ outputLength: 5 });
  for (const options of [undefined, null, {}, { outputLength: undefined }]) {
    assert.equal(short.copy(options).digest('hex'), hash('blake3', 'abc', { outputLength: 5 }));
  }
  assert.equal(message.digest('hex'), hash('blake3', 'abc'));
  for (const [name, length] of [['sha256', 32], ['sha512', 64], ['blake2b512', 64], ['blake2s256', 32]]) {
    for (const outputLength of [length, length - 1, length + 1, 0]) {
      const [ours, other] = [createHash(name), crypto.createHash(name)].map((it) => it.update('abc'));
      if (outputLength === length) {
        assert.equal(ours.copy({ outputLength }).digest('hex'), other.copy({ outputLength }).digest('hex'));
      } else {
        assert.throws(() => other.copy({ outputLength }));
        assert.throws(() => ours.copy({ outputLength }), RangeError);
      }
    }
  }
  const shorter = createHash('blake2b', { outputLength: 20 }).update('a');
  assert.equal(shorter.copy({ outputLength: 20 }).digest('hex'), shorter.digest('hex'));
  const tag = createHmac('sha256', 'k', { outputLength: 16 }).update('abc');
  const whole = crypto.createHmac('sha256', 'k').update('abc').digest('hex');
  assert.equal(tag.copy({ outputLength: 32 }).digest('hex'), whole);
  assert.equal(tag.copy().digest('hex'), whole.slice(0, 32));
});

test('bytes that print as text, as a Buffer does', () => {
  const all = [
    createHash('sha256').digest(), createHmac('sha512', 'k').digest('buffer'), hash('blake2b', 'x', 'buffer'),
    createHash('blake3').output(100, 7), deriveKey('c', 'm'), hashPieces('sha256', 'abc', 2),
  ];
  for (const bytes of all) {
    const buffer = Buffer.from(bytes);
    for (const encoding of ['hex', 'base64', 'base64url']) {
      assert.equal(bytes.toString(encoding), buffer.toString(encoding));
    }
    assert.equal(Object.getPrototypeOf(bytes), Uint8Array.prototype);
    assert.deepEqual(Object.keys(bytes), Object.keys(Uint8Array.from(bytes)));
    assert.deepStrictEqual(bytes, Uint8Array.from(bytes));
    assert.equal(`${bytes}`, [...bytes].join(','));
    for (const encoding of ['buffer', 'latin1', null, 3]) assert.throws(() => bytes.toString(encoding), TypeError);
  }
});

test('the names and the encodings of node:crypto', () => {
  for (const name of Object.values(THEIRS)) {
    for (const encoding of ['hex', 'base64', 'base64url']) {
      assert.equal(hash(name, 'ä', encoding), crypto.createHash(name).update('ä').digest(encoding));
    }
    assert.deepEqual(Buffer.from(createHash(name).digest()), crypto.createHash(name).digest());
    assert.deepEqual(Buffer.from(hash(name, 'x', 'buffer')), crypto.createHash(name).update('x').digest());
  }
  assert.equal(hash('sha256', '\ud800'), crypto.createHash('sha256').update('\ud800').digest('hex'));
  const named = createHash('sha256').update('abc', 'utf8').update(Buffer.from('d'), 'hex');
  assert.equal(named.digest('hex'), hash('sha256', 'abcd'));
});

/** Lengths of pieces, each with the most bytes of a message. */
const SIZES = [
  [1, 5000], [64, 40000], [1000, 40000], [1024, 40000], [5000, 600000], [300000, 3000000], [2 ** 21, 2 ** 22 + 5],
];

test('pieces are the digests of the pieces', () => {
  for (const name of ['sha256', 'sha512', 'blake2b', 'blake2s', 'blake3']) {
    for (const [size, most] of SIZES) {
      const data = random(below(most) + 1);
      const pieces = times(Math.ceil(data.length / size), (at) => data.subarray(at * size, (at + 1) * size));
      const digests = pieces.map((it) => hash(name, it));
      assert.equal(toHex(hashPieces(name, data, size)), digests.join(''));
    }
    assert.equal(hashPieces(name, '', 7).length, 0);
    assert.equal(toHex(hashPieces(name, 'abc', Number.MAX_SAFE_INTEGER)), hash(name, 'abc'));
  }
  const short = { outputLength: 20 };
  const both = hash('blake2b', 'abc', short) + hash('blake2b', 'd', short);
  assert.equal(toHex(hashPieces('blake2b', 'abcd', 3, short)), both);
});

test('a long output in one call is that of many short ones', () => {
  const message = createHash('blake3').update('abc');
  const all = message.output(700000, 5);
  for (const at of [0, 1, 63, 262143, 262144, 699999]) assert.equal(message.output(1, at + 5)[0], all[at]);
  assert.equal(hash('blake3', 'abc', { outputLength: 700005 }).slice(10), toHex(all));
});

test('streams of the web and of Node, Blobs, and what gives pieces', async () => {
  const data = random(9 << 20);
  const digest = hash('blake3', data);
  const parts = [data.subarray(0, 5), data.subarray(5)];
  const buffer = data.buffer.slice(data.byteOffset, data.byteOffset + data.length);
  const sources = [data, buffer, new Blob([data]), new Blob([data]).stream(), Readable.from(parts), parts];
  for (const source of sources) assert.equal(await hashOf('blake3', source), digest);
  assert.equal(await hashOf('sha256', new Blob([]), 'base64'), hash('sha256', '', 'base64'));
  const keyed = await hashOf('blake2b', new Blob(['abc']), { key: 'k', outputEncoding: 'buffer' });
  assert.equal(toHex(keyed), hash('blake2b', 'abc', { key: 'k' }));
});
