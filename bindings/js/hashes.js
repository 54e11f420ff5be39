// SPDX-License-Identifier: MIT OR Apache-2.0

/**
 * Of each hash, in bytes: its longest digest, and the shortest that it has; its longest key, its salt, its state, and
 * the state of HMAC over it, as `sums_hash.h` has them. 0 says that it takes none, or has none.
 */
export const HASHES = {
  sha256: { digest: 32, least: 32, key: 0, salt: 0, state: 112, hmac: 224 },
  sha512: { digest: 64, least: 64, key: 0, salt: 0, state: 216, hmac: 432 },
  blake2b: { digest: 64, least: 1, key: 64, salt: 16, state: 224, hmac: 448 },
  blake2s: { digest: 32, least: 1, key: 32, salt: 8, state: 120, hmac: 240 },
  blake3: { digest: 32, least: 32, key: 32, salt: 0, state: 1880, hmac: 0 },
};

/** What `node:crypto` and the web call them, if that is another name. */
const ALIASES = {
  'sha-256': 'sha256', 'sha2-256': 'sha256', 'sha-512': 'sha512', 'sha2-512': 'sha512',
  blake2b512: 'blake2b', 'blake2b-512': 'blake2b', blake2s256: 'blake2s', 'blake2s-256': 'blake2s',
};

export const getHashes = () => Object.keys(HASHES);

/** The name in `HASHES` of a hash that a caller names, in small letters or in large ones. */
export function hashName(name) {
  if (typeof name === 'string') {
    // a letter outside ASCII stands for none within it, as the sign of kelvin would for k
    const small = name.replace(/[A-Z]/g, (letter) => letter.toLowerCase());
    if (Object.hasOwn(HASHES, small)) return small;
    if (Object.hasOwn(ALIASES, small)) return ALIASES[small];
  }
  throw new TypeError(`there is no hash ${String(name)}: the hashes are ${getHashes().join(', ')}`);
}
