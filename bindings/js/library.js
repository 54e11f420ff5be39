// SPDX-License-Identifier: MIT OR Apache-2.0
import { bytesOf, encoderOf, whole, withText } from './bytes.js';
import { checkList } from './checking.js';
import { HASHES, hashName } from './hashes.js';
import { entriesOf, lineOfEntry, lineOfReport } from './lines.js';
import { CHUNK, DIGEST_LENGTH, KEY_LENGTH, Machine, ROOM, within } from './machine.js';
import { beginMessage, LONGEST, optionsOf, outputLengthOf } from './message.js';
import { piecesOf } from './sources.js';

const OF_BYTES = ['key', 'salt', 'personal', 'context'];
const HASH_OPTIONS = ['outputLength', ...OF_BYTES];
// So many pieces at once fill the lanes in which they are hashed.
const LANES = 8;

/** The lengths of digests of a hash. */
function lengthsOf(name) {
  const { digest, least } = HASHES[name];
  if (name === 'blake3') return { byDefault: digest, least: 1, most: LONGEST };
  return { byDefault: digest, least, most: digest };
}

/** What a hash works under, by its options. One that is there is bytes: a key that is undefined is no missing key. */
function parametersOf(name, options) {
  const given = optionsOf(options, HASH_OPTIONS);
  const parameters = { name, length: outputLengthOf(given, lengthsOf(name)) };
  for (const option of OF_BYTES) if (option in given) parameters[option] = bytesOf(given[option], option).slice();
  refuseOthers(HASHES[name], parameters);
  return parameters;
}

/** Refuses options that a hash does not take, and lengths that they do not have. */
function refuseOthers(its, { name, key, salt, personal, context }) {
  const isBlake3 = name === 'blake3';
  if (key && !its.key) throw new TypeError(`${name} takes no key: createHmac does`);
  if ((salt || personal) && !its.salt) throw new TypeError(`${name} takes no salt and no personal: BLAKE2 does`);
  if (context && !isBlake3) throw new TypeError(`${name} takes no context: BLAKE3 does`);
  if (context && key) throw new TypeError('give a key or a context, not both');
  if (key) within(key.length, 'key', { least: isBlake3 ? its.key : 1, most: its.key }, KEY_LENGTH);
  for (const [what, given] of Object.entries({ salt, personal })) {
    if (given) within(given.length, what, { least: its.salt, most: its.salt }, KEY_LENGTH);
  }
}

const NO_BYTES = new Uint8Array(0);

function beginBlake2(machine, { name, length, key = NO_BYTES, salt, personal }) {
  const [its, words] = [HASHES[name], [machine.slot, BigInt(length)]];
  if (!salt && !personal) return machine.call(`${name}_init`, ...words, ...machine.put(key));
  const zeros = new Uint8Array(its.salt);
  const [at, keyLength, saltAt, , personalAt] = machine.put(key, salt ?? zeros, personal ?? zeros);
  return machine.call(`${name}_init_salted`, ...words, at, keyLength, saltAt, personalAt);
}

function beginBlake3(machine, { key, context }) {
  if (key) return machine.call('blake3_init_keyed', machine.slot, machine.put(key)[0]);
  if (context) return machine.call('blake3_init_derive', machine.slot, ...machine.put(context));
  return machine.call('blake3_init', machine.slot);
}

const beginSha2 = (machine, { name }) => machine.call(`${name}_init`, machine.slot);

const BEGIN = { sha256: beginSha2, sha512: beginSha2, blake2b: beginBlake2, blake2s: beginBlake2, blake3: beginBlake3 };

/** The name of a hash that HMAC and HKDF stand on. */
function hmacName(algorithm) {
  const name = hashName(algorithm);
  if (!HASHES[name].hmac) throw new TypeError(`there is no HMAC or HKDF over ${name}: see createHash and deriveKey`);
  return name;
}

/** The functions of the package, over a compiled module. `instance` is one of it that nobody else uses. */
export function bind(module, instance) {
  const machine = new Machine(module, instance);

  function createHash(algorithm, options) {
    const name = hashName(algorithm);
    const parameters = parametersOf(name, options);
    const { length } = parameters;
    // that of BLAKE2 is among what the message begins with, and a copy of it has no other
    const copied = HASHES[name].salt ? { least: length, most: length } : lengthsOf(name);
    const form = { kind: name, lengths: { ...copied, byDefault: length }, size: HASHES[name].state };
    return beginMessage(machine, form, () => BEGIN[name](machine, parameters));
  }

  function createHmac(algorithm, key, options) {
    const name = hmacName(algorithm);
    const { digest, hmac } = HASHES[name];
    const lengths = { byDefault: digest, least: digest / 2, most: digest };
    const byDefault = outputLengthOf(optionsOf(options, ['outputLength']), lengths);
    const form = { kind: `hmac_${name}`, lengths: { ...lengths, byDefault }, size: hmac };
    const secret = bytesOf(key, 'the key');
    return beginMessage(machine, form, () => machine.call(`${form.kind}_init`, machine.slot, ...machine.put(secret)));
  }

  /** A message by the options of `hash` and `hashOf`, a string among them being the encoding, and that encoding. */
  function begun(algorithm, options) {
    const all = typeof options === 'string' ? { outputEncoding: options } : options;
    const { outputEncoding = 'hex', ...rest } = optionsOf(all, [...HASH_OPTIONS, 'outputEncoding']);
    encoderOf(outputEncoding);
    return { message: createHash(algorithm, rest), outputEncoding };
  }

  function hash(algorithm, data, options) {
    const { message, outputEncoding } = begun(algorithm, options);
    return message.update(data).digest(outputEncoding);
  }

  async function hashOf(algorithm, source, options) {
    const { message, outputEncoding } = begun(algorithm, options);
    for await (const piece of piecesOf(source)) message.update(piece);
    return message.digest(outputEncoding);
  }

  function deriveKey(context, material, length = HASHES.blake3.digest) {
    return createHash('blake3', { context, outputLength: length }).update(material).digest();
  }

  function hkdfSync(algorithm, material, salt, info, length) {
    const name = hmacName(algorithm);
    const given = [bytesOf(material, 'the material'), bytesOf(salt, 'the salt'), bytesOf(info, 'the info')];
    within(whole(length, 'length', 0, LONGEST), 'length', { least: 0, most: 255 * HASHES[name].digest }, DIGEST_LENGTH);
    return machine.output(length, given, (...words) => machine.call(`hkdf_${name}`, ...words)).buffer;
  }

  /** The digests of pieces that are in the module's memory together. */
  function digestsAtOnce({ name, length, piece }, data) {
    const lengths = HASHES[name].salt ? [BigInt(length)] : [];
    return machine.output(Math.ceil(data.length / piece) * length, [data], (at, size, ...input) =>
      machine.call(`${name}_pieces`, at, size, ...lengths, ...input, BigInt(piece)));
  }

  function hashPieces(algorithm, data, pieceLength, options) {
    const name = hashName(algorithm);
    const { digest, least } = HASHES[name];
    const length = outputLengthOf(optionsOf(options, ['outputLength']), { byDefault: digest, least, most: digest });
    const piece = whole(pieceLength, 'pieceLength', 1, Number.MAX_SAFE_INTEGER);
    const all = bytesOf(data);
    const result = withText(new Uint8Array(Math.ceil(all.length / piece) * length));
    const count = Math.max(LANES, Math.floor(CHUNK / Math.max(piece, length)));
    // pieces that are too long to be there together are messages
    const isShort = count * piece <= ROOM / 2;
    const atOnce = (part) => digestsAtOnce({ name, length, piece }, part);
    const alone = (part) => hash(name, part, { outputLength: length, outputEncoding: 'buffer' });
    const digests = isShort ? atOnce : alone;
    const step = isShort ? count : 1;
    for (let first = 0; first * piece < all.length; first += step) {
      result.set(digests(all.subarray(first * piece, (first + step) * piece)), first * length);
    }
    return result;
  }

  const readList = (list, algorithm, options) => entriesOf(machine, list, algorithm, options);
  const check = (list, find, options) => checkList(machine, hashOf, list, find, options);
  const formatLine = (algorithm, digest, name, options) => lineOfEntry(machine, algorithm, digest, name, options);
  const formatReport = (row) => lineOfReport(machine, row);

  return {
    createHash, createHmac, hash, hashOf, hashPieces, hkdfSync, deriveKey, readList, check, formatLine, formatReport,
  };
}
