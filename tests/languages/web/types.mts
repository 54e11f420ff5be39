// What a user in TypeScript writes; tsc refuses what the types do not say.
import { createHash, createHmac, deriveKey, hash, hashOf, hashPieces, hkdfSync } from 'sums-hash';
import { getHashes, Refused, toHex } from 'sums-hash';
import { bind, type Library, type Message } from 'sums-hash/library';

const digits: string = hash('sha256', 'abc');
const bytes: Uint8Array = hash('blake2b', new Uint8Array(3), { key: 'k', outputLength: 20, outputEncoding: 'buffer' });
const derived: Message = createHash('blake3', { context: 'c' }).update('a').update(new DataView(new ArrayBuffer(1)));
const base64: string = derived.digest('base64');
const raw: Uint8Array = createHmac('sha512', bytes, { outputLength: 32 }).copy().digest();
const output: Uint8Array = createHash('blake3').output(1000, 2n ** 63n);
const key: ArrayBuffer = hkdfSync('blake2s', 'm', 's', 'i', 42);
const pieces: Uint8Array = hashPieces('blake3', raw, 1024);
const names: string[] = getHashes();
const message: Message = createHash('blake2b512');
const library: Library = bind({});
const later: Promise<string> = hashOf('blake3', new Blob([]));
const sources: Promise<Uint8Array> = hashOf('sha256', [bytes, 'x'], 'buffer');

// @ts-expect-error there is no such hash
createHash('md5');
// @ts-expect-error there is no HMAC over BLAKE3
createHmac('blake3', 'k');
// @ts-expect-error there is no such option
createHash('blake2b', { Key: 'k' });
// @ts-expect-error a number is no data
message.update(3);
// @ts-expect-error there is no such encoding
message.digest('latin1');

try {
  library.deriveKey('context', key, 64);
} catch (error) {
  if (error instanceof Refused) names.push(`${error.status}`, digits, base64, toHex(output), toHex(pieces.buffer));
}
void [later, sources, deriveKey];
