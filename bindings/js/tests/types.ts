// SPDX-License-Identifier: MIT OR Apache-2.0
// What a user in TypeScript writes, in a file of modules or of CommonJS; tsc refuses what the types do not say.
import {
  check, createHash, createHmac, formatLine, formatReport, hash, hashOf, hashPieces, hkdfSync, MalformedLine, readList,
} from 'sums-hash';
import type { AnyOptions, Digest, Encoding, HashName, HashSpelling, HmacSpelling } from 'sums-hash';
import type { BadLine, Checked, CheckedRow, FileSource, ListEntry, ListHash, Verdict } from 'sums-hash';
import { bind, type Library, type Message } from 'sums-hash/library';

const chosen = (['hex', 'buffer'] as Encoding[])[0];
const any: string | Uint8Array = createHash('sha256').digest(chosen);
const both: string | Uint8Array = hash('sha256', 'abc', chosen);
const options: AnyOptions = { outputEncoding: chosen, outputLength: 32 };
const later: Promise<string | Uint8Array> = hashOf('sha256', 'abc', options);
const bytes: Uint8Array = createHash('sha256').digest();
const digest: Digest = createHash('sha256').digest('buffer');
const texts: string[] = [digest.toString(), digest.toString('hex'), createHash('blake3').output(9).toString('base64')];
const hex: string = createHash('sha256').digest('hex');

const copy: Message = createHash('blake3').copy({ outputLength: 64 }).copy();
const spellings: HashSpelling[] = ['SHA256', 'SHA-256', 'sha-256', 'BLAKE2b512', 'BLAKE2B-512', 'BLAKE3', 'sha256'];
const tags: HmacSpelling[] = ['SHA-512', 'SHA2-512', 'BLAKE2s', 'blake2s-256'];
for (const name of spellings) hash(name, 'abc');
for (const name of tags) hkdfSync(name, createHmac(name, 'k').digest(), '', '', 3);
const pieces: string = hashPieces('SHA-256', bytes, 1024).toString('hex');

// a name of HashName stays one of these, so that a table of them is whole
const sizes: Record<HashName, number> = {
  sha256: 32, sha512: 64, blake2b: 64, blake2s: 32, blake3: 32, blake2b512: 64, blake2s256: 32,
};
// what gives plain bytes, as a stand-in in a test, is still a message
const plain = (one: Message): Message => Object.assign(one, { output: () => new Uint8Array(3) });
const library = (): Library => bind({});

const list = formatLine('sha256', hash('sha256', 'abc'), 'a') + formatLine('BLAKE3', bytes, 'b', { tagged: true });
const lenient: (ListEntry | BadLine)[] = [...readList(list, undefined, { malformed: 'yield' })];
for (const it of lenient) if (it.name === null) [it.untagged, it.line]; else [it.name.length, it.digest, it.hash];
function kinds(): ListHash[] {
  const entries: ListEntry[] = [...readList(list, 'SHA-256'), ...readList([list, bytes], null), ...readList(bytes)];
  return entries.map((it) => it.hash);
}
async function listed(stream: ReadableStream<Uint8Array>, blob: Blob, files: Map<string, Blob>) {
  for await (const { name } of readList(stream, 'sha256')) name.trim();
  for await (const it of readList(blob, null, { malformed: 'yield' })) it.name?.trim();
  const found: Checked = await check(stream, (name) => files.get(name), { hash: 'sha256', inside: true });
  await check(list, async (name): Promise<FileSource | null> => (name ? [bytes] : null));
  const row: CheckedRow = found.rows[0];
  const verdict: Verdict | 'MALFORMED' = row.verdict;
  const name: string | undefined = row.verdict === 'MALFORMED' ? undefined : row.name;
  return [found.ok, found.summary[verdict], found.summary.skipped, name, row.actual, found.rows.map(formatReport)];
}
const lineOf = (error: unknown): number => (error instanceof MalformedLine && error.untagged ? error.line : 0);

function refused() {
  // @ts-expect-error there is no such hash
  hash('SHA-1', 'abc');
  // @ts-expect-error there is no HMAC over BLAKE3
  createHmac('BLAKE3', 'k');
  // @ts-expect-error a copy has no key
  copy.copy({ key: 'k' });
  // @ts-expect-error there is no such encoding
  digest.toString('latin1');
  // @ts-expect-error a line that may be malformed has no name
  for (const it of readList(list, 'sha256', { malformed: 'yield' })) it.name.length;
  // @ts-expect-error what has to be waited for is for `for await`
  for (const it of readList(new Blob(), 'sha256')) it.name;
  // @ts-expect-error there is no such verdict
  formatReport({ name: 'a', verdict: 'ok' });
  // @ts-expect-error a path is no file
  check(list, (name) => name);
}

void [any, both, later, texts, sizes, plain, library, refused, kinds, listed, lineOf];
console.log(hex.length, pieces.length);
