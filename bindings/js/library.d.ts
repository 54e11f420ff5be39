// SPDX-License-Identifier: MIT OR Apache-2.0

/** What is hashed: a string as UTF-8, a buffer, or a view of one. */
export type Bytes = string | ArrayBufferLike | ArrayBufferView;
export type TextEncoding = 'hex' | 'base64' | 'base64url';
export type Encoding = TextEncoding | 'buffer';
export type HashName = 'sha256' | 'sha512' | 'blake2b' | 'blake2s' | 'blake3' | 'blake2b512' | 'blake2s256';
export type HmacName = Exclude<HashName, 'blake3'>;
type Hyphenated = 'sha-256' | 'sha2-256' | 'sha-512' | 'sha2-512' | 'blake2b-512' | 'blake2s-256';
type Mixed = 'BLAKE2b' | 'BLAKE2s' | 'BLAKE2b512' | 'BLAKE2s256' | 'BLAKE2b-512' | 'BLAKE2s-256';
/** The names in other spellings, which each call takes: `SHA256`, `SHA-256`, `BLAKE2b512`. */
export type HmacSpelling = HmacName | Uppercase<HmacName> | Hyphenated | Uppercase<Hyphenated> | Mixed;
export type HashSpelling = HmacSpelling | 'blake3' | 'BLAKE3';

export interface HashOptions {
  /** The bytes of the digest: 1 to 64 of BLAKE2b, 1 to 32 of BLAKE2s, any number of BLAKE3. */
  outputLength?: number;
  /** 1 to 64 bytes for BLAKE2b, 1 to 32 for BLAKE2s, 32 for BLAKE3. */
  key?: Bytes;
  /** 16 bytes for BLAKE2b, 8 for BLAKE2s. */
  salt?: Bytes;
  /** The personalization: 16 bytes for BLAKE2b, 8 for BLAKE2s. */
  personal?: Bytes;
  /** BLAKE3: the digest is a key that is derived for this context. */
  context?: Bytes;
}

/** Options of a digest that is a text, in hexadecimal digits where no encoding is named, or bytes. */
export type TextOptions = TextEncoding | (HashOptions & { outputEncoding?: TextEncoding });
export type BufferOptions = 'buffer' | (HashOptions & { outputEncoding: 'buffer' });
/** Options whose encoding is known when the program runs. */
export type AnyOptions = Encoding | (HashOptions & { outputEncoding?: Encoding });

/** Bytes that are given back. Their `toString` takes an encoding, as that of a Buffer does. */
export interface Digest extends Uint8Array {
  toString(encoding?: TextEncoding): string;
}

/** What a Blob or a File is. */
interface BlobLike {
  readonly size: number;
  slice(begin?: number, end?: number): unknown;
  arrayBuffer(): Promise<ArrayBuffer>;
}
export type Source = Bytes | BlobLike | { getReader(): unknown } | AsyncIterable<Bytes> | Iterable<Bytes>;

/** A message in pieces. It may be dropped at any time. */
export interface Message {
  /** Adds a piece. */
  update(data: Bytes, encoding?: 'utf8' | 'utf-8'): this;
  /** The digest, with which the message ends. */
  digest(encoding?: 'buffer'): Digest;
  digest(encoding: TextEncoding): string;
  digest(encoding?: Encoding): string | Digest;
  /** BLAKE3: so many bytes of the output, from a position on. The message can go on. */
  output(length: number, seek?: number | bigint): Digest;
  /**
   * Another message that goes on from here. The digest of a copy may have another length: any number of bytes of
   * BLAKE3, and from half to the whole of a tag.
   */
  copy(options?: { outputLength?: number }): Message;
}

/** The hash of an entry, by its own name. */
export type ListHash = 'sha256' | 'sha512' | 'blake2b' | 'blake2s' | 'blake3';

/** An entry of a list: the file of this name has this digest. */
export interface ListEntry {
  name: string;
  /** Hexadecimal digits in lower case. */
  digest: string;
  hash: ListHash;
  /** The number of the line, from 1. */
  line: number;
}

/** A line that is neither skipped nor an entry. `untagged`: it would be an entry if another hash were named. */
export interface BadLine {
  name: null;
  digest: null;
  hash: null;
  line: number;
  untagged: boolean;
}

export interface StrictOptions {
  /** `throw`: the iterator throws a `MalformedLine`, and ends. `yield`: it goes on, and gives a `BadLine`. */
  malformed?: 'throw';
}
export interface LenientOptions {
  malformed: 'yield';
}

/** A list, or a file, that is there without waiting. */
type AtHand = Bytes | Iterable<Bytes>;
/** One that has to be waited for. */
type Coming = BlobLike | { getReader(): unknown } | AsyncIterable<Bytes>;
/** The content of a file. A string is none: it may be meant as a path. */
export type FileSource = ArrayBufferLike | ArrayBufferView | Coming | (object & Iterable<Bytes>);

export type Verdict = 'OK' | 'FAILED' | 'MISSING' | 'UNREADABLE' | 'TOO LONG';
interface Outcome {
  /** The digest that the file has, of `OK` and `FAILED`; else null. */
  actual: string | null;
  /** Why the file could not be read; else null. */
  error: unknown;
}
export type CheckedRow =
  | (ListEntry & Outcome & { verdict: Verdict })
  | (BadLine & Outcome & { verdict: 'MALFORMED' });

export interface Checked {
  /** Whether there are rows, and all of them are `OK`. */
  ok: boolean;
  /** A row for each line that is not skipped, in their order. */
  rows: CheckedRow[];
  /** How many rows have each verdict, and how many lines were skipped. */
  summary: Record<Verdict | 'MALFORMED' | 'skipped', number>;
}

export interface CheckOptions {
  /** The hash of untagged lines; without it they are malformed. */
  hash?: HashSpelling | null;
  /** Names that lead out of their folder are `UNREADABLE`, and their files are not asked for. */
  inside?: boolean;
}

export interface Library {
  /** Begins a hash. */
  createHash(algorithm: HashSpelling, options?: HashOptions): Message;
  /** Begins an HMAC. `outputLength` is from half a digest to the whole. */
  createHmac(algorithm: HmacSpelling, key: Bytes, options?: { outputLength?: number }): Message;
  /** The digest of bytes, in hexadecimal digits where no other encoding is named. */
  hash(algorithm: HashSpelling, data: Bytes, options?: TextOptions): string;
  hash(algorithm: HashSpelling, data: Bytes, options: BufferOptions): Digest;
  hash(algorithm: HashSpelling, data: Bytes, options?: AnyOptions): string | Digest;
  /** The same of a Blob or a File, of a stream of the web or of Node, or of whatever gives pieces one by one. */
  hashOf(algorithm: HashSpelling, source: Source, options?: TextOptions): Promise<string>;
  hashOf(algorithm: HashSpelling, source: Source, options: BufferOptions): Promise<Digest>;
  hashOf(algorithm: HashSpelling, source: Source, options?: AnyOptions): Promise<string | Digest>;
  /** The digests of all pieces of bytes, one after the other. A piece has `pieceLength` bytes, the last or less. */
  hashPieces(algorithm: HashSpelling, data: Bytes, pieceLength: number, options?: { outputLength?: number }): Digest;
  /** HKDF: a key of so many bytes, up to 255 digests. */
  hkdfSync(algorithm: HmacSpelling, material: Bytes, salt: Bytes, info: Bytes, length: number): ArrayBuffer;
  /** BLAKE3: a key of so many bytes, 32 where none are named, from material, for a context. */
  deriveKey(context: Bytes, material: Bytes, length?: number): Digest;
  /**
   * The entries of a list, one after another. `algorithm` is the hash of untagged lines; without one they are
   * malformed. Of a Blob, of a stream or of what gives pieces that have to be waited for, it is for `for await`.
   */
  readList(list: AtHand, algorithm?: HashSpelling | null, options?: StrictOptions): Generator<ListEntry, void>;
  readList(list: AtHand, algorithm: HashSpelling | null | undefined, options: LenientOptions):
    Generator<ListEntry | BadLine, void>;
  readList(list: Coming, algorithm?: HashSpelling | null, options?: StrictOptions): AsyncGenerator<ListEntry, void>;
  readList(list: Coming, algorithm: HashSpelling | null | undefined, options: LenientOptions):
    AsyncGenerator<ListEntry | BadLine, void>;
  /** Reads a list, and the file of each entry. `find` gives the file of a name, or null if there is none. */
  check(
    list: Source,
    find: (name: string) => FileSource | null | undefined | Promise<FileSource | null | undefined>,
    options?: CheckOptions,
  ): Promise<Checked>;
  /** The line of an entry, with its LF; `tagged`, it names its hash. A digest is bytes or hexadecimal digits. */
  formatLine(
    algorithm: HashSpelling, digest: Bytes, name: string | Uint8Array, options?: { tagged?: boolean },
  ): string;
  /** The line of a report, such as `name: OK`, with its LF. */
  formatReport(row: { name: string; verdict: Verdict } | { line: number; verdict: 'MALFORMED' } | CheckedRow): string;
}

/**
 * The functions over a module that the caller has compiled, as in a worker. `instance` is one of it that nobody else
 * uses; without it one is made, which browsers may refuse outside a worker.
 */
export function bind(module: object, instance?: object): Library;
