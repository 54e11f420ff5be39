// SPDX-License-Identifier: MIT OR Apache-2.0
import type { Library } from './library.js';

export const createHash: Library['createHash'];
export const createHmac: Library['createHmac'];
export const hash: Library['hash'];
export const hashOf: Library['hashOf'];
export const hashPieces: Library['hashPieces'];
export const hkdfSync: Library['hkdfSync'];
export const deriveKey: Library['deriveKey'];
export const readList: Library['readList'];
export const check: Library['check'];
export const formatLine: Library['formatLine'];
export const formatReport: Library['formatReport'];

/** The names of the hashes. */
export function getHashes(): HashName[];
/** The digits of bytes, in lower case. */
export function toHex(data: Bytes): string;

/** What cannot be done. `status` is its number in `sums_hash.h`. */
export class Refused extends RangeError {
  readonly status: number;
}

/** A line of a list that is neither skipped nor an entry. */
export class MalformedLine extends SyntaxError {
  /** Its number, from 1. */
  readonly line: number;
  /** Whether it would be an entry if another hash were named. */
  readonly untagged: boolean;
}

export type { BadLine, Checked, CheckedRow, CheckOptions, FileSource, ListEntry, ListHash } from './library.js';
export type { Verdict } from './library.js';
export type { AnyOptions, BufferOptions, Bytes, Digest, Encoding, HashName, HashOptions } from './library.js';
export type { HashSpelling, HmacName, HmacSpelling, Message, Source, TextEncoding, TextOptions } from './library.js';
import type { Bytes, HashName } from './library.js';
