// SPDX-License-Identifier: MIT OR Apache-2.0
// The lines of lists of digests, read and written by the calls of the module.
import { bytesOf, whole } from './bytes.js';
import { HASHES, hashName } from './hashes.js';
import { DIGEST_LENGTH, NO_LINE, Refused, within } from './machine.js';
import { optionsOf } from './message.js';
import { piecesAtHand, piecesOf } from './sources.js';

// What follows stands in `sums_hash.h`: the hashes, by their numbers, ..
const NUMBERED = [null, 'sha256', 'sha512', 'blake2b', 'blake2s', 'blake3'];
// .. what a line is, ..
const [NO_LINE_YET, SKIPPED_LINE, MALFORMED_LINE, UNTAGGED_LINE] = [0, 1, 2, 3];
// .. the lengths of a state and of an entry, ..
const [STATE, ENTRY] = [65560, 65632];
// .. the places of an entry's numbers, of its digest and of its name, ..
const AT = { number: 0, taken: 8, kind: 16, hash: 20, digestLength: 24, nameLength: 28, digest: 32, name: 96 };
// .. and the verdicts.
const VERDICTS = [null, 'OK', 'FAILED', 'MISSING', 'UNREADABLE', 'TOO LONG'];

// So many bytes of a list are read at once.
const STEP_OF_LIST = 65536;
const LONE_SURROGATE = /\p{Surrogate}/u;

// Made when it is needed: not each realm that hashes has it.
let utf8 = null;
function textOf(data) {
  utf8 ??= new TextDecoder('utf-8', { fatal: true, ignoreBOM: true });
  return utf8.decode(data);
}

const HEXADECIMAL = Array.from('0123456789abcdef', (it) => it.charCodeAt(0));
/** The digits of a digest as one text. One that is put together digit by digit takes several times the memory. */
function digitsOf(digest) {
  const digits = new Uint8Array(2 * digest.length);
  for (let at = 0; at < digest.length; at++) {
    digits[2 * at] = HEXADECIMAL[digest[at] >> 4];
    digits[2 * at + 1] = HEXADECIMAL[digest[at] & 15];
  }
  return textOf(digits);
}

/** A line of a list that is neither skipped nor an entry. */
export class MalformedLine extends SyntaxError {
  constructor(line, untagged) {
    super(`line ${line} is malformed${untagged ? ': it has no tag, and its hash has to be named' : ''}`);
    this.name = 'MalformedLine';
    this.line = line;
    /** Whether it would be an entry if some other hash were named. */
    this.untagged = untagged;
  }
}

/** The hash that untagged lines are of; null for none. */
const hashOfLines = (algorithm) => (algorithm === undefined || algorithm === null ? null : hashName(algorithm));

/** The bytes of text as UTF-8. What would be other text as bytes is refused. */
function bytesOfText(text, what) {
  if (typeof text === 'string' && LONE_SURROGATE.test(text)) throw new TypeError(`${what} has half a character`);
  return bytesOf(text, what);
}

/** A list that is read in pieces. Its state is an array of its own. One whose call does not end is not used again. */
class ListReader {
  #machine;
  #state = new Uint8Array(STATE);
  /** How many lines were skipped. */
  skipped = 0;

  constructor(machine, hash, isStrict) {
    this.#machine = machine;
    this.isStrict = isStrict;
    machine.enter(this.#state);
    machine.call('list_init', machine.slot, NUMBERED.indexOf(hash));
  }

  /** The lines that end in a piece, but for those that are skipped. */
  read(piece) {
    const machine = this.#machine;
    machine.enter(this.#state);
    machine.write(piece, ENTRY);
    const entry = entryIn(machine);
    const lines = [];
    for (let at = 0; at < piece.length; at += entry.numbers.getUint32(AT.taken, true)) {
      machine.call('list_read', machine.slot, machine.input(), machine.input(ENTRY + at), BigInt(piece.length - at));
      this.#take(entry, lines);
    }
    return lines;
  }

  /** The last line, if no LF ended it. */
  end() {
    const machine = this.#machine;
    machine.enter(this.#state);
    const lines = [];
    machine.call('list_end', machine.slot, machine.input());
    this.#take(entryIn(machine), lines);
    return lines;
  }

  drop() {
    this.#machine.forget(this.#state);
  }

  /** Adds the line that a call has read. */
  #take(entry, lines) {
    const kind = entry.numbers.getUint32(AT.kind, true);
    if (kind === SKIPPED_LINE) this.skipped++;
    else if (kind !== NO_LINE_YET) lines.push(lineIn(entry, kind));
  }
}

/** Where the calls write an entry, as bytes and as numbers. */
function entryIn(machine) {
  const bytes = machine.view(ENTRY);
  return { bytes, numbers: new DataView(bytes.buffer, bytes.byteOffset, AT.digest) };
}

/** What a line says, by what a call has written of it. */
function lineIn({ bytes, numbers }, kind) {
  const line = Number(numbers.getBigUint64(AT.number, true));
  if (kind === MALFORMED_LINE || kind === UNTAGGED_LINE) {
    return { name: null, digest: null, hash: null, line, untagged: kind === UNTAGGED_LINE };
  }
  return {
    name: textOf(bytes.subarray(AT.name, AT.name + numbers.getUint32(AT.nameLength, true))),
    digest: digitsOf(bytes.subarray(AT.digest, AT.digest + numbers.getUint32(AT.digestLength, true))),
    hash: NUMBERED[numbers.getUint32(AT.hash, true)],
    line,
  };
}

/** These lines, one after another. One that is malformed is thrown, if the reader was begun so. */
function* given(reader, lines) {
  for (const it of lines) {
    if (it.name === null && reader.isStrict) throw new MalformedLine(it.line, it.untagged);
    yield it;
  }
}

/** The lines that end in a piece of any length. */
function* linesOfPiece(reader, piece) {
  const all = bytesOfText(piece, 'the list');
  const { length } = all;
  for (let at = 0; at < length; at += STEP_OF_LIST) {
    // its owner can take the memory away between two lines
    if (all.length !== length) throw new TypeError('the list was taken away while it was read');
    yield* given(reader, reader.read(all.subarray(at, at + STEP_OF_LIST)));
  }
}

/** All lines of a list but for those that are skipped, of pieces that are there. */
function* linesOfPieces(reader, pieces) {
  try {
    for (const piece of pieces) yield* linesOfPiece(reader, piece);
    yield* given(reader, reader.end());
  } finally {
    reader.drop();
  }
}

/** All lines of a list but for those that are skipped, of pieces that come. */
export async function* linesOfStream(reader, pieces) {
  try {
    for await (const piece of pieces) yield* linesOfPiece(reader, piece);
    yield* given(reader, reader.end());
  } finally {
    reader.drop();
  }
}

/** Begins a list whose untagged lines are of a hash, or of none if it is null. */
export const beginList = (machine, algorithm, isStrict) => new ListReader(machine, hashOfLines(algorithm), isStrict);

/** The entries of a list, as an iterator, or as an asynchronous one if its bytes have to be waited for. */
export function entriesOf(machine, list, algorithm, options) {
  const { malformed = 'throw' } = optionsOf(options, ['malformed']);
  if (!['throw', 'yield'].includes(malformed)) throw new TypeError("malformed must be 'throw' or 'yield'");
  const atHand = piecesAtHand(list);
  const pieces = atHand ?? piecesOf(list);
  const reader = beginList(machine, algorithm, malformed === 'throw');
  return atHand ? linesOfPieces(reader, pieces) : linesOfStream(reader, pieces);
}

/** The bytes of a digest, of its digits or its bytes. */
function bytesOfDigest(digest) {
  if (typeof digest !== 'string') return bytesOf(digest, 'the digest');
  if (!/^([0-9a-f]{2})*$/i.test(digest)) throw new TypeError('the digest must be bytes or hexadecimal digits');
  return Uint8Array.from({ length: digest.length / 2 }, (_, at) => parseInt(digest.slice(2 * at, 2 * at + 2), 16));
}

function bytesOfName(name) {
  if (typeof name === 'string' && LONE_SURROGATE.test(name)) throw new Refused(NO_LINE);
  return bytesOf(name, 'the name');
}

/** The line of an entry, with its LF. */
export function lineOfEntry(machine, algorithm, digest, name, options) {
  const hash = hashName(algorithm);
  const { tagged = false } = optionsOf(options, ['tagged']);
  if (typeof tagged !== 'boolean') throw new TypeError('tagged must be true or false');
  const [digestBytes, nameBytes] = [bytesOfDigest(digest), bytesOfName(name)];
  const { least, digest: most } = HASHES[hash];
  within(digestBytes.length, 'the digest', { least, most }, DIGEST_LENGTH);
  const kind = [NUMBERED.indexOf(hash), Number(tagged)];
  const length = machine.lengthOf('list_line_length', [...kind, BigInt(digestBytes.length)], nameBytes);
  return textOf(machine.output(length, [digestBytes, nameBytes], (out, size, ...data) =>
    machine.call('list_line', out, size, ...kind, ...data)));
}

/** The line of a report, with its LF. */
export function lineOfReport(machine, { name, verdict, line }) {
  if (verdict === 'MALFORMED') return `line ${whole(line, 'line', 1, Number.MAX_SAFE_INTEGER)}: MALFORMED\n`;
  const number = VERDICTS.indexOf(verdict);
  if (number < 1) {
    throw new TypeError(`there is no verdict ${String(verdict)}: the verdicts are ${VERDICTS.slice(1).join(', ')}`);
  }
  const nameBytes = bytesOfName(name);
  const length = machine.lengthOf('list_report_length', [number], nameBytes);
  return textOf(machine.output(length, [nameBytes], (out, size, ...data) =>
    machine.call('list_report', out, size, number, ...data)));
}
