// SPDX-License-Identifier: MIT OR Apache-2.0
import { isBytes } from './bytes.js';

const STEP = 2 ** 22; // of a Blob, what is read at once

// Takes what was read and hashed, to nobody. Its memory is given back at once in that way; left to be collected, it
// comes to hundreds of megabytes first.
let bin = null;
function giveBack(buffer) {
  if (!bin) {
    bin = new MessageChannel();
    bin.port2.close();
  }
  bin.port1.postMessage(null, [buffer]);
}

/** The bytes of a Blob, or of a File, piece by piece. A piece is gone when the next one is asked for. */
export async function* piecesOfBlob(blob) {
  const read = (at) => blob.slice(at, at + STEP).arrayBuffer();
  let next = read(0);
  for (let at = 0; at < blob.size; at += STEP) {
    const buffer = await next;
    if (buffer.byteLength !== Math.min(STEP, blob.size - at)) throw new Error('the file has changed');
    // the next piece is read while this one is hashed
    next = at + STEP < blob.size ? read(at + STEP) : null;
    next?.catch(() => {});
    yield new Uint8Array(buffer);
    giveBack(buffer);
  }
  // what is empty has to be there too
  await next;
}

// Nobody knows which bytes the text was decoded from.
const TEXT_OF_WEB = 'the stream gives text, and not its bytes: take it before it is decoded, and text of your own ' +
  'through a TextEncoderStream';

async function* piecesOfStream(stream) {
  const reader = stream.getReader();
  let isAtEnd = false;
  try {
    for (;;) {
      const { done, value } = await reader.read();
      isAtEnd = done;
      if (done) return;
      if (typeof value === 'string') throw new TypeError(TEXT_OF_WEB);
      yield value;
    }
  } finally {
    if (!isAtEnd) giveUp(reader);
    reader.releaseLock();
  }
}

/** Gives a stream up. Nobody waits for its end, which may never come. */
async function giveUp(reader) {
  try {
    await reader.cancel();
  } catch {
    // the fault for which it is given up is the one that is reported
  }
}

/** The encoding by which a stream of Node makes text of its bytes. */
const decodes = (stream) => stream.readableEncoding ?? stream._readableState?.encoding;

// A decoder of UTF-8 gives this character for bytes that are no UTF-8.
const REPLACEMENT = '\ufffd';

/** Refuses text whose bytes as UTF-8 may differ from those that it was decoded from. */
function refuseDecoded(text, encoding) {
  if (!encoding || (/^utf-?8$/i.test(encoding) && !text.includes(REPLACEMENT))) return;
  throw new TypeError(`the stream gives text, decoded as ${encoding}, and not its bytes: open it without an encoding`);
}

async function* piecesOfMany(source) {
  for await (const piece of source) {
    if (typeof piece === 'string') refuseDecoded(piece, decodes(source));
    yield piece;
  }
}

/** Whether it is a Blob or a File, of this realm or of another. */
const isBlob = (source) =>
  ['slice', 'arrayBuffer'].every((name) => typeof source?.[name] === 'function') && source.size >= 0;

const isStream = (source) => typeof source?.getReader === 'function';

/** The pieces of bytes, or of what gives pieces without waiting, such as an array. Null of any other source. */
export function piecesAtHand(source) {
  if (isBytes(source)) return [source];
  if (isBlob(source) || isStream(source) || source?.[Symbol.asyncIterator]) return null;
  return source?.[Symbol.iterator] ? source : null;
}

/** The pieces of a Blob, of a stream of the web or of Node, or of anything else that gives pieces one by one. */
export function piecesOf(source) {
  if (isBytes(source)) return [source];
  if (isBlob(source)) return piecesOfBlob(source);
  if (isStream(source)) return piecesOfStream(source);
  if (source?.[Symbol.asyncIterator] || source?.[Symbol.iterator]) return piecesOfMany(source);
  throw new TypeError('the source must be bytes, a Blob, a stream or something that gives pieces');
}
