// SPDX-License-Identifier: MIT OR Apache-2.0
// How files are read: a verdict is of one reading, and what has changed or is gone by then is reported.
import { piecesOfBlob } from '../bindings/js/sources.js';

// A file of up to so many bytes is read as a whole. Only so does Firefox tell that one has grown.
const WHOLE = 2 ** 20;
const PATIENCE = 10000; // milliseconds for a file that says to be empty, which may be a pipe

class Changed extends Error {}

const isGone = (error) => ['NotFoundError', 'AbortError'].includes(error?.name);

/** What is said of a file that was not read to its end. */
export function faultOf(error) {
  const again = 'since it was added: add it again';
  if (error instanceof Changed) return `it has changed ${again}`;
  if (isGone(error)) return `it is gone, or has changed, ${again}`;
  if (error?.name === 'NotReadableError' || error?.message === 'the file has changed') {
    return `it has changed ${again}. Or it may not be read`;
  }
  return `this browser did not read it: ${error?.message ?? error}`;
}

/** All bytes of a file, by the one way that fails in each browser if it has another size by now. */
function wholeFile(file) {
  return new Promise((resolve, reject) => {
    const reader = new FileReader();
    const clock = file.size ? 0 : setTimeout(() => reject(new Error('it does not answer')), PATIENCE);
    reader.onloadend = () => {
      clearTimeout(clock);
      if (reader.error) reject(reader.error);
      else if (reader.result.byteLength !== file.size) reject(new Changed());
      else resolve(reader.result);
    };
    reader.readAsArrayBuffer(file);
  });
}

/** Whether a file is read in pieces. After it was read it is only looked at: a short one is read anew each time. */
export const isLong = (file) => file.size > WHOLE;

function areSame(one, two) {
  if (one.length !== two.length) return false;
  for (let at = 0; at < one.length; at++) if (one[at] !== two[at]) return false;
  return true;
}

/** Rejects if a file is gone, if the browser reports a change, and if a short one no longer has the bytes `held`. */
async function look(file, held = null) {
  if (isLong(file)) {
    const last = await file.slice(file.size - 1, file.size).arrayBuffer();
    if (!last.byteLength) throw new Changed();
  } else {
    const bytes = new Uint8Array(await wholeFile(file));
    if (held && !areSame(bytes, held)) throw new Changed();
  }
}

/** Why a file is not what was added any more, as `look` finds it; or nothing. */
export async function faultNow(file, held) {
  try {
    await look(file, held);
    return undefined;
  } catch (error) {
    return faultOf(error);
  }
}

/** The bytes of a file, piece by piece. A piece is gone when the next one is asked for. */
export async function* piecesOfFile(file) {
  const stamp = () => `${file.size} ${file.lastModified}`;
  const before = stamp();
  if (isLong(file)) {
    yield* piecesOfBlob(file);
    await look(file);
  } else {
    const buffer = await wholeFile(file);
    yield new Uint8Array(buffer);
    buffer.transfer?.(0);
  }
  if (stamp() !== before) throw new Changed();
}

// ---- what has become of what was added before

/** Whether both files are read now, and have the same bytes. `mayGoOn` is told how many, and may end the reading. */
async function haveSameBytes(one, two, mayGoOn) {
  if (one.size !== two.size) return false;
  const others = piecesOfFile(two);
  try {
    for await (const piece of piecesOfFile(one)) {
      if (!areSame(piece, (await others.next()).value) || !mayGoOn(piece.length)) return false;
    }
    return (await others.next()).done;
  } catch {
    return false;
  }
}

/** The fate of a file: the `same` as one of its path now, or else an `other` that is there, or `changed`, or `gone`. */
async function fateOfFile(before, now, mayGoOn) {
  for (const it of now) if (await haveSameBytes(before, it, mayGoOn)) return 'same';
  try {
    await look(before);
    return 'other';
  } catch (error) {
    return isGone(error) ? 'gone' : 'changed';
  }
}

/** The fate of items by their paths, beside those of now: `other` if one has that, `same` or `gone` if all have it. */
export async function fateOf(before, now, mayGoOn) {
  const all = new Set();
  for (const [path, { files }] of before) {
    for (const file of files) all.add(await fateOfFile(file, now.get(path)?.files ?? [], mayGoOn));
    if (all.has('other')) return 'other';
  }
  const [one = 'gone'] = all;
  return all.size > 1 ? 'changed' : one;
}
