// SPDX-License-Identifier: MIT OR Apache-2.0
// The files of a list are read, and each line has a verdict.
import { isBytes } from './bytes.js';
import { beginList, linesOfStream } from './lines.js';
import { INPUT_TOO_LONG } from './machine.js';
import { optionsOf } from './message.js';
import { piecesOf } from './sources.js';

const CHECK_OPTIONS = ['hash', 'inside'];
const NO_ROWS = { OK: 0, FAILED: 0, MISSING: 0, UNREADABLE: 0, 'TOO LONG': 0, MALFORMED: 0 };

/** Whether a name leads out of its folder on some system: it is absolute, begins with a drive, or has a part `..`. */
const leadsOut = (name) => /^([/\\]|[A-Za-z]:)/.test(name) || name.split(/[/\\]/).includes('..');

// as systems and browsers say that a file is not there
const isNoFile = (error) => error?.code === 'ENOENT' || error?.name === 'NotFoundError';
const isTooLong = (error) => error?.name === 'Refused' && error.status === INPUT_TOO_LONG;

/** What became of a file that could not be read. */
function ofFault(error) {
  const verdict = isNoFile(error) ? 'MISSING' : isTooLong(error) ? 'TOO LONG' : 'UNREADABLE';
  return { verdict, actual: null, error };
}

/** What is no file and no content of one is a fault of the caller, and not of the file. */
function refuseOther(found) {
  if (typeof found === 'string') throw new TypeError('a file must be bytes, a Blob or a stream, and is a string');
  if (!isBytes(found)) piecesOf(found);
}

/** The verdict of an entry: what its file has, which `find` gives by its name. */
async function judgedFile({ name, digest, hash }, find, digestOf) {
  let found;
  try {
    found = await find(name);
  } catch (error) {
    return ofFault(error);
  }
  if (found === null || found === undefined) return { verdict: 'MISSING', actual: null, error: null };
  refuseOther(found);
  try {
    const actual = await digestOf(hash, found, { outputLength: digest.length / 2 });
    return { verdict: actual === digest ? 'OK' : 'FAILED', actual, error: null };
  } catch (error) {
    return ofFault(error);
  }
}

/** The verdict of a line. */
function judgedLine(line, { find, digestOf, inside }) {
  if (line.name === null) return { verdict: 'MALFORMED', actual: null, error: null };
  if (inside && leadsOut(line.name)) return ofFault(new RangeError('the name leads out of the folder'));
  return judgedFile(line, find, digestOf);
}

/**
 * Reads a list and the files that it names, one after another. `find` gives the file of a name, or null, and `digestOf`
 * its digest.
 */
export async function checkList(machine, digestOf, list, find, options) {
  const { hash, inside = false } = optionsOf(options, CHECK_OPTIONS);
  if (typeof find !== 'function') throw new TypeError('find must be a function that gives the file of a name');
  if (typeof inside !== 'boolean') throw new TypeError('inside must be true or false');
  const pieces = piecesOf(list);
  const reader = beginList(machine, hash, false);
  const [rows, summary] = [[], { ...NO_ROWS }];
  for await (const line of linesOfStream(reader, pieces)) {
    const row = { ...line, ...(await judgedLine(line, { find, digestOf, inside })) };
    rows.push(row);
    summary[row.verdict]++;
  }
  const ok = rows.length > 0 && summary.OK === rows.length;
  return { ok, rows, summary: { ...summary, skipped: reader.skipped } };
}
