// Answers as `sums check` and `sums hash` would, by the package of npm: a line of JSON for each run, with its words and
// its standard input, and a line of JSON with what it prints. tests/languages/npm_lists.py asks.
// usage: node tests/languages/npm_lists.mjs PACKAGE
import { deepEqual } from 'node:assert/strict';
import { createReadStream } from 'node:fs';
import { resolve } from 'node:path';
import { createInterface } from 'node:readline';
import { Readable } from 'node:stream';
import { pathToFileURL } from 'node:url';

const [folder] = process.argv.slice(2);
const { check, formatLine, formatReport, hashOf, readList } = await import(pathToFileURL(resolve(folder, 'node.js')));
const NAMED = {
  OK: 'OK', FAILED: 'failed', MISSING: 'missing', UNREADABLE: 'unreadable', 'TOO LONG': 'too long',
  MALFORMED: 'malformed', skipped: 'skipped',
};
const SOURCES = [
  (pieces) => pieces, (pieces) => Buffer.concat(pieces), (pieces) => Readable.from(pieces),
  (pieces) => new Blob(pieces), (pieces) => new Blob(pieces).stream(),
];
let count = 0;

const after = (words, option) => (words.includes(option) ? words[words.indexOf(option) + 1] : undefined);

function piecesOf(bytes, size) {
  const step = size || bytes.length || 1;
  return Array.from({ length: Math.ceil(bytes.length / step) }, (_, at) => bytes.subarray(at * step, (at + 1) * step));
}

/** What standard error says of a list, the first that fits. */
function remarkOf(rows) {
  if (rows.some((it) => it.untagged)) return 'digests of another length than those of -a';
  if (!rows.length) return 'no entries';
  if (rows.every((it) => it.verdict === 'MALFORMED')) return 'no line is an entry';
  if (rows.every((it) => it.verdict === 'FAILED')) return 'all FAILED, untagged lines may need another -a';
  return rows.every((it) => it.verdict === 'MISSING') ? 'all MISSING, names count from the current folder' : null;
}

/** The lines of a list by itself, in the form of rows. */
function linesOf(pieces, hash) {
  return [...readList(pieces, hash, { malformed: 'yield' })];
}

async function checked({ words, given, short }) {
  const hash = after(words, '-a');
  const pieces = piecesOf(Buffer.from(given, 'base64'), short);
  const list = SOURCES[count++ % SOURCES.length](pieces);
  const { ok, rows, summary } = await check(list, (name) => createReadStream(name), { hash });
  deepEqual(linesOf(pieces, hash), rows.map(({ verdict, actual, error, ...line }) => line));
  const numbers = Object.entries(NAMED).map(([key, named]) => `${summary[key]} ${named}`);
  const remark = remarkOf(rows);
  const err = [
    ...(words.includes('--summary') ? [`sums: ${numbers.join(', ')}\n`] : []),
    ...(remark ? [`sums: -: ${remark}\n`] : []),
  ];
  return { status: ok || !rows.length ? 0 : 1, out: rows.map(formatReport).join(''), err: err.join('') };
}

async function hashed({ words }) {
  const [hash, length, tagged] = [after(words, '-a'), after(words, '-l'), words.includes('--tag')];
  let out = '';
  for (const name of words.slice(words.indexOf('--') + 1)) {
    const digest = await hashOf(hash, createReadStream(name), length ? { outputLength: Number(length) } : {});
    out += formatLine(hash, digest, name, { tagged });
  }
  return { status: 0, out, err: '' };
}

for await (const line of createInterface({ input: process.stdin })) {
  const asked = JSON.parse(line);
  const answer = await (asked.words[0] === 'hash' ? hashed(asked) : checked(asked));
  process.stdout.write(`${JSON.stringify(answer)}\n`);
}
