// SPDX-License-Identifier: MIT OR Apache-2.0
// The entries of a list by the package of npm beside a parser in JavaScript: node speed.mjs PACKAGE ROUNDS LIST
import { deepStrictEqual } from 'node:assert';
import { readFileSync } from 'node:fs';
import { pathToFileURL } from 'node:url';

const [, , top, rounds, list] = process.argv;
const { readList } = await import(pathToFileURL(`${top}/node.js`).href);

const UNTAGGED = /^([0-9a-f]{64}) [ *]([^\0]+)$/is;
const TAGGED = /^SHA256 \(([^\0]+)\) = ([0-9a-fA-F]{64})$/s;
const ESCAPES = { '\\\\': '\\', '\\n': '\n', '\\r': '\r' };

/** The entry of a line of a list of SHA-256; null for one that is skipped. */
function entryOf(line) {
  const whole = line.replace(/\r$/, '');
  if (whole === '' || whole.startsWith('#')) return null;
  const text = whole.replace(/^\\/, '');
  const untagged = UNTAGGED.exec(text);
  const tagged = untagged ? null : TAGGED.exec(text);
  if (!untagged && !tagged) throw new SyntaxError(line);
  const [name, digits] = untagged ? [untagged[2], untagged[1]] : [tagged[1], tagged[2]];
  const isEscaped = text.length < whole.length;
  return { name: isEscaped ? name.replace(/\\[^]?/g, (each) => ESCAPES[each]) : name, digest: digits.toLowerCase() };
}

const ours = (data) => Array.from(readList(data, 'sha256'), ({ name, digest }) => ({ name, digest }));
const theirs = (data) => new TextDecoder('utf-8', { fatal: true }).decode(data).split('\n').map(entryOf).filter(Boolean);

function linesASecond(call, data) {
  const begun = performance.now();
  const { length } = call(data);
  return (length * 1e3) / (performance.now() - begun);
}

const data = readFileSync(list);
deepStrictEqual(ours(data), theirs(data));
const best = [0, 0];
for (let round = 0; round < Number(rounds); round++) {
  [ours, theirs].forEach((call, at) => { best[at] = Math.max(best[at], linesASecond(call, data)); });
}
console.log(`JavaScript|${best.map(Math.round).join('|')}`);
