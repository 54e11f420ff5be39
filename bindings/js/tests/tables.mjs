// SPDX-License-Identifier: MIT OR Apache-2.0
// Reads the tables of vectors of the repository, in the folder TABLES.
import { readFileSync } from 'node:fs';

/** The rows of a table, each with its cells by their headings. */
export function table(path) {
  const lines = readFileSync(`${process.env.TABLES}/${path}.tsv`, 'utf8').split('\n');
  const [headings, ...rows] = lines.filter((it) => it && !it.startsWith('#')).map((it) => it.split('\t'));
  return rows.map((cells) => Object.fromEntries(headings.map((heading, at) => [heading, cells[at]])));
}

const counted = (length, byteAt) => Uint8Array.from({ length }, (_, at) => byteAt(at));

const SPELLED = {
  text: (text) => new TextEncoder().encode(text),
  hex: (digits) => Uint8Array.from(Buffer.from(digits, 'hex')),
  count: (first, length) => counted(Number(length), (at) => Number(first) + at),
  repeat: (byte, length) => counted(Number(length), () => parseInt(byte, 16)),
  cycle: (length) => counted(Number(length), (at) => at % 251),
};

/** The bytes that a cell stands for. */
export function spelled(cell) {
  if (cell === '-') return new Uint8Array(0);
  const [, kind, rest] = /^([a-z]+):(.*)$/.exec(cell);
  return kind === 'text' ? SPELLED.text(rest) : SPELLED[kind](...rest.split(':'));
}

/** Of a row, these options that are given. */
export function optionsOf(row, names) {
  return Object.fromEntries(names.filter((name) => row[name] !== '-').map((name) => [name, spelled(row[name])]));
}
