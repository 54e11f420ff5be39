// SPDX-License-Identifier: MIT OR Apache-2.0
// Checks the files of a list as `sums check` does: node examples/check.mjs LIST HASH. Names that lead out of this
// folder are not opened.
import { createReadStream } from 'node:fs';
import { check, formatReport } from 'sums-hash';

const [list, hash] = process.argv.slice(2);
const find = (name) => createReadStream(name);
const { ok, rows, summary } = await check(createReadStream(list), find, { hash, inside: true });
process.stdout.write(rows.map(formatReport).join(''));
console.error(Object.entries(summary).map(([what, count]) => `${count} ${what}`).join(', '));
process.exitCode = ok ? 0 : 1;
