// SPDX-License-Identifier: MIT OR Apache-2.0
// Writes a list of files, as `sums hash` does, and reads it back: node examples/list.mjs FILE..
import { createReadStream } from 'node:fs';
import { formatLine, hashOf, readList } from 'sums-hash';

let list = '';
for (const name of process.argv.slice(2)) {
  list += formatLine('blake3', await hashOf('blake3', createReadStream(name)), name, { tagged: true });
}
process.stdout.write(list);
for (const { name, digest, hash, line } of readList(list)) console.log(line, name, hash, digest.slice(0, 8));
