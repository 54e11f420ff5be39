// What a line of a long list takes in the page's engine, whether its name says its hash or not: below 300 bytes.
// usage: node --expose-gc tests/languages/web/memory.mjs PACKAGE    the folder of the package, with its module
import { join, resolve } from 'node:path';
import { pathToFileURL } from 'node:url';
import { Engine } from '../../../web/engine.js';

const library = await import(pathToFileURL(resolve(join(process.argv[2], 'node.js'))));
const LINES = 400000;
const MOST = 300; // bytes of a line

/** The memory of all that is kept. */
async function heap() {
  await new Promise((done) => setTimeout(done, 50));
  globalThis.gc();
  return process.memoryUsage().heapUsed;
}

/** The bytes that each line of a list of this name takes. */
async function bytesOfLine(name, bytes) {
  const before = await heap();
  let said = '';
  const engine = new Engine(library, (it) => { said = it.text ?? said; });
  await engine.take({ kind: 'give', number: 1, value: { lists: [{ name, bytes }] } });
  const taken = ((await heap()) - before) / LINES;
  if (said !== `Now add the files. The list names ${LINES}.` || engine.rows.length !== LINES) return Infinity;
  return Math.round(taken);
}

/** A list, of which nothing is kept but its bytes. */
function listOf(count) {
  const lines = Array.from({ length: count }, (_, at) => `${at.toString(16).padStart(64, 'a')}  file ${at}\n`);
  return new TextEncoder().encode(lines.join(''));
}

const bytes = listOf(LINES);
const taken = [await bytesOfLine('SHA256SUMS', bytes), await bytesOfLine('list', bytes)];
console.log(`${taken.join(' and ')} bytes of memory for a line`);
process.exit(taken.every((it) => it > 0 && it < MOST) ? 0 : 1);
