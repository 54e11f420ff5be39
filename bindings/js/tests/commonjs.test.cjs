// SPDX-License-Identifier: MIT OR Apache-2.0
// The package by require(): the same functions, in whatever way Node finds them, and in a realm of its own.
'use strict';
const assert = require('node:assert/strict');
const { execFileSync } = require('node:child_process');
const { readFileSync } = require('node:fs');
const { createRequire } = require('node:module');
const { dirname, join } = require('node:path');
const test = require('node:test');
const vm = require('node:vm');
const commonjs = require('../node.cjs');

const ABC = 'ba7816bf8f01cfea414140de5dae2223b00361a396177a9cb410ff61f20015ad';
const FOLDER = dirname(__dirname);

test('it has what the module for import has', async () => {
  const { default: own, ...imported } = await import('../node.js');
  assert.deepEqual(Object.keys(commonjs).sort(), Object.keys(imported).sort());
  for (const name of commonjs.getHashes()) assert.equal(commonjs.hash(name, 'ä'), imported.hash(name, 'ä'));
  assert.throws(() => commonjs.hash('sha256', '', { outputLength: 3 }), commonjs.Refused);
  assert.equal(await commonjs.hashOf('blake3', new Blob(['abc'])), imported.hash('blake3', 'abc'));
});

test('it is found by its name', () => {
  const found = require('sums-hash');
  assert.equal(found.hash('sha256', 'abc'), ABC);
  assert.deepEqual(Object.keys(found).sort(), Object.keys(commonjs).sort());
  assert.equal(require('sums-hash/package.json').name, 'sums-hash');
  const module = new WebAssembly.Module(readFileSync(require.resolve('sums-hash/sums_hash.wasm')));
  assert.equal(require('sums-hash/library').bind(module).hash('sha256', 'abc'), ABC);
});

test('a Node that cannot load modules by require() finds it too', () => {
  const option = '--no-experimental-require-module';
  const options = process.allowedNodeEnvironmentFlags.has(option) ? [option] : [];
  const code = `const it = require('sums-hash'); console.log(it.hash('sha256', 'abc'), require.resolve('sums-hash'));
    console.log(typeof require('sums-hash/library').bind)`;
  const said = execFileSync(process.execPath, [...options, '-e', code], { cwd: FOLDER, encoding: 'utf8' });
  assert.equal(said, `${ABC} ${join(FOLDER, 'node.cjs')}\nfunction\n`);
});

/** require() of files that are run in a realm of their own, as runners of tests do, with these globals of ours. */
function realmOf(...names) {
  const context = vm.createContext(Object.fromEntries(names.map((name) => [name, globalThis[name]])));
  const load = (path) => {
    const require = createRequire(path);
    const module = { exports: {} };
    const words = ['require', 'module', 'exports', '__dirname'];
    const run = vm.compileFunction(readFileSync(path, 'utf8'), words, { parsingContext: context, filename: path });
    const required = (name) => (name.startsWith('.') ? load(require.resolve(name)) : require(name));
    run(required, module, module.exports, dirname(path));
    return module.exports;
  };
  return load;
}

test('it runs in a realm of its own, and takes the bytes of another', async () => {
  const names = ['TextEncoder', 'Blob', 'MessageChannel', 'btoa'];
  for (const more of [[], ['ArrayBuffer', 'Uint8Array', 'SharedArrayBuffer', 'DataView']]) {
    const { hash, hashOf, createHash, hkdfSync } = realmOf(...names, ...more)(join(FOLDER, 'node.cjs'));
    const bytes = Uint8Array.of(97, 98, 99);
    for (const data of ['abc', bytes, bytes.buffer, Buffer.from('abc'), new DataView(bytes.buffer)]) {
      assert.equal(hash('sha256', data), ABC);
      assert.equal(await hashOf('sha256', data), ABC);
      assert.equal(createHash('sha256').update(data).digest().toString('hex'), ABC);
      assert.equal(hkdfSync('sha256', data, data, data, 9).byteLength, 9);
    }
    assert.equal(await hashOf('sha256', new Blob(['abc'])), ABC);
  }
});
