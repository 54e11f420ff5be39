// SPDX-License-Identifier: MIT OR Apache-2.0
// What nobody should do: it is refused, or it does what it says, and no other message notices.
import assert from 'node:assert/strict';
import crypto from 'node:crypto';
import { readFileSync } from 'node:fs';
import { Readable } from 'node:stream';
import test from 'node:test';
import vm from 'node:vm';
import { Worker } from 'node:worker_threads';
import {
  createHash, createHmac, deriveKey, getHashes, hash, hashOf, hashPieces, hkdfSync, Refused, toHex,
} from '../node.js';
import { bind } from '../library.js';

const refuses = (kind, call) => assert.throws(call, kind, call.toString());
const of = (length) => new Uint8Array(length);

const NO_HASHES = [
  'md5', '', 'sha_256', 'sha256 ', 'sha-512/256', 'SHA512-256', 'sha3-256', 'blake2s-512', 'bla\u212ae2b',
  '\u017fha256', 'toString', '__proto__', undefined, null, 3, {}, ['sha256'], Symbol('sha256'),
];
const OF_BYTES = ['key', 'salt', 'personal', 'context'];

test('words that no call takes', () => {
  for (const name of NO_HASHES) {
    refuses(TypeError, () => createHash(name));
    refuses(TypeError, () => createHmac(name, ''));
    refuses(TypeError, () => hash(name, ''));
    refuses(TypeError, () => hkdfSync(name, '', '', '', 1));
    refuses(TypeError, () => hashPieces(name, '', 1));
  }
  for (const data of [undefined, null, 3, {}, [1], true, new Map(), { length: 4 }, 3n, Symbol('x'), () => 'x']) {
    refuses(TypeError, () => createHash('sha256').update(data));
    refuses(TypeError, () => createHmac('sha256', data));
    refuses(TypeError, () => hkdfSync('sha256', data, '', '', 1));
    refuses(TypeError, () => deriveKey(data, ''));
    refuses(TypeError, () => toHex(data));
    for (const option of OF_BYTES) refuses(TypeError, () => createHash('blake2b', { [option]: data }));
  }
  for (const length of [0, -1, 65, 1.5, NaN, Infinity, '32', 2 ** 53, 32n, null]) {
    refuses(RangeError, () => createHash('blake2b', { outputLength: length }));
    refuses(RangeError, () => createHmac('sha512', 'k', { outputLength: length }));
    refuses(RangeError, () => hashPieces('blake2b', 'abc', 1, { outputLength: length }));
  }
  for (const size of [0, -1, 1.5, NaN, undefined, 1n]) refuses(RangeError, () => hashPieces('sha256', 'abc', size));
  for (const outputEncoding of ['utf8', 'HEX', 'toString', null, 3, {}]) {
    refuses(TypeError, () => hash('sha256', '', { outputEncoding }));
  }
  for (const encoding of ['hex', 'latin1', null]) refuses(TypeError, () => createHash('sha256').update('61', encoding));
});

test('options that a hash does not take, or of another length', () => {
  refuses(TypeError, () => createHash('blake2b', { Key: 'k' }));
  refuses(TypeError, () => createHash('blake2b', 'key'));
  refuses(TypeError, () => createHmac('sha256', 'k', { key: 'k' }));
  refuses(TypeError, () => createHmac('blake3', 'k'));
  refuses(TypeError, () => hkdfSync('blake3', '', '', '', 1));
  for (const option of OF_BYTES) refuses(TypeError, () => createHash('sha256', { [option]: of(32) }));
  for (const option of ['salt', 'personal']) refuses(TypeError, () => createHash('blake3', { [option]: of(32) }));
  refuses(TypeError, () => createHash('blake2s', { context: 'c' }));
  refuses(TypeError, () => createHash('blake3', { key: of(32), context: 'c' }));
  for (const length of [0, 31, 33]) refuses(Refused, () => createHash('blake3', { key: of(length) }));
  for (const length of [0, 65]) refuses(Refused, () => createHash('blake2b', { key: of(length) }));
  refuses(Refused, () => createHash('blake2s', { key: of(33) }));
  for (const option of ['salt', 'personal']) {
    for (const length of [0, 8, 17]) refuses(Refused, () => createHash('blake2b', { [option]: of(length) }));
  }
  for (const length of [15, 33]) refuses(RangeError, () => createHmac('sha256', 'k', { outputLength: length }));
  refuses(RangeError, () => createHash('sha256', { outputLength: 20 }));
  refuses(Refused, () => hkdfSync('sha256', 'm', '', '', 8161));
  assert.equal(hkdfSync('sha256', 'm', '', '', 8160).byteLength, 8160);
  refuses(RangeError, () => hkdfSync('sha256', of(2 ** 24), 'x', '', 32));
  refuses(RangeError, () => createHmac('sha256', of(2 ** 24 + 1)));
  assert.equal(createHmac('sha256', of(2 ** 24)).digest('hex'), crypto.createHmac('sha256', of(2 ** 24)).digest('hex'));
});

test('outputs of BLAKE3 at their ends', () => {
  const message = createHash('blake3').update('abc');
  for (const [length, seek] of [[2, 2n ** 64n - 2n], [0, 2n ** 64n], [1, 2n ** 70n], [2, -1n]]) {
    refuses(Refused, () => message.output(length, seek));
  }
  for (const seek of [-1, 1.5, NaN, 2 ** 53, '0', null]) refuses(RangeError, () => message.output(2, seek));
  for (const length of [-1, 2 ** 40, undefined, 1n]) refuses(RangeError, () => message.output(length));
  assert.equal(message.output(1, 2n ** 64n - 2n).length, 1);
  assert.equal(message.output(0, 2n ** 64n - 1n).length, 0);
  refuses(TypeError, () => createHash('sha256').output(3));
  assert.equal(message.digest('hex'), hash('blake3', 'abc'));
});

test('a refusal has the bounds in its text', () => {
  const says = (call, message, status) => assert.throws(call, { message, ...(status && { name: 'Refused', status }) });
  const output = (outputLength) => ({ outputLength });
  const [blake2b, blake3] = [createHash('blake2b', output(20)), createHash('blake3')];
  for (const length of [0, -1, 65]) {
    says(() => hash('blake2b', '', output(length)), 'outputLength must be between 1 and 64 bytes', 1);
  }
  says(() => hash('blake2s', '', output(33)), 'outputLength must be between 1 and 32 bytes', 1);
  says(() => hash('blake3', '', output(2 ** 32)), 'outputLength must be between 1 and 4294967295 bytes', 1);
  says(() => hash('sha256', '', output(20)), 'outputLength must be 32 bytes', 1);
  says(() => hash('sha512', '', output(1.5)), 'outputLength must be a whole number from 64 to 64');
  says(() => createHmac('sha512', 'k', output(31)), 'outputLength must be between 32 and 64 bytes', 1);
  says(() => hashPieces('blake3', 'abc', 1, output(33)), 'outputLength must be 32 bytes', 1);
  says(() => blake2b.copy(output(21)), 'outputLength must be 20 bytes', 1);
  says(() => hkdfSync('sha256', '', '', '', 8161), 'length must be between 0 and 8160 bytes', 1);
  says(() => hkdfSync('blake2b', '', '', '', 2 ** 30), 'length must be between 0 and 16320 bytes', 1);
  says(() => createHash('blake2b', { key: of(65) }), 'key must be between 1 and 64 bytes', 2);
  says(() => createHash('blake2s', { key: '' }), 'key must be between 1 and 32 bytes', 2);
  says(() => createHash('blake3', { key: of(31) }), 'key must be 32 bytes', 2);
  says(() => createHash('blake2b', { salt: of(17) }), 'salt must be 16 bytes', 2);
  says(() => createHash('blake2s', { personal: of(7) }), 'personal must be 8 bytes', 2);
  const ends = 'the output begins at byte 0 and ends after 18446744073709551615 bytes';
  for (const seek of [-1n, 2n ** 64n - 1n]) says(() => blake3.output(1, seek), ends, 5);
  says(() => hash('md5', ''), 'there is no hash md5: the hashes are sha256, sha512, blake2b, blake2s, blake3');
  says(() => blake3.digest('x'), 'there is no encoding x: the encodings are hex, base64, base64url, buffer');
  says(() => blake3.digest().toString('x'), 'there is no encoding x: the encodings are hex, base64, base64url');
});

test('copies of another length', () => {
  const other = { get outputLength() { message.digest(); return 32; } };
  const message = createHash('blake3').update('abc');
  for (const outputLength of [0, -1, 1.5, NaN, '32', null, 2 ** 32]) {
    refuses(RangeError, () => message.copy({ outputLength }));
  }
  for (const options of ['x', 3, () => 1]) refuses(TypeError, () => message.copy(options));
  refuses(TypeError, () => message.copy({ length: 32 }));
  assert.throws(() => message.copy(other), /digest was taken/);
  const tag = createHmac('sha256', 'k');
  for (const outputLength of [15, 33]) refuses(Refused, () => tag.copy({ outputLength }));
});

test('a message ends with its digest, and only it', () => {
  const other = createHash('blake3').update('other');
  const message = createHash('sha512').update('a');
  refuses(TypeError, () => message.digest('latin1'));
  assert.equal(message.digest('hex'), crypto.createHash('sha512').update('a').digest('hex'));
  for (const call of ['digest', 'copy']) assert.throws(() => message[call](), /digest was taken/);
  assert.throws(() => message.update('x'), /digest was taken/);
  const output = createHash('blake3');
  output.digest();
  assert.throws(() => output.output(1), /digest was taken/);
  assert.equal(other.digest('hex'), hash('blake3', 'other'));
});

test('messages that createHash did not make', () => {
  const message = createHash('sha256').update('abc');
  const { constructor } = message;
  refuses(TypeError, () => new constructor());
  refuses(TypeError, () => constructor.call({}));
  refuses(TypeError, () => new (class extends constructor {})());
  for (const thing of [{}, Object.create(constructor.prototype), structuredClone(message), new Proxy(message, {})]) {
    for (const name of ['update', 'digest', 'copy', 'output']) {
      refuses(TypeError, () => constructor.prototype[name].call(thing, 'x'));
    }
  }
  assert.deepEqual(Reflect.ownKeys(message), []);
  assert.equal(JSON.stringify(message), '{}');
  message.state = message.key = of(112);
  assert.equal(message.digest('hex'), hash('sha256', 'abc'));
});

test('views that lie, and buffers that are gone or short by now', () => {
  class Liar extends Uint8Array {
    get length() { return 1e9; }
    get byteLength() { return 1; }
    get byteOffset() { return 0; }
    get buffer() { return of(500).buffer; }
    subarray() { return of(9e6); }
    [Symbol.iterator]() { throw new Error('asked'); }
  }
  assert.equal(hash('sha256', new Liar([97, 98, 99])), hash('sha256', 'abc'));
  const own = Object.defineProperty(Uint8Array.of(97, 98, 99), 'byteLength', { value: 1 });
  assert.equal(hash('sha256', own), hash('sha256', 'abc'));
  assert.equal(hash('sha256', new DataView(Uint8Array.of(0, 97, 98, 99, 0).buffer, 1, 3)), hash('sha256', 'abc'));
  assert.equal(hash('sha256', new Uint16Array([0x6261])), hash('sha256', 'ab'));
  for (const data of [new Uint16Array([0x6261]), 'ab', new Liar([97, 98])]) assert.equal(toHex(data), '6162');
  assert.equal(hash('sha256', new SharedArrayBuffer(3)), hash('sha256', of(3)));
  const gone = of(3);
  structuredClone(gone.buffer, { transfer: [gone.buffer] });
  for (const data of [gone, gone.buffer, Object.setPrototypeOf(gone, Liar.prototype)]) {
    const message = createHash('sha256').update('a');
    refuses(TypeError, () => message.update(data));
    assert.equal(message.digest('hex'), hash('sha256', 'a'));
  }
  const shrinking = new ArrayBuffer(8, { maxByteLength: 8 });
  if (!shrinking.resizable) return;
  const views = [new Uint8Array(shrinking, 4, 4), new DataView(shrinking, 4, 4)];
  shrinking.resize(2);
  for (const view of views) refuses(TypeError, () => hash('sha256', view));
});

test('buffers and views of another realm, and what only looks like a buffer', async () => {
  const foreign = (code) => vm.runInNewContext(`const bytes = Uint8Array.of(97, 98, 99); ${code}`);
  const shared = 'const all = new SharedArrayBuffer(3); new Uint8Array(all).set(bytes); all';
  const views = ['bytes', 'bytes.buffer', shared, 'new DataView(bytes.buffer)', 'new Uint8Array(bytes)'];
  const key = { key: 'abc' };
  for (const data of views.map(foreign)) {
    assert.ok(!(data instanceof Uint8Array || data instanceof ArrayBuffer || data instanceof SharedArrayBuffer));
    assert.equal(hash('sha256', data), hash('sha256', 'abc'));
    assert.equal(await hashOf('sha256', data), hash('sha256', 'abc'));
    assert.equal(await hashOf('sha256', [data, data]), hash('sha256', 'abcabc'));
    assert.equal(hash('blake2b', '', { key: data }), hash('blake2b', '', key));
    assert.deepEqual(deriveKey(data, data), deriveKey('abc', 'abc'));
    assert.deepEqual(hkdfSync('sha256', data, data, data, 50), crypto.hkdfSync('sha256', data, data, data, 50));
    assert.equal(createHmac('sha256', data).digest('hex'), crypto.createHmac('sha256', data).digest('hex'));
  }
  const gone = foreign('bytes.buffer');
  structuredClone(gone, { transfer: [gone] });
  refuses(TypeError, () => hash('sha256', gone));
  const likes = [
    new Proxy(new ArrayBuffer(3), {}), Object.create(ArrayBuffer.prototype), { byteLength: 3, slice() {} },
    foreign('Object.create(SharedArrayBuffer.prototype)'), foreign('[97]'),
  ];
  for (const like of likes) refuses(TypeError, () => hash('sha256', like));
});

test('code that runs in the middle', () => {
  const options = {
    get outputLength() {
      createHash('blake2b').update('x'.repeat(500));
      return 32;
    },
    get key() {
      hash('blake3', 'y');
      return Uint8Array.of(1);
    },
  };
  assert.equal(hash('blake2b', 'm', options), hash('blake2b', 'm', { outputLength: 32, key: Uint8Array.of(1) }));
  const key = of(64).fill(1);
  const keyed = createHash('blake2b', { key });
  key.fill(2);
  assert.equal(keyed.digest('hex'), hash('blake2b', '', { key: of(64).fill(1) }));
});

test('many at once, that go on in any order', () => {
  const all = Array.from({ length: 3000 }, (_, at) => [createHash(getHashes()[at % 5]), at]);
  for (let round = 0; round < 3; round++) for (const [message, at] of all) message.update(`${at}/${round}`);
  for (const [message, at] of all.reverse()) {
    assert.equal(message.digest('hex'), hash(getHashes()[at % 5], `${at}/0${at}/1${at}/2`));
  }
});

test('an update of 300 MiB, and one byte at a time', () => {
  const big = Buffer.alloc(300 << 20, 7);
  assert.equal(hash('sha256', big), crypto.createHash('sha256').update(big).digest('hex'));
  const message = createHash('blake3');
  for (let at = 0; at < 5000; at++) message.update(Uint8Array.of(at % 251));
  assert.equal(message.digest('hex'), hash('blake3', Uint8Array.from({ length: 5000 }, (_, at) => at % 251)));
});

/** Begins messages and drops them; tells of each hundredth that is collected. */
function dropMessages(count, registry) {
  for (let at = 0; at < count; at++) {
    const message = createHash('blake3').update('x');
    if (at % 100 === 0) registry.register(message, at);
  }
}

const NO_GC = !globalThis.gc && 'node was begun without --expose-gc';
test('messages that are dropped are collected, and the module stays as it is', { skip: NO_GC }, async () => {
  let collected = 0;
  const kept = createHash('sha256').update('kept');
  const registry = new FinalizationRegistry(() => collected++);
  dropMessages(100000, registry);
  for (let round = 0; round < 100 && collected < 900; round++) {
    gc();
    await new Promise((resolve) => setTimeout(resolve, 10));
  }
  assert.ok(collected >= 900, `${collected} of 1,000 are collected`);
  // a registry that is dropped tells of nothing
  registry.unregister(kept);
  assert.ok(process.memoryUsage().rss < 700e6);
  assert.equal(kept.digest('hex'), hash('sha256', 'kept'));
});

/** Calls on the way back from where the stack ran out, one more frame free each time. */
function deep(call) {
  try {
    deep(call);
  } catch {
    // there is no stack to say anything
  }
  call();
}

const STACK_DATA = 'x'.repeat(3000);

/** Ways to begin a message, each with the digest that it has of some data by another way. */
const WAYS = [
  ...getHashes().map((name) => [() => createHash(name), (data) => hash(name, data)]),
  [() => createHmac('sha256', 'k'), (data) => crypto.createHmac('sha256', 'k').update(data).digest('hex')],
];

/**
 * One message where there may be no stack: whether it has its digest, or was lost, or has changed nothing. Nothing is
 * thrown, since a frame below may catch it.
 */
function attempt(begin, digestOf) {
  const message = begin();
  let digest;
  try {
    digest = message.update(STACK_DATA).digest('hex');
  } catch (error) {
    if (!(error instanceof RangeError)) return 'wrong';
    try {
      digest = message.digest('hex');
    } catch {
      return 'lost';
    }
    // what failed before it began has changed nothing
    if (digest === digestOf('')) return 'nothing';
  }
  return digest === digestOf(STACK_DATA) ? 'right' : 'wrong';
}

test('a stack that runs out ends the message that it meets, and no other', () => {
  const seen = { lost: 0, nothing: 0, right: 0, wrong: 0 };
  const bystanders = getHashes().map((name) => createHash(name).update('by'));
  for (const way of Array(5).fill(WAYS).flat()) {
    let frames = 0;
    try {
      deep(() => frames++ > 200 || seen[attempt(...way)]++);
    } catch (error) {
      if (!(error instanceof RangeError)) throw error;
    }
  }
  assert.ok(seen.lost > 0 && seen.right > 0 && seen.wrong === 0, JSON.stringify(seen));
  for (const [at, name] of getHashes().entries()) {
    assert.equal(bystanders[at].update('stander').digest('hex'), hash(name, 'bystander'));
  }
});

test('a source that fails, and one that gives no bytes', async () => {
  async function* failing() { yield 'a'; throw new Error('in the middle'); }
  await assert.rejects(hashOf('sha256', failing()), /in the middle/);
  let cancelled = false;
  const stream = new ReadableStream({ pull(controller) { controller.enqueue(3); }, cancel() { cancelled = true; } });
  await assert.rejects(hashOf('sha256', stream), TypeError);
  assert.ok(cancelled);
  for (const source of [undefined, null, 3, {}, new Map([[1, 2]])]) {
    await assert.rejects(hashOf('sha256', source), TypeError);
  }
  await assert.rejects(hashOf('md5', 'abc'), TypeError);
});

/** A stream of Node with this encoding, of bytes in two pieces. */
function decoding(encoding, ...bytes) {
  const stream = Readable.from([Buffer.from(bytes.slice(0, 2)), Buffer.from(bytes.slice(2))], { objectMode: false });
  return encoding ? stream.setEncoding(encoding) : stream;
}

test('a stream that decodes its bytes gives their digest, or it is refused', async () => {
  const euro = [0x61, 0xe2, 0x82, 0xac, 0xf0, 0x9f, 0x98, 0x80];
  const wanted = hash('sha256', Uint8Array.from(euro));
  for (const encoding of [undefined, 'utf8', 'UTF-8']) {
    assert.equal(await hashOf('sha256', decoding(encoding, ...euro)), wanted);
  }
  for (const encoding of ['latin1', 'binary', 'ascii', 'utf16le', 'ucs2', 'hex', 'base64']) {
    const stream = decoding(encoding, ...euro);
    await assert.rejects(hashOf('sha256', stream), { name: 'TypeError', message: /decoded as .*without an encoding/ });
    assert.ok(stream.destroyed);
  }
  for (const bytes of [[0x61, 0xff, 0x61], [0x61, 0x61, 0xe2, 0x82], [0xef, 0xbf, 0xbd], [0xed, 0xa0, 0x80]]) {
    await assert.rejects(hashOf('sha256', decoding('utf8', ...bytes)), /decoded as utf8/);
  }
  // as streams of older packages keep it
  const older = { _readableState: { encoding: 'latin1' }, [Symbol.asyncIterator]: async function* () { yield 'ä'; } };
  await assert.rejects(hashOf('sha256', older), /decoded as latin1/);
  assert.equal(await hashOf('sha256', Readable.from(['ä', '\ufffd'])), hash('sha256', 'ä\ufffd'));
  assert.equal(await hashOf('sha256', new Blob(['\ufeffä']).stream()), hash('sha256', '\ufeffä'));
  const text = () => new Blob(['\ufeffä']).stream().pipeThrough(new TextDecoderStream());
  await assert.rejects(hashOf('sha256', text()), { name: 'TypeError', message: /before it is decoded/ });
  const encoded = text().pipeThrough(new TextEncoderStream());
  assert.equal(await hashOf('sha256', encoded), hash('sha256', 'ä'));
});

const SOON = { timeout: 20000 };
test('a stream whose end never comes does not hold up a refusal', SOON, async () => {
  const never = () => new Promise(() => {});
  const fails = () => Promise.reject(new Error('at the end'));
  for (const cancel of [never, fails, () => { throw new Error('at the end'); }]) {
    let isGiven = false;
    const bad = new ReadableStream({
      pull(controller) { controller.enqueue(3); },
      cancel() { isGiven = true; return cancel(); },
    });
    await assert.rejects(hashOf('sha256', bad), { name: 'TypeError', message: /^the data must be/ });
    assert.ok(isGiven && !bad.locked);
  }
  const faulty = new ReadableStream({ pull() { throw new Error('in the middle'); } });
  await assert.rejects(hashOf('sha256', faulty), /in the middle/);
});

test('Blobs of another realm, and what only looks like one', async () => {
  const blob = new Blob(['abc']);
  const foreign = { size: 3, slice: (from, to) => blob.slice(from, to), arrayBuffer: () => blob.arrayBuffer() };
  assert.equal(await hashOf('sha256', foreign), hash('sha256', 'abc'));
  await assert.rejects(hashOf('sha256', { ...foreign, size: 4 }), /has changed/);
  for (const size of [undefined, NaN, -1, 'x']) await assert.rejects(hashOf('sha256', { ...foreign, size }), TypeError);
});

test('a module of its own, in a worker too', async () => {
  const module = new WebAssembly.Module(readFileSync(new URL('../sums_hash.wasm', import.meta.url)));
  assert.equal(WebAssembly.Module.imports(module).length, 0);
  assert.equal(bind(module).hash('sha256', 'abc'), hash('sha256', 'abc'));
  assert.equal(bind(module, new WebAssembly.Instance(module)).hash('sha256', 'abc'), hash('sha256', 'abc'));
  const code = `import(require('worker_threads').workerData)
    .then((it) => require('worker_threads').parentPort.postMessage(it.hash('blake3', 'abc')))`;
  const worker = new Worker(code, { eval: true, workerData: new URL('../node.js', import.meta.url).href });
  const told = await new Promise((resolve, reject) => worker.on('message', resolve).on('error', reject));
  assert.equal(told, hash('blake3', 'abc'));
});
