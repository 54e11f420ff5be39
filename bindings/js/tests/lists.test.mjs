// Lists: how they are asked for, what is refused, and what happens in the middle. What lines mean is tried by the
// repository's tables of lists.
import assert from 'node:assert/strict';
import { randomInt } from 'node:crypto';
import { createReadStream, mkdtempSync, rmSync, writeFileSync } from 'node:fs';
import { tmpdir } from 'node:os';
import { join } from 'node:path';
import { Readable } from 'node:stream';
import test from 'node:test';
import {
  check, createHash, formatLine, formatReport, getHashes, hash, MalformedLine, readList, Refused,
} from '../node.js';

const ABC = 'ba7816bf8f01cfea414140de5dae2223b00361a396177a9cb410ff61f20015ad';
const LIST = `# files\n${ABC}  a\n\n\\${ABC.toUpperCase()} *new\\nline\r\nBLAKE2b-8 (b) = 2e\n`;
const ENTRIES = [
  { name: 'a', digest: ABC, hash: 'sha256', line: 2 },
  { name: 'new\nline', digest: ABC, hash: 'sha256', line: 4 },
  { name: 'b', digest: '2e', hash: 'blake2b', line: 5 },
];
const bytes = (text) => new TextEncoder().encode(text);
const refuses = (kind, call) => assert.throws(call, kind, call.toString());
const all = async (list) => {
  const found = [];
  for await (const it of list) found.push(it);
  return found;
};
const cut = (data, size) =>
  Array.from({ length: Math.ceil(data.length / size) }, (_, at) => data.subarray(at * size, (at + 1) * size));

test('the entries of a list, of whatever gives its bytes', async () => {
  const data = bytes(LIST);
  const atHand = [data, data.buffer, LIST, Buffer.from(LIST), new DataView(data.buffer), [LIST], new Set([LIST])];
  for (const size of [1, 2, 7, 64, 4096]) atHand.push(cut(data, size));
  for (const list of atHand) {
    assert.deepEqual([...readList(list, 'SHA-256')], ENTRIES);
    assert.deepEqual(await all(readList(list, 'sha256')), ENTRIES);
  }
  async function* coming() { yield* cut(data, 5); }
  for (const list of [new Blob([data]), new Blob([data]).stream(), Readable.from(cut(data, 3)), coming()]) {
    const read = readList(list, 'sha256');
    assert.equal(read[Symbol.iterator], undefined);
    assert.deepEqual(await all(read), ENTRIES);
  }
  for (const empty of ['', [], ['', ''], new Uint8Array(0), '\n\r\n#', '#']) assert.deepEqual([...readList(empty)], []);
  assert.deepEqual([...readList(`SHA256 (a) = ${ABC}`)], [{ name: 'a', digest: ABC, hash: 'sha256', line: 1 }]);
  assert.deepEqual([...readList(`SHA256 (\ufeffa) = ${ABC}`, null)][0].name, '\ufeffa');
});

test('a malformed line is thrown behind the entries before it, or given', async () => {
  const list = `${ABC}  a\nx\n${ABC}  b\n${ABC.slice(2)}  c`;
  const read = readList(list, 'sha256');
  assert.equal(read.next().value.name, 'a');
  assert.throws(() => read.next(), { name: 'MalformedLine', line: 2, untagged: false, message: 'line 2 is malformed' });
  assert.deepEqual(read.next(), { done: true, value: undefined });
  await assert.rejects(all(readList(Readable.from([list]), 'sha256')), MalformedLine);
  const message = 'line 1 is malformed: it has no tag, and its hash has to be named';
  assert.throws(() => [...readList(list)], { line: 1, untagged: true, message });
  assert.ok(new MalformedLine(3, false) instanceof SyntaxError);
  const bad = (line, untagged) => ({ name: null, digest: null, hash: null, line, untagged });
  const given = [...readList(list, 'sha256', { malformed: 'yield' })];
  assert.deepEqual(given.map((it) => it.name), ['a', null, 'b', null]);
  assert.deepEqual([given[1], given[3]], [bad(2, false), bad(4, true)]);
  assert.deepEqual((await all(readList(new Blob([list]), null, { malformed: 'yield' })))[0], bad(1, true));
});

test('words that no call takes', async () => {
  for (const name of ['md5', '', 3, {}, true]) {
    refuses(TypeError, () => readList(LIST, name));
    refuses(TypeError, () => formatLine(name, ABC, 'a'));
    if (name !== true) await assert.rejects(check(LIST, () => null, { hash: name }), TypeError);
  }
  for (const source of [undefined, null, 3, {}, true]) {
    refuses(TypeError, () => readList(source, 'sha256'));
    await assert.rejects(check(source, () => null), TypeError);
  }
  for (const options of ['yield', { malformed: 'skip' }, { malformed: undefined, tag: 1 }, { malformed: null }]) {
    refuses(TypeError, () => readList(LIST, 'sha256', options));
  }
  refuses(TypeError, () => [...readList([[97]], 'sha256')]);
  refuses(TypeError, () => [...readList('a\ud800', 'sha256')]);
  refuses(TypeError, () => [...readList(['\ud83d', '\ude00'], 'sha256')]);
  for (const find of [undefined, null, 'files', new Map()]) await assert.rejects(check(LIST, find), TypeError);
  for (const options of [{ inside: 1 }, { inside: 'x' }, { folder: '.' }, 'sha256']) {
    await assert.rejects(check(LIST, () => null, options), TypeError);
  }
  for (const found of ['a', 3, {}, true, Symbol('a')]) {
    await assert.rejects(check(LIST, () => found, { hash: 'sha256' }), TypeError);
  }
  await assert.rejects(all(readList(Readable.from([Buffer.from(LIST)], { objectMode: false }).setEncoding('latin1'))),
    /decoded as latin1/);
});

test('lines as they are written, and read back', () => {
  assert.equal(formatLine('sha256', ABC, 'a'), `${ABC}  a\n`);
  assert.equal(formatLine('SHA-256', ABC.toUpperCase(), 'a', { tagged: true }), `SHA256 (a) = ${ABC}\n`);
  assert.equal(formatLine('sha256', Buffer.from(ABC, 'hex'), 'a\\b\n\r'), `\\${ABC}  a\\\\b\\n\\r\n`);
  assert.equal(formatLine('blake2b', '2E', '\ufeffü', { tagged: true }), 'BLAKE2b-8 (\ufeffü) = 2e\n');
  for (const name of getHashes()) {
    for (const tagged of [false, true]) {
      const names = ['a', 'a) = b', '\\n', '\n\r\\', ' *a', '#', '\ufeff', '\u{1f600}', 'n'.repeat(65000)];
      const lines = names.map((it) => formatLine(name, hash(name, it), it, { tagged })).join('');
      const read = [...readList(lines, tagged ? null : name)];
      assert.deepEqual(read, names.map((it, at) => ({ name: it, digest: hash(name, it), hash: name, line: at + 1 })));
    }
  }
  const isNoLine = { name: 'Refused', status: 9 };
  const [longest, tooLong] = [65470, 65471].map((it) => 'n'.repeat(it));
  assert.equal(formatLine('sha256', ABC, longest).length, 65537);
  for (const name of ['', 'a\0', '\ud800', Uint8Array.of(255), tooLong, 'n'.repeat(2 ** 20)]) {
    assert.throws(() => formatLine('sha256', ABC, name), isNoLine);
  }
  assert.throws(() => formatLine('sha256', ABC, longest, { tagged: true }), isNoLine);
  refuses(RangeError, () => formatLine('sha256', ABC, new Uint8Array(2 ** 24 + 1)));
  assert.throws(() => formatLine('sha256', '2e', 'a'), { status: 1, message: 'the digest must be 32 bytes' });
  for (const digest of ['', '00'.repeat(65)]) refuses(Refused, () => formatLine('blake2b', digest, 'a'));
  for (const digest of ['2', '2g', '0x2e', '2e\n', '\ud800', 3, null, undefined, [1]]) {
    refuses(TypeError, () => formatLine('blake2b', digest, 'a'));
  }
  for (const name of [undefined, null, 3, {}]) refuses(TypeError, () => formatLine('sha256', ABC, name));
  for (const tagged of [1, 'yes', null]) refuses(TypeError, () => formatLine('sha256', ABC, 'a', { tagged }));
  refuses(TypeError, () => formatLine('sha256', ABC, 'a', { tag: true }));
});

test('lines of a report', () => {
  for (const verdict of ['OK', 'FAILED', 'MISSING', 'UNREADABLE', 'TOO LONG']) {
    assert.equal(formatReport({ name: 'a\nb', verdict }), `a\\nb: ${verdict}\n`);
  }
  assert.equal(formatReport({ name: null, verdict: 'MALFORMED', line: 7 }), 'line 7: MALFORMED\n');
  for (const line of [undefined, 0, 1.5, '7', '1: MALFORMED\na: OK\nline 2']) {
    refuses(RangeError, () => formatReport({ name: null, verdict: 'MALFORMED', line }));
  }
  for (const verdict of ['ok', '', null, undefined, 1, 'toString']) {
    refuses(TypeError, () => formatReport({ name: 'a', verdict }));
  }
  for (const name of ['\ud800', Uint8Array.of(255), 'n'.repeat(65537)]) {
    assert.throws(() => formatReport({ name, verdict: 'OK' }), { name: 'Refused', status: 9 });
  }
  for (const name of [undefined, null, 3]) refuses(TypeError, () => formatReport({ name, verdict: 'OK' }));
});

const fault = (code) => Object.assign(new Error(code), { code });

test('a check: each verdict, the summary, and what is asked for', async () => {
  const inside = ['right', 'wrong', 'none', 'gone', 'broken', 'torn'];
  const names = [...inside, '../up', '/top', 'a/../b', 'C:\\x', 'a\\..\\b', '..x'];
  const list = `${names.map((it) => formatLine('sha256', ABC, it)).join('')}x\n#\n`;
  const files = {
    right: () => [bytes('a'), 'bc'],
    wrong: async () => new Blob(['abd']),
    none: () => undefined,
    gone: () => { throw fault('ENOENT'); },
    broken: () => { throw fault('EACCES'); },
    torn: () => new ReadableStream({ pull() { throw fault('EIO'); } }),
  };
  const asked = [];
  const find = (name) => {
    asked.push(name);
    return (files[name] ?? (() => null))();
  };
  const { ok, rows, summary } = await check(bytes(list), find, { hash: 'sha256', inside: true });
  assert.equal(ok, false);
  assert.deepEqual(asked, [...inside, '..x']);
  const verdicts = ['OK', 'FAILED', 'MISSING', 'MISSING', ...Array(7).fill('UNREADABLE'), 'MISSING', 'MALFORMED'];
  assert.deepEqual(rows.map((it) => it.verdict), verdicts);
  const counts = { OK: 1, FAILED: 1, MISSING: 3, UNREADABLE: 7, 'TOO LONG': 0, MALFORMED: 1, skipped: 1 };
  assert.deepEqual(summary, counts);
  assert.deepEqual(rows[1], {
    name: 'wrong', digest: ABC, hash: 'sha256', line: 2, verdict: 'FAILED', actual: hash('sha256', 'abd'), error: null,
  });
  assert.deepEqual([rows[0].actual, rows[3].error.code, rows[5].error.code], [ABC, 'ENOENT', 'EIO']);
  assert.deepEqual(rows.at(-1), {
    name: null, digest: null, hash: null, line: 13, untagged: false, verdict: 'MALFORMED', actual: null, error: null,
  });
  const outside = await check(list, find, { hash: 'sha256' });
  assert.deepEqual(outside.rows.map((it) => it.verdict).slice(6, 12), Array(6).fill('MISSING'));
});

test('a check is ok if there are rows, and each is OK', async () => {
  const right = formatLine('sha256', ABC, 'a');
  const abc = () => bytes('abc');
  assert.equal((await check(right, abc, { hash: 'sha256' })).ok, true);
  assert.equal((await check(`#\n\n${right}`, abc, { hash: 'sha256' })).ok, true);
  for (const list of ['', '#\n', `${right}x\n`, `${right}${formatLine('sha256', hash('sha256', ''), 'a')}`]) {
    assert.equal((await check(list, abc, { hash: 'sha256' })).ok, false, JSON.stringify(list));
  }
  assert.deepEqual((await check(right, abc)).rows.map((it) => [it.verdict, it.untagged]), [['MALFORMED', true]]);
  const short = formatLine('blake2s', hash('blake2s', 'abc', { outputLength: 1 }), 'a', { tagged: true });
  assert.equal((await check(short, abc)).ok, true);
});

test('files of a folder, by streams of Node', async () => {
  const folder = mkdtempSync(join(tmpdir(), 'lists-'));
  try {
    writeFileSync(join(folder, 'a'), 'abc');
    writeFileSync(join(folder, 'list'), ['a', 'none', '.'].map((it) => formatLine('sha256', ABC, it)).join(''));
    const read = (name) => createReadStream(join(folder, name));
    const { rows } = await check(read('list'), read, { hash: 'sha256' });
    assert.equal(rows.map(formatReport).join(''), 'a: OK\nnone: MISSING\n.: UNREADABLE\n');
    await assert.rejects(check(read('none'), read), { code: 'ENOENT' });
    await assert.rejects(all(readList(read('none'))), { code: 'ENOENT' });
  } finally {
    rmSync(folder, { recursive: true });
  }
});

/** A list of many lines, and its entries. */
function many(count, tag) {
  const entries = Array.from({ length: count }, (_, at) => {
    const name = `${tag}/${at}`;
    return { name, digest: hash('sha256', name), hash: 'sha256', line: at + 1 };
  });
  return { entries, data: bytes(entries.map((it) => `${it.digest}  ${it.name}\n`).join('')) };
}

test('many lists and messages at once, in any order', () => {
  const lists = Array.from({ length: 10 }, (_, at) => many(500 + at, `list ${at}`));
  const open = lists.map(({ data }) => ({ read: readList(cut(data, 1 + randomInt(9000)), 'sha256'), found: [] }));
  const message = createHash('blake3');
  let text = '';
  let left = open;
  while (left.length) {
    const one = left[randomInt(left.length)];
    for (let steps = randomInt(300); steps >= 0; steps--) {
      const { done, value } = one.read.next();
      if (done) left = left.filter((it) => it !== one);
      else one.found.push(value);
    }
    text += left.length;
    message.update(String(left.length));
    if (left.length) assert.equal(formatLine('sha256', ABC, `${left.length}`), `${ABC}  ${left.length}\n`);
  }
  for (const [at, { found }] of open.entries()) assert.deepEqual(found, lists[at].entries);
  assert.equal(message.digest('hex'), hash('blake3', text));
});

test('a list that is given up, taken away, or whose source fails', async () => {
  const { data } = many(3000, 'x');
  let isClosed = false;
  function* pieces() {
    try {
      yield* cut(data, 100);
    } finally {
      isClosed = true;
    }
  }
  for (const it of readList(pieces(), 'sha256')) if (it.line === 5) break;
  assert.ok(isClosed);
  const stream = new ReadableStream({ pull: (it) => it.enqueue(data), cancel() { isClosed = 'cancelled'; } });
  for await (const it of readList(stream, 'sha256')) if (it.line === 5) break;
  assert.equal(isClosed, 'cancelled');
  function* failing() { yield data; throw new Error('in the middle'); }
  assert.throws(() => [...readList(failing(), 'sha256')], /in the middle/);
  const taken = data.slice();
  const read = readList(taken, 'sha256');
  read.next();
  structuredClone(taken.buffer, { transfer: [taken.buffer] });
  assert.throws(() => [...read], { name: 'TypeError', message: 'the list was taken away while it was read' });
  assert.equal([...readList(data, 'sha256')].length, 3000);
});

/** Calls on the way back from where the stack ran out, one more frame free each time. */
function deep(call) {
  try {
    deep(call);
  } catch {
    // there is no stack to say anything
  }
  call();
}

test('a stack that runs out ends the list that it meets, and loses no line of another', () => {
  const { data, entries } = many(200, 'deep');
  const digests = entries.map((it) => it.digest).join();
  const seen = { right: 0, ended: 0, wrong: 0 };
  for (let round = 0; round < 5; round++) {
    const bystander = readList(cut(data, 999), 'sha256');
    const first = [bystander.next().value, bystander.next().value];
    let frames = 0;
    const attempt = () => {
      if (frames++ > 60) return;
      try {
        const found = [...readList(cut(data, 5000), 'sha256')].map((it) => it.digest).join();
        seen[found === digests ? 'right' : 'wrong']++;
      } catch (error) {
        seen[error instanceof RangeError ? 'ended' : 'wrong']++;
      }
    };
    try {
      deep(attempt);
    } catch (error) {
      if (!(error instanceof RangeError)) throw error;
    }
    assert.deepEqual([...first, ...bystander], entries);
  }
  assert.ok(seen.right > 0 && seen.ended > 0 && seen.wrong === 0, JSON.stringify(seen));
});

test('lines of every length about the longest', () => {
  for (let length = 65530; length <= 65540; length++) {
    const name = 'n'.repeat(length - 66);
    for (const size of [1000, 65536, 2 ** 20]) {
      const found = [...readList(cut(bytes(`${ABC}  ${name}\n${ABC}  a`), size), 'sha256', { malformed: 'yield' })];
      assert.deepEqual(found.map((it) => it.name), [length <= 65536 ? name : null, 'a']);
      assert.deepEqual(found.map((it) => it.line), [1, 2]);
    }
  }
});
