// The page's reading of lists and its verdicts, and those of the package's `check`, beside those of `sums check`:
// random lists over a folder of files, and lines at the limits.
// usage: node tests/languages/web/lists.mjs PROGRAM PACKAGE [ROUNDS]    PACKAGE is the folder of the package, with its module
import { spawnSync } from 'node:child_process';
import { mkdirSync, mkdtempSync, readFileSync, rmSync, writeFileSync } from 'node:fs';
import { tmpdir } from 'node:os';
import { join, posix, resolve } from 'node:path';
import { pathToFileURL } from 'node:url';
import { keyOf } from '../../../web/functions.js';
import { readList } from '../../../web/lists.js';
import { shown } from '../../../web/names.js';
import { Place, Places } from '../../../web/places.js';
import { concluded, settle } from '../../../web/judging.js';
import { jobsOf, planOf } from '../../../web/plan.js';

const [program, folder, rounds = '400'] = process.argv.slice(2);
const library = await import(pathToFileURL(resolve(folder, 'node.js')));
const { check, formatReport, hash } = library;
const KINDS = [null, 'sha256', 'sha512', 'blake2b', 'blake2s', 'blake3'];
const AT_ONCE = 100; // lists in a run of the program
/** What the program says of a list, by its name in the table. */
const MESSAGES = Object.fromEntries(readFileSync(new URL('../../tables/messages.tsv', import.meta.url), 'utf8')
  .split('\n').filter((line) => line && !line.startsWith('#')).map((line) => line.split('\t')));

// ---- what is drawn

let seed = Number(process.env.SEED ?? Math.floor(Math.random() * 2 ** 31));
const first = seed;
/** A number below a bound (mulberry32). */
function below(bound) {
  seed = (seed + 0x6d2b79f5) | 0;
  let t = Math.imul(seed ^ (seed >>> 15), 1 | seed);
  t = (t + Math.imul(t ^ (t >>> 7), 61 | t)) ^ t;
  return ((t ^ (t >>> 14)) >>> 0) % bound;
}
const oneOf = (all) => all[below(all.length)];
const often = (value, ...others) => (below(4) ? value : oneOf(others));
const digits = (count) => Array.from({ length: count }, () => oneOf('0123456789abcdefABCDEF')).join('');

/** The files of the folder. */
const FILES = new Map(Object.entries({
  a: 'one', 'b c': 'two', 'sub/x': 'three', 'sub/deep/y': '', 'ü': 'four', 'new\nline': 'five', 'back\\slash': 'six',
  '(x) = y': 'seven', '-': 'eight', ' a': 'nine', '*a': 'ten', '#': 'eleven', '\ufeffa': 'twelve', 'a\r': 'thirteen',
  '\u202ea': 'fourteen', n: 'fifteen',
}));
/** Other names of some of them. */
const OTHERS = new Map(Object.entries({
  './a': 'a', 'sub/../a': 'a', 'sub//x': 'sub/x', './/a': 'a', 'sub/deep/../x': 'sub/x', 'sub/./x': 'sub/x',
}));
const NO_FILES = [
  'none/../a', 'sub/none', '/none', '../none', 'a/b', 'a/', 'a/.', 'sub', 'sub/', './', 'sub/..', 'sub/deep/../../sub',
];
const PATHS = [...FILES.keys(), ...OTHERS.keys(), ...NO_FILES];
const ESCAPES = { '\\': '\\\\', '\n': '\\n', '\r': '\\r' };
const WRITTEN = PATHS.map((it) => it.replace(/[\\\n\r]/g, (special) => ESCAPES[special]));
// what no name is: as bytes, of which some are no UTF-8
const NO_NAMES = ['\xff', '\xed\xa0\x80', '\xf4\x90\x80\x80', '\xc0\x80'];
const ODD = [
  'a) = b', 'a\\b', 'a\\\\b', 'a\\nb', 'a\\rb', 'a\\', '\\', '\\\\', '\\n', 'a\0b', 'a\rb', '', '\x7f', '\u2028',
  '__proto__', 'toString', ...NO_NAMES,
];
const LABELS = [
  'SHA256', 'SHA512', 'BLAKE3', 'BLAKE2b', 'BLAKE2s', 'BLAKE2b-512', 'BLAKE2b-256', 'BLAKE2b-8', 'BLAKE2b-08',
  'BLAKE2b-12', 'BLAKE2b-520', 'BLAKE2b-0', 'BLAKE2b-', 'BLAKE2s-256', 'BLAKE2s-128', 'BLAKE2s-264', 'BLAKE2s-008',
  'sha256', 'BLAKE3-256', 'SHA256-256', 'toString', '__proto__', '', 'BLAKE2b-+8', 'BLAKE2b-8 ', 'BLAKE2b-1e2',
];
const LENGTHS = [0, 1, 2, 3, 16, 32, 62, 63, 64, 65, 66, 96, 126, 127, 128, 129, 130];
const FUNCTIONS = {
  SHA256: ['sha256', 32], SHA512: ['sha512', 64], BLAKE3: ['blake3', 32], BLAKE2b: ['blake2b', 64],
  BLAKE2s: ['blake2s', 32], 'BLAKE2b-256': ['blake2b', 32], 'BLAKE2b-8': ['blake2b', 1], 'BLAKE2s-128': ['blake2s', 16],
};

const bytesOf = (text) => Buffer.from(text, NO_NAMES.includes(text) ? 'latin1' : 'utf8');

function drawnName() {
  return below(3) ? oneOf(WRITTEN) : oneOf([...PATHS, ...ODD]);
}

/** The digest of a file of the folder, or of something else. */
function drawnDigest(name, hashName, length) {
  const path = PATHS[WRITTEN.indexOf(name)] ?? name;
  const content = FILES.get(OTHERS.get(path) ?? path) ?? 'else';
  const right = hash(hashName, below(3) ? content : 'another', { outputLength: length });
  return below(4) ? right : right.toUpperCase();
}

/** A line that is an entry, in most cases. */
function entry(kind) {
  const name = drawnName();
  const escape = /\\/.test(name) || below(8) === 0 ? '\\' : '';
  if (kind && below(2)) {
    const [, length] = Object.values(FUNCTIONS).find(([it]) => it === kind);
    return [escape, drawnDigest(name, kind, length), often('  ', ' *'), name, often('', '\r')];
  }
  const label = oneOf(Object.keys(FUNCTIONS));
  return [escape, `${label} (`, name, ') = ', drawnDigest(name, ...FUNCTIONS[label]), often('', '\r')];
}

/** A line of parts that do not fit, in most cases. */
function oddity() {
  const begin = often('', '\\', '#', ' ');
  const end = often('', '\r', '\r\r', ' ');
  const untagged = () => [digits(oneOf(LENGTHS)), often(' ', '', '  '), oneOf([' ', '*', ' ', '', '(']), drawnName()];
  const equals = often(') = ', ')= ', ') =', ')  = ');
  const tagged = () => [oneOf(LABELS), often(' (', '(', '  ( '), drawnName(), equals, digits(oneOf(LENGTHS))];
  return [begin, ...(below(2) ? untagged() : tagged()), end];
}

/** The bytes of a line, now and then with some of them changed. */
function line(kind) {
  let bytes = Buffer.concat((below(3) ? entry(kind) : oddity()).map(bytesOf));
  for (let changes = below(8) - 5; changes > 0; changes--) {
    const at = below(bytes.length + 1);
    const other = oneOf([' ', '\\', '(', ')', '=', '0', 'g', '\r', '\0', '#', '*', '\n']);
    bytes = Buffer.concat([bytes.subarray(0, at), Buffer.from(other), bytes.subarray(at + below(2))]);
  }
  return bytes;
}

/** Up to 40 lines, of which the last may have no end. */
function drawnList(kind) {
  const lines = Array.from({ length: below(40) }, () => [line(kind), Buffer.from('\n')]).flat();
  return Buffer.concat(below(2) ? [...lines, line(kind)] : lines);
}

/** Lines about the longest that there are. */
function edges() {
  const slashes = (count) => '\\'.repeat(count);
  const counts = [32732, 32733, 32734, 32735, 32736];
  const escaped = counts.flatMap((it) => [slashes(it), `${slashes(it)}x`, slashes(2 * it)]);
  const long = [65449, 65450, 65451, 65452, 65453, 65469, 65470, 65471, 65536].map((it) => 'n'.repeat(it));
  const lines = [
    ...escaped.flatMap((it) => [`SHA256 (${it}) = ${digits(64)}`, `\\SHA256 (${it}) = ${digits(64)}`]),
    ...long.flatMap((it) => [`SHA256 (${it}) = ${digits(64)}`, `${digits(64)}  ${it}`, `#${it}`, `${it}\r`]),
    'BLAKE2b-12 (a) = abc', 'BLAKE2b-4 (a) = a', 'BLAKE2s-12 (a) = abc', '', '#', '\\', '\\\\', '\\#', '\r', '\r\r',
    ' ', '(', 'SHA256 (', 'SHA256 () = ', ') = ', '\0',
  ];
  return Buffer.from(lines.join('\n'));
}

// ---- what both say

/** A line of the report as the page shows the name. */
function shownLine(reported) {
  const found = /^(.*): (OK|FAILED|MISSING|UNREADABLE|MALFORMED)$/s.exec(reported);
  if (found[2] === 'MALFORMED') return reported;
  const name = found[1].replace(/\\[\\nr]/g, (it) => ({ '\\\\': '\\', '\\n': '\n', '\\r': '\r' })[it]);
  // what no file of a system can be called cannot be added to the page
  const isTooLong = name.split('/').some((part) => Buffer.byteLength(part) > 255);
  // nor can what lies outside the folder, which `sums check` finds
  const isOutside = found[2] === 'UNREADABLE' && (name.startsWith('/') || /^\.\.(\/|$)/.test(posix.normalize(name)));
  return `${shown(name)}: ${isTooLong || isOutside ? 'MISSING' : found[2]}`;
}

/** What the program reports of lists, and which of them have no entries. */
function ofProgram(kind, names) {
  const run = spawnSync(program, ['check', ...(kind ? ['-a', kind] : []), ...names], { cwd: work, maxBuffer: 2 ** 30 });
  const report = run.stdout.toString().split('\n').slice(0, -1).map(shownLine);
  const remarks = run.stderr.toString().split('\n').filter((it) => it.endsWith(`: ${MESSAGES['no entries']}`));
  return { report, remarks: remarks.map((it) => it.replace(/^sums: /, '')), out: run.stdout };
}

/** A list in pieces of drawn lengths. */
function* inPieces(bytes) {
  for (let at = 0; at < bytes.length;) {
    const length = 1 + below(oneOf([3, 100, 70000]));
    yield bytes.subarray(at, at + length);
    at += length;
  }
}

/** The report of the package on lists, as the program writes it. */
async function ofPackage(kind, lists) {
  let out = '';
  for (const [name, bytes] of lists) {
    const { rows } = await check(inPieces(bytes), (it) => readFileSync(`${work}/${it}`), { hash: kind });
    for (const row of rows) out += `${row.name === null && lists.length > 1 ? `${name}: ` : ''}${formatReport(row)}`;
  }
  return out;
}

/** The rows of the page, which was given the folder with these lists, and which of them have no entries. */
async function ofPage(kind, lists) {
  const place = new Place('top', 1, true);
  const places = new Places();
  for (const [path, content] of FILES) place.add(path, { content });
  for (const [name] of lists) place.add(name, {});
  await places.add([place]);
  const added = lists.map(([name, bytes], at) => {
    const item = place.items.get(name);
    item.list = { id: at, name, item, selection: 1, read: readList(library, name, bytes, kind) };
    return item.list;
  });
  const plan = planOf({ places, lists: added, digests: [], chosen: kind });
  for (const job of jobsOf(plan.rows)) {
    const digestOf = (it) => hash(it.hash, job.item.file.content, { outputLength: it.length });
    const digests = new Map(job.functions.map((it) => [keyOf(it), digestOf(it)]));
    job.item.reading = { digests };
    for (const row of job.rows) settle(row, { digests });
  }
  const remarks = plan.notes.filter((it) => it.endsWith(`: ${MESSAGES['no entries']}.`)).map((it) => it.slice(0, -1));
  return { plan, rows: plan.rows.filter((it) => it.list), remarks };
}

/** A row of the page as the line of a report. */
function reported(row, lists) {
  const before = row.result === 'MALFORMED' && lists.length > 1 ? `${shown(row.list.name)}: ` : '';
  return `${before}${row.label}: ${row.result}`;
}

const endOf = (line) => line?.slice(line.lastIndexOf(': '));

/** The lines of the page, as the program should have them. */
function compared(kind, lists, theirs, ours) {
  if (kind) return ours.rows.map((row, at) => [reported(row, lists), theirs.report[at]]);
  const names = lists.map(([name]) => name);
  const reports = Object.fromEntries(KINDS.filter(Boolean).map((it) => [it, ofProgram(it, names).report]));
  return ours.rows.map((row, at) => {
    // what the program finds malformed without a hash, and the page does not
    const isOpen = endOf(theirs.report[at]) === ': MALFORMED' && row.result !== 'MALFORMED';
    if (!isOpen) return [reported(row, lists), theirs.report[at]];
    // a row that is settled without a file has no functions: each hash says the same of it
    const kinds = row.of?.map((it) => it.hash) ?? KINDS.filter((it) => it && !reports[it][at].endsWith(': MALFORMED'));
    const all = kinds.map((it) => reports[it][at]);
    // what is FAILED by each hash is no more than NO MATCH, since it may be of another one
    return [reported(row, lists), all.find((it) => it.endsWith(': OK')) ?? all[0].replace(/: FAILED$/, ': NO MATCH')];
  });
}

/** Compares the two, and tells the first line that differs. */
async function differs(kind, lists) {
  const [theirs, ours] = [ofProgram(kind, lists.map(([name]) => name)), await ofPage(kind, lists)];
  const lines = compared(kind, lists, theirs, ours);
  const wrong = lines.find(([page, wanted]) => page !== wanted) ??
    (lines.length === theirs.report.length ? null : [`${lines.length} lines`, `${theirs.report.length} lines`]) ??
    (ours.remarks.join() === theirs.remarks.join() ? null : [ours.remarks.join(), theirs.remarks.join()]);
  if (wrong) {
    const [got, wanted] = wrong.map((it) => JSON.stringify(it)?.slice(0, 200));
    console.log(`${kind}: sums check ${wanted}, the page ${got}`);
  }
  for (const { result } of ours.rows) results[result] = (results[result] ?? 0) + 1;
  return wrong !== null || differsFromPackage(kind, lists, theirs);
}

async function differsFromPackage(kind, lists, theirs) {
  const [got, wanted] = [await ofPackage(kind, lists), theirs.out.toString()].map((it) => it.split('\n'));
  const at = wanted.findIndex((it, line) => it !== got[line]);
  const isSame = at < 0 && got.length === wanted.length;
  if (!isSame) console.log(`${kind}: sums check ${wanted[at]?.slice(0, 200)}, the package ${got[at]?.slice(0, 200)}`);
  return !isSame;
}

/** Lists of several hashes that name none, their lines `[kind, name, content]`, and the results of the page. */
const MIXED = {
  'one of two hashes of one length': [
    [['blake3', 'a', 'one'], ['sha256', 'b c', 'two'], ['sha256', 'sub/x', 'three']], ['NO MATCH', 'OK', 'OK']],
  'one of two hashes of one length, as often': [
    [['blake3', 'a', 'one'], ['sha256', 'b c', 'two']], ['NO MATCH', 'NO MATCH']],
  'one of two hashes of two lengths': [
    [['sha256', 'a', 'one'], ['sha512', 'a', 'one'], ['sha512', 'b c', 'two']], ['OK', 'OK', 'OK']],
  'one wrong line of each length': [
    [['sha256', 'a', 'one'], ['sha256', 'b c', 'x'], ['sha512', 'a', 'one'], ['sha512', 'sub/x', 'x']],
    ['OK', 'FAILED', 'OK', 'FAILED']],
  'two digests of one file, one of which is of no hash': [
    [['sha256', 'a', 'one'], ['sha256', 'a', 'x'], ['sha256', 'b c', 'x']], ['OK', 'NO MATCH', 'FAILED']],
  'no right line': [[['sha256', 'a', 'x'], ['sha512', 'b c', 'x']], ['NO MATCH', 'NO MATCH']],
};

/** Whether the page judges a list of several hashes otherwise, or calls OK what `sums check` never does. */
async function differsMixed([what, [lines, wanted]]) {
  const bytes = Buffer.from(lines.map(([kind, name, content]) => `${hash(kind, content)}  ${name}\n`).join(''));
  writeFileSync(join(work, 'mixed'), bytes);
  const { plan } = await ofPage(null, [['mixed', bytes]]);
  const rows = concluded(plan).filter((it) => it.list);
  const reports = KINDS.filter(Boolean).map((it) => ofProgram(it, ['mixed']).report);
  const isOk = (row, at) => row.result !== 'OK' || reports.some((it) => it[at] === `${row.label}: OK`);
  const got = rows.map((it, at) => (isOk(it, at) ? it.result : 'an OK of the page alone'));
  const isSame = got.join() === wanted.join();
  if (!isSame) console.log(`${what}: ${got}, not ${wanted}`);
  return !isSame;
}

const work = mkdtempSync(join(tmpdir(), 'lists-'));
const results = {};
let different = 0;
let written = 0;
try {
  for (const [path, content] of FILES) {
    mkdirSync(join(work, path, '..'), { recursive: true });
    writeFileSync(join(work, path), content);
  }
  for (const it of Object.entries(MIXED)) different += await differsMixed(it);
  for (const kind of KINDS) {
    for (let left = Number(rounds); left > 0; left -= AT_ONCE) {
      const lists = Array.from({ length: Math.min(left, AT_ONCE) }, () => [`list ${written++}`, drawnList(kind)]);
      lists.push([`list ${written++}`, edges()]);
      for (const [name, bytes] of lists) writeFileSync(join(work, name), bytes);
      different += await differs(kind, lists);
    }
  }
} finally {
  rmSync(work, { recursive: true });
}
const told = Object.entries(results).map(([result, count]) => `${count} ${result}`);
console.log(`SEED=${first}: ${written} lists, ${told.join(', ')}`);
process.exit(different ? 1 : 0);
