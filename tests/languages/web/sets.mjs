// The page's sets of files on a disk that changes: folders and files of one name are added in any order, by an input or
// dropped, changed, removed and added again; the browser refuses some of what is dropped. A row is OK only where its
// file is right on the disk by now, in the folder of its list if that was added with a folder, and where no other file
// may be meant; and nothing is green while something was refused or is not judged.
// usage: node tests/languages/web/sets.mjs PACKAGE [ROUNDS]    PACKAGE is the folder of the package, with its module
import { join, posix, resolve } from 'node:path';
import { pathToFileURL } from 'node:url';
import { Disk, Page } from './driven.mjs';

const [folder, rounds = '300'] = process.argv.slice(2);
const library = await import(pathToFileURL(resolve(join(folder, 'node.js'))));
const { hash } = library;

let seed = Number(process.env.SEED ?? Math.floor(Math.random() * 2 ** 31));
const first = seed;
/** A number below a bound (mulberry32). */
function below(bound) {
  seed = (seed + 0x6d2b79f5) | 0;
  let t = Math.imul(seed ^ (seed >>> 15), 1 | seed);
  t = (t + Math.imul(t ^ (t >>> 7), 61 | t)) ^ t;
  return ((t ^ (t >>> 14)) >>> 0) % bound;
}
const oneOf = (all) => all[below(all.length)];
const some = (most, draw) => Array.from({ length: 1 + below(most) }, draw);

// ---- what happens

const TEXTS = ['good', 'evil', 'good!', ''];
const TOPS = ['/x', '/y'];
const FOLDERS = [
  'dist', 'dist', 'dist', 'dist/p/q', 'dist/p\\q', 'rel', 'p\\q', 'p/q', 'p', 'dist/p', 'dist/p/q\\r', 'dist/p\\q/r',
  'dist (2)', '\\p',
];
const FILES = ['a', 'a', 'b', 'A', 'e\u0301', '\u00e9', 'c\\d', 'a.', 'q', 'q\\a', 'a (2)', 'a (1)'];
const NAMES = [
  ...FILES, 'p/q/a', 'p/q/b', '../a', './a', 'p\\q/a', 'dist/a', 'p/../b', '../p/q/a', '../../a', 'dist/p/q/a', 'p/q',
  'dist/../a', '../dist/a', 'q/a', 'dist (2)/a', 'dist//a', '/x/dist/a',
];

let now; // the disk, the page over it, what was added, and the steps so far

function line(digest, name) {
  const body = name.replaceAll('\\', '\\\\');
  return `${body === name ? '' : '\\'}${digest}  ${body}\n`;
}

/** Writes a file, unless a folder has its path, or it a folder's. An unpacked archive may set the time. */
function write(path, text) {
  const { disk, steps } = now;
  const isTaken = [...disk.files.keys()].some((it) => it.startsWith(`${path}/`) || path.startsWith(`${it}/`));
  if (isTaken) return;
  disk.write(path, text, ...(below(4) ? [] : [1]));
  steps.push(`write ${path} ${brief(text)} at ${disk.files.get(path).time}`);
}

/** A text in one line, with the first digits of each digest. */
const brief = (text) => JSON.stringify(text.replace(/[0-9a-f]{64}/g, (it) => it.slice(0, 4)));

const anyFile = () => oneOf([...now.disk.files.keys()]);
const anyFolder = () => oneOf(now.disk.folders);
const anyPath = () => `${oneOf(TOPS)}/${oneOf(FOLDERS)}/${oneOf(FILES)}`;

/** The lines of a list in a folder, of files that are there in most cases. */
function linesIn(top) {
  const right = (real) => line(hash('sha256', now.disk.files.get(real).bytes), real.slice(top.length + 1));
  const any = () => line(hash('sha256', oneOf(TEXTS)), oneOf(NAMES));
  return some(4, () => (below(3) ? right(oneOf(now.disk.inside(top))) : any())).join('');
}

function writeList() {
  const top = below(3) ? posix.dirname(anyFile()) : anyFolder();
  write(`${top}/${below(4) ? 'SHA256SUMS' : 'a.sha256'}`, linesIn(top));
}

/** Each way to add something: what, and the files that come of it. */
const WAYS = {
  folder: { things: () => [anyFolder()], add: ([top]) => now.page.add(now.disk.folderInput(top)) },
  files: { things: () => some(3, anyFile), add: (paths) => now.page.add(now.disk.input(...paths), !below(6)) },
  drop: {
    things: () => some(3, () => (below(2) ? anyFile() : anyFolder())),
    async add(paths) {
      const isTop = (it) => paths.includes(it) && !now.disk.files.has(it);
      now.disk.closed = new Set(below(4) ? [] : [below(2) ? oneOf(paths) : anyFile()]);
      if (now.disk.closed.size) now.steps.push(`closed: ${[...now.disk.closed].join(' ')}`);
      for (const it of now.disk.closed) if (isTop(it)) now.refused.add(posix.basename(it));
      const files = await now.page.drop(now.disk.drop(...paths));
      now.disk.closed = new Set();
      return files;
    },
  },
};

async function add() {
  const how = oneOf(Object.keys(WAYS));
  const things = [...new Set(WAYS[how].things())];
  now.steps.push(`${how} ${things.join(' ')}`);
  now.selection++;
  const files = await WAYS[how].add(things);
  for (const file of files) Object.assign(file, { how, beside: files, selection: now.selection });
  now.added.push(...files);
}

/** Pastes a list, or a digest. */
async function paste() {
  const text = below(3) ? linesIn(anyFolder()) : hash('sha256', oneOf(TEXTS));
  now.steps.push(`paste ${brief(text)}`);
  await now.page.give('paste', text);
}

async function removeThing() {
  if (!now.added.length || !now.page.things.length) return;
  const thing = oneOf(now.page.things);
  now.steps.push(`remove ${thing.label}`);
  now.hasRemoved = true;
  await now.page.give('remove', thing.id);
}

// ---- what has to be so

const nameOf = ({ label }) => label.replaceAll('\\\\', '\\');
const digestOf = ({ bytes }) => hash('sha256', bytes);
/** The folder that was added, whose name may begin with a slash in Chromium. */
const topOf = (given) => /^\/*[^/]*/.exec(given)[0];

/** Why a row is wrong, or nothing: it says what the file is by now. */
function wrong(row) {
  const held = now.disk.files.get(row.item?.file?.real);
  const digest = held && digestOf(held);
  if (row.result === 'DIGEST') return row.detail[1].code === digest ? '' : 'the file has another digest by now';
  if (row.result === 'FAILED') return row.digest === digest ? 'the file is right by now' : '';
  if (row.result === 'OK') return row.digest === digest ? wrongName(row) : 'the file is another one by now';
  return isWeak(row) ? 'its file was added with its list' : '';
}

/** Why an OK is one of another file. */
function wrongName(row) {
  const { list, digest } = row;
  if (!list) return '';
  if (!list.item) return wrongByItself(row);
  if (!list.item.file.held.bytes.includes(line(digest, nameOf(row)))) return 'its list has no such line';
  return list.item.place.isFolder ? wrongInFolder(row) : wrongByItself(row);
}

/** Of a list in a folder: names count from its folder, or from the top of what was added, and the row says so. */
function wrongInFolder(row) {
  const [{ file }, list] = [row.item, row.list.item.file];
  const starts = (path, top) => (row.remark ? [posix.dirname(path), top] : [posix.dirname(path)]);
  const isAt = (path, from) => path === posix.normalize(`${from}/${nameOf(row)}`);
  if (starts(list.real, list.top).some((it) => isAt(file.real, it))) return '';
  // Chromium has changed the name of a folder, and no two files have the path that comes of it
  const isChanged = [file, list].some((it) => it.how === 'folder' && it.given !== it.path);
  const isOne = file.beside.filter((it) => it.given === file.given).length === 1;
  const isGiven = starts(list.given, topOf(list.given)).some((it) => isAt(file.given, it));
  return isChanged && isOne && isGiven ? '' : 'another file has its path';
}

/** Each way in which a list by itself means a file, by the file's path: as it stands, below a folder, or by its end. */
const MEANINGS = [
  (given, path) => given === path,
  (given, path) => given.slice(topOf(given).length + 1) === path,
  (given, path) => given === posix.basename(path),
];

/** Of a list by itself: a file that was added with it is meant before any other, and of several others none. */
function wrongByItself(row) {
  const { item: { file }, list, digest, remark } = row;
  const path = posix.normalize(nameOf(row));
  const way = MEANINGS.findIndex((it) => it(file.given, path));
  if (way < 0 || (way > 0 && !remark)) return 'another file has its name';
  const isEnd = (it) => it.list === list && posix.basename(nameOf(it)) === file.given && nameOf(it) !== nameOf(row);
  if (way === 2 && now.page.rows.some(isEnd)) return 'several names of the list end so';
  // what was removed on the page is not kept here
  if (now.hasRemoved) return '';
  const all = now.added.filter((it) => MEANINGS[way](it.given, path));
  const own = way === 0 ? all.filter((it) => it.selection === list.item?.file.selection) : [];
  const isOther = (it) => digestOf(it.held) !== digest;
  if (own.length) return own.every((it) => it.isThere) && own.some(isOther) ? 'another file came with its list' : '';
  return all.some((it) => it.isThere && isOther(it)) ? 'several files may be meant' : '';
}

/** Whether a row that has no verdict should have one: its file was added just now with its list, in a folder. */
function isWeak(row) {
  if (!row.list?.item) return false;
  const { place, file } = row.list.item;
  const isOfNow = place.isFolder && file.selection === now.selection;
  if (!isOfNow || file.beside.some((it) => it.given !== it.path)) return false;
  const path = `${posix.dirname(file.real)}/${nameOf(row)}`;
  return file.beside.some((it) => it.real === path && it.top === file.top && it.isThere);
}

/** What is wrong in the rows, and in what else is shown. */
function* wrongs() {
  const { page } = now;
  if (page.isBroken) yield `broken: ${page.isBroken}`;
  for (const row of page.rows) {
    const why = wrong(row);
    const by = row.list ? ` by ${row.list.name}` : '';
    if (why) yield `${row.label}: ${row.result}${by}, ${row.item?.file?.real ?? 'no file'}: ${why}`;
  }
  const isOld = ({ real, held }) => !now.disk.files.get(real)?.bytes.equals(held.bytes);
  const hasOld = page.rows.some(({ list }) => list?.item && isOld(list.item.file));
  if (page.verdict.state === 'ok' && hasOld) yield 'green, with a list that has changed';
  if (page.verdict.state === 'ok') yield* notJudged();
  const labels = page.things.map(({ label, kind }) => `${/^(a folder|not handed over)/.test(kind)} ${label}`);
  if (new Set(labels).size < labels.length) yield `two things of one name: ${labels.join(', ')}`;
}

/** What was not judged: what was refused and not removed, and what has no OK in its row. */
function* notJudged() {
  const { page, refused, hasRemoved } = now;
  const isThere = (name) => page.things.some((it) => it.label.replace(/ \(\d+\)$/, '') === shownName(name));
  for (const name of refused) if (!hasRemoved && !isThere(name)) yield `green, and ${name} that was refused is gone`;
  const rest = page.things.find(({ kind }) => kind === 'not handed over');
  if (rest) yield `green, and ${rest.label} was refused`;
  const other = page.rows.find(({ result, item }) => item && result !== 'OK');
  if (other) yield `green, and ${other.label} is ${other.result}`;
}

const shownName = (name) => name.replaceAll('\\', '\\\\');

let judged = 0;
let found = 0;
const counts = {};

function judge() {
  for (const { result } of now.page.rows) counts[result] = (counts[result] ?? 0) + 1;
  judged += now.page.rows.filter((it) => it.result === 'OK').length;
  const { browser, steps } = now;
  for (const what of wrongs()) if (++found < 5) console.log(`wrong in ${browser}: ${what}\n  ${steps.join('\n  ')}`);
}

function deleteFile() {
  if (now.disk.files.size < 2) return;
  const path = anyFile();
  now.steps.push(`delete ${path}`);
  now.disk.files.delete(path);
}

const ON_DISK = [() => write(anyFile(), oneOf(TEXTS)), () => write(anyPath(), oneOf(TEXTS)), writeList, deleteFile];

/** One thing that happens, on the disk or on the page, where in most cases something is added. */
async function step() {
  if (below(5) < 2) return oneOf(ON_DISK)();
  await ([removeThing, paste][below(20)] ?? add)();
  if (now.added.length) judge();
}

for (let left = Number(rounds); left > 0; left--) {
  const browser = oneOf(['chromium', 'firefox']);
  const disk = new Disk(browser);
  now = { browser, disk, page: new Page(library, disk), steps: [], added: [], selection: 0 };
  Object.assign(now, { hasRemoved: false, refused: new Set() });
  some(12, () => write(anyPath(), oneOf(TEXTS)));
  some(3, writeList);
  for (let steps = 3 + below(8); steps > 0; steps--) await step();
}
const results = Object.entries(counts).map(([result, count]) => `${count} ${result}`);
console.log(`SEED=${first}: ${rounds} disks, ${judged} OK of files on the disk, ${found} wrong; ${results.join(', ')}`);
process.exit(found ? 1 : 0);
