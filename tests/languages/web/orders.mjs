// Files and folders that change, and that are added again, in each order that matters: the rows in the end. A file is
// OK only as it is now, and a name that may mean two files means none. A command loses nothing of the one before it.
// usage: node tests/languages/web/orders.mjs PACKAGE    PACKAGE is the folder of the package, with its module
import { join, posix, resolve } from 'node:path';
import { pathToFileURL } from 'node:url';
import { chosen } from '../../../web/gather.js';
import { ofAddress } from '../../../web/given.js';
import { Disk, Page } from './driven.mjs';

const [folder] = process.argv.slice(2);
const library = await import(pathToFileURL(resolve(join(folder, 'node.js'))));
const { hash } = library;

const LONG = 2 ** 20 + 1; // bytes, of a file that is not read as a whole
const SEVERAL = 'several files of this name were added: remove all but one';

/** A disk and the page over it. A file is `good` or `evil`, which have one length. */
class Run {
  constructor(browser) {
    this.isFirefox = browser === 'firefox';
    this.disk = new Disk(browser);
    this.page = new Page(library, this.disk);
  }

  write(path, text, time) {
    this.disk.write(path, text, time);
  }

  /** Writes files that are good, or evil where `evil` has their name, and a list of them all as good. */
  folder(top, names, evil = []) {
    for (const name of names) this.write(`${top}/${name}`, evil.includes(name) ? 'evil' : 'good');
    this.list(`${top}/SHA256SUMS`, ...names);
  }

  list(path, ...names) {
    const escaped = names.map((it) => it.replaceAll('\\', '\\\\'));
    const line = (it, at) => `${it === names[at] ? '' : '\\'}${hash('sha256', 'good')}  ${it}\n`;
    this.write(path, escaped.map(line).join(''));
  }

  remove(...paths) {
    for (const path of paths) this.disk.files.delete(path);
  }

  files(...paths) {
    return this.page.add(this.disk.input(...paths));
  }

  input(top) {
    return this.page.add(this.disk.folderInput(top));
  }

  drop(...paths) {
    return this.page.drop(this.disk.drop(...paths));
  }
}

// ---- what a verdict is of

const CHANGES = {
  async 'a file of a folder, which keeps its size and its time'(run) {
    run.folder('/x/dist', ['A']);
    run.write('/x/dist/A', 'good', 1);
    run.write('/x/other', 'other');
    await run.input('/x/dist');
    run.write('/x/dist/A', 'evil', 1);
    await run.files('/x/other');
    return ['A: FAILED', 'other: NOT LISTED'];
  },
  async 'a file by itself, which keeps its size and its time'(run) {
    run.write('/y/b', 'good', 1);
    run.list('/x/dist/SHA256SUMS', 'b');
    await run.files('/y/b');
    await run.files('/x/dist/SHA256SUMS');
    run.write('/y/b', 'evil', 1);
    await run.input('/x/dist');
    return ['b: FAILED by SHA256SUMS', 'b: MISSING by dist/SHA256SUMS'];
  },
  async 'a file that grows, and keeps its time'(run) {
    run.folder('/x/dist', ['a']);
    run.write('/x/dist/a', 'good', 1);
    run.write('/x/other', 'other');
    await run.input('/x/dist');
    run.write('/x/dist/a', 'good and more', 1);
    await run.files('/x/other');
    return ['a: UNREADABLE', 'other: NOT LISTED'];
  },
  async 'a file that is good by then'(run) {
    run.folder('/x/dist', ['a'], ['a']);
    run.write('/x/dist/a', 'evil', 1);
    run.write('/x/other', 'other');
    await run.input('/x/dist');
    run.write('/x/dist/a', 'good', 1);
    await run.files('/x/other');
    return ['a: OK', 'other: NOT LISTED'];
  },
  async 'a long file, which becomes shorter'(run) {
    run.write('/x/a', 'x'.repeat(LONG), 1);
    run.write('/x/SHA256SUMS', `${hash('sha256', 'x'.repeat(LONG))}  a\n`);
    run.write('/x/other', 'other');
    await run.files('/x/a', '/x/SHA256SUMS');
    if (run.page.verdict.text !== 'a: OK') return ['a: OK at first'];
    run.write('/x/a', 'x'.repeat(LONG - 1), 1);
    await run.files('/x/other');
    return ['a: UNREADABLE', 'other: NOT LISTED'];
  },
  async 'a long file, which keeps its size and its time, and a new list'(run) {
    const held = 'x'.repeat(LONG);
    run.write('/x/a', held, 1);
    run.write('/x/SHA256SUMS', `${hash('sha256', held)}  a\n`);
    run.write('/x/a.sha256', `${hash('sha256', held)}  a\n`);
    await run.files('/x/a', '/x/SHA256SUMS');
    run.write('/x/a', `y${held.slice(1)}`, 1);
    await run.files('/x/a.sha256');
    return ['a: FAILED by SHA256SUMS', 'a: FAILED by a.sha256'];
  },
  async 'a list, which keeps its size and its time'(run) {
    run.write('/x/a', 'good');
    run.write('/x/SHA256SUMS', `${hash('sha256', 'good')}  a\n`, 1);
    await run.files('/x/a', '/x/SHA256SUMS');
    run.write('/x/SHA256SUMS', `${hash('sha256', 'evil')}  a\n`, 1);
    await run.files('/x/a');
    const { state, notes } = run.page.verdict;
    const isTold = notes[0]?.startsWith('SHA256SUMS: it has changed since it was added: add it again');
    return isTold && state === '' ? ['a: OK'] : ['a note, and nothing green'];
  },
};

// ---- what is added again

/** Long contents of one size, which differ in one byte: a right one and a wrong one. */
function copies() {
  const half = 'x'.repeat(LONG);
  return [`${half}x${half}`, `${half}y${half}`];
}

const AGAIN = {
  async 'a folder twice'(run) {
    run.folder('/x/dist', ['a', 'p/q']);
    await run.input('/x/dist');
    await run.input('/x/dist');
    return ['a: OK', 'p/q: OK'];
  },
  async 'a folder by an input and dropped'(run) {
    run.folder('/x/dist', ['a', 'p/q']);
    await run.input('/x/dist');
    await run.drop('/x/dist');
    await run.input('/x/dist');
    return ['a: OK', 'p/q: OK'];
  },
  async 'a folder without one of its files'(run) {
    run.folder('/x/dist', ['a', 'b']);
    await run.input('/x/dist');
    run.remove('/x/dist/b');
    await run.input('/x/dist');
    return ['a: OK', 'b: MISSING'];
  },
  async 'another folder that has one file less'(run) {
    run.folder('/x/dist', ['a', 'b'], ['b']);
    run.folder('/y/dist', ['a']);
    await run.input('/x/dist');
    await run.input('/y/dist');
    return ['a: OK by dist/SHA256SUMS', 'b: FAILED by dist/SHA256SUMS', 'a: OK by dist (2)/SHA256SUMS'];
  },
  async 'the second of two folders, after the first has changed'(run) {
    run.folder('/x/dist', ['a'], ['a']);
    run.folder('/y/dist', ['a']);
    await run.input('/x/dist');
    await run.input('/y/dist');
    run.list('/x/dist/SHA256SUMS', 'a', 'b');
    run.write('/x/dist/a', 'evil and more');
    await run.input('/y/dist');
    return ['a: UNREADABLE by dist/SHA256SUMS', 'a: OK by dist (2)/SHA256SUMS'];
  },
  async 'the first of two folders, after the second has changed'(run) {
    run.folder('/x/dist', ['a']);
    run.folder('/y/dist', ['a'], ['a']);
    await run.input('/x/dist');
    await run.input('/y/dist');
    run.list('/y/dist/SHA256SUMS', 'a', 'b');
    run.write('/y/dist/a', 'evil and more');
    await run.input('/x/dist');
    return ['a: UNREADABLE by dist (2)/SHA256SUMS', 'a: OK by dist/SHA256SUMS'];
  },
  async 'one of two folders that have both changed'(run) {
    run.folder('/x/dist', ['a']);
    run.folder('/y/dist', ['a'], ['a']);
    await run.input('/x/dist');
    await run.input('/y/dist');
    for (const top of ['/x/dist', '/y/dist']) run.list(`${top}/SHA256SUMS`, 'a', 'a');
    run.write('/x/dist/a', 'good and more');
    run.write('/y/dist/a', 'evil and more');
    await run.input('/x/dist');
    const changed = ['a: UNREADABLE by dist/SHA256SUMS', 'a: UNREADABLE by dist (2)/SHA256SUMS'];
    return [...changed, 'a: FAILED by dist (3)/SHA256SUMS', 'a: FAILED by dist (3)/SHA256SUMS'];
  },
  async 'the second of two files, after the first has changed'(run) {
    run.write('/x/a', 'evil!');
    run.write('/y/a', 'good');
    run.list('/z/SHA256SUMS', 'a');
    await run.files('/z/SHA256SUMS');
    await run.files('/x/a');
    await run.files('/y/a');
    run.write('/x/a', 'evil and more');
    await run.files('/y/a');
    return [`a: UNREADABLE, ${SEVERAL}`, 'a: NOT LISTED', 'a (2): NOT LISTED'];
  },
  async 'a list with its file, and another one of its name'(run) {
    run.write('/x/a', 'evil');
    run.list('/x/SHA256SUMS', 'a');
    run.write('/y/a', 'good');
    await run.files('/x/a', '/x/SHA256SUMS');
    await run.files('/y/a');
    return ['a: FAILED', 'a (2): NOT LISTED'];
  },
  async 'two copies of a folder, which differ within a long file'(run) {
    const [right, wrong] = copies();
    for (const [top, data] of [['/x/photos', wrong], ['/y/photos', right]]) {
      run.write(`${top}/a`, data, 1);
      run.write(`${top}/SHA256SUMS`, `${hash('sha256', right)}  a\n`, 1);
      await run.input(top);
    }
    return ['a: FAILED by photos/SHA256SUMS', 'a: OK by photos (2)/SHA256SUMS'];
  },
  async 'two copies of a folder of many files, of which the last differ'(run) {
    const names = Array.from({ length: 600 }, (_, at) => `f${at}`);
    for (const [top, data] of [['/x/photos', 'evil'], ['/y/photos', 'good']]) {
      for (const name of names) run.write(`${top}/${name}`, name === names.at(-1) ? data : 'good', 1);
      await run.input(top);
    }
    run.list('/z/SHA256SUMS', `photos/${names.at(-1)}`);
    await run.files('/z/SHA256SUMS');
    const others = ['photos', 'photos (2)'].flatMap((it) => names.map((name) => `${it}/${name}: NOT LISTED`));
    return [`photos/${names.at(-1)}: UNREADABLE, ${SEVERAL}`, ...others];
  },
  async 'two copies of a file, which differ within it'(run) {
    const [right, wrong] = copies();
    run.write('/x/a', wrong, 1);
    run.write('/y/a', right, 1);
    run.write('/x/SHA256SUMS', `${hash('sha256', right)}  a\n`);
    await run.files('/x/a', '/x/SHA256SUMS');
    await run.files('/y/a');
    return ['a: FAILED', 'a (2): NOT LISTED'];
  },
  async 'two copies of a folder that are equal'(run) {
    const [right] = copies();
    for (const [top, time] of [['/x/photos', 1], ['/y/photos', 2]]) {
      run.write(`${top}/a`, right, time);
      run.list(`${top}/SHA256SUMS`, 'b');
      run.write(`${top}/b`, 'good', time);
      await run.input(top);
    }
    return ['b: OK', 'photos/a: NOT LISTED'];
  },
  async 'two copies of a folder, of which one has a part that the browser cannot read'(run) {
    for (const top of ['/x/dist', '/y/dist']) run.folder(top, ['a', 'b']);
    run.disk.closed = new Set(['/x/dist/b']);
    await run.drop('/x/dist');
    await run.drop('/y/dist');
    const first = ['a: OK by dist/SHA256SUMS', 'b: UNREADABLE by dist/SHA256SUMS'];
    return [...first, 'a: OK by dist (2)/SHA256SUMS', 'b: OK by dist (2)/SHA256SUMS'];
  },
  async 'two copies of a file, and a stop while they are compared'(run) {
    const [right] = copies();
    for (const top of ['/x', '/y']) run.write(`${top}/a`, right);
    await run.files('/x/a');
    run.page.give('add', { ...chosen(run.disk.input('/y/a')), isList: false });
    await run.page.give('stop');
    await run.page.give('go');
    return ['a: DIGEST', 'a (2): DIGEST'];
  },
  async 'a file in the place of one that is gone, of its size and its time'(run) {
    run.write('/x/a', 'evil', 1);
    run.write('/y/a', 'good', 1);
    run.list('/z/SHA256SUMS', 'a');
    await run.files('/z/SHA256SUMS', '/x/a');
    run.remove('/x/a');
    await run.files('/y/a');
    return ['a: OK'];
  },
  async 'a file in the place of two that are gone'(run) {
    run.write('/x/a', 'evil');
    run.write('/y/a', 'evil!');
    run.write('/z/a', 'good');
    run.list('/z/SHA256SUMS', 'a');
    await run.files('/x/a');
    await run.files('/y/a');
    run.remove('/x/a', '/y/a');
    await run.files('/z/a');
    await run.files('/z/SHA256SUMS');
    return ['a: OK'];
  },
};

// ---- names that Chromium changes, or two files have

const NAMES = {
  async 'a folder that has two files of one path, and another folder of its name'(run) {
    run.write('/x/dist/p\\q/a', 'evil');
    run.write('/x/dist/p/q/a', 'evil!');
    run.write('/y/dist/p/q/a', 'good');
    run.list('/z/SHA256SUMS', 'dist/p/q/a');
    await run.files('/z/SHA256SUMS');
    await run.input('/x/dist');
    await run.input('/y/dist');
    const first = run.isFirefox ? ['dist/p\\\\q/a: NOT LISTED', 'dist/p/q/a: NOT LISTED'] : ['dist/p/q/a: UNREADABLE'];
    return [`dist/p/q/a: UNREADABLE, ${SEVERAL}`, ...first, 'dist (2)/p/q/a: NOT LISTED'];
  },
  async 'a folder that has two files of one path, twice'(run) {
    run.folder('/x/dist', ['p\\q/a', 'p/q/a'], ['p\\q/a']);
    await run.input('/x/dist');
    await run.input('/x/dist');
    return run.isFirefox ? ['p\\\\q/a: FAILED', 'p/q/a: OK'] : ['p\\\\q/a: MISSING', 'p/q/a: UNREADABLE'];
  },
  async 'a folder with a backslash, dropped and by an input'(run) {
    run.folder('/x/dist', ['p\\q/a']);
    await run.drop('/x/dist');
    await run.input('/x/dist');
    if (run.isFirefox) return ['p\\\\q/a: OK'];
    const both = ['p\\\\q/a: OK by dist/SHA256SUMS', 'p\\\\q/a: MISSING by dist (2)/SHA256SUMS'];
    return [...both, 'dist (2)/p/q/a: NOT LISTED'];
  },
  async 'a folder with a backslash, and one that has the path that it is given'(run) {
    run.folder('/x/p\\q', ['a']);
    run.folder('/x/p', ['q/a'], ['q/a']);
    await run.input('/x/p\\q');
    await run.input('/x/p');
    // Chromium gives both as p
    const [one, other] = run.isFirefox ? ['p\\\\q', 'p'] : ['p/q', 'p (2)'];
    return [`a: OK by ${one}/SHA256SUMS`, `q/a: FAILED by ${other}/SHA256SUMS`];
  },
  async 'a list in a folder whose name begins with a backslash'(run) {
    run.list('/x/\\lead/SHA256SUMS', 'a');
    run.write('/x/\\lead/b', 'b');
    run.folder('/x/dist', ['a']);
    await run.input('/x/dist');
    await run.input('/x/\\lead');
    const lead = run.isFirefox ? '\\\\lead' : '/lead';
    return ['a: OK by dist/SHA256SUMS', `a: MISSING by ${lead}/SHA256SUMS`, `${lead}/b: NOT LISTED`];
  },
  async 'files whose other names another one has'(run) {
    run.write('/x/a', 'a');
    run.write('/y/a', 'other');
    run.write('/y/a (2)', 'one more');
    await run.files('/x/a');
    await run.files('/y/a', '/y/a (2)');
    // no disk has these names
    if (run.page.verdict.canWrite) return ['no list to be saved'];
    return ['a: DIGEST', 'a (2): DIGEST', 'a (2) (2): DIGEST'];
  },
};

// ---- what the browser cannot read of a folder

const CLOSED = {
  async 'a file and a folder that no list names'(run) {
    run.folder('/x/dist', ['a']);
    for (const path of ['b', 'c/d']) run.write(`/x/dist/${path}`, 'other');
    run.disk.closed = new Set(['/x/dist/b', '/x/dist/c']);
    await run.drop('/x/dist');
    const rows = ['a: OK', 'dist/b: UNREADABLE', 'dist/c: UNREADABLE'];
    return run.page.verdict.state === 'wrong' ? rows : ['nothing green'];
  },
  async 'a file that a list names, and all files of a folder'(run) {
    run.folder('/x/dist', ['a', 'b', 'c/d']);
    run.disk.closed = new Set(['/x/dist/a', '/x/dist/b', '/x/dist/c']);
    await run.drop('/x/dist');
    const rows = ['a: UNREADABLE', 'b: UNREADABLE', 'c/d: UNREADABLE'];
    return run.page.verdict.text === 'Something is wrong: 3\u00a0UNREADABLE' ? rows : ['what is wrong'];
  },
  async 'a folder as a whole, and a file that is dropped with it'(run) {
    run.write('/x/a', 'good');
    run.write('/x/b', 'good');
    run.folder('/x/dist', ['c']);
    run.list('/x/SHA256SUMS', 'a', 'b');
    run.disk.closed = new Set(['/x/dist']);
    await run.files('/x/SHA256SUMS', '/x/a');
    if (run.page.verdict.state !== 'ok') return ['green at first'];
    await run.drop('/x/dist', '/x/b');
    const rows = ['a: OK', 'b: OK', 'dist: UNREADABLE'];
    return run.page.verdict.state === 'wrong' ? rows : ['nothing green'];
  },
  async 'a folder as a whole, which is chosen then'(run) {
    run.folder('/x/dist', ['a']);
    run.disk.closed = new Set(['/x/dist']);
    await run.drop('/x/dist');
    await run.input('/x/dist');
    return ['a: OK'];
  },
  async 'a digest that may be of a folder which is refused'(run) {
    run.folder('/x/dist', ['b']);
    run.write('/x/a', 'evil');
    run.disk.closed = new Set(['/x/dist']);
    await run.page.give('paste', `SHA256: ${hash('sha256', 'good')}`);
    await run.drop('/x/dist', '/x/a');
    return ['dist: UNREADABLE', 'the pasted text: NO MATCH', 'a: NOT LISTED'];
  },
  async 'a choice of no file'(run) {
    run.folder('/x/dist', ['a']);
    await run.input('/x/dist');
    await run.files();
    return run.page.verdict.state === 'wrong' ? ['a: OK', 'what was chosen: UNREADABLE'] : ['nothing green'];
  },
  async 'a file of which no list is made'(run) {
    for (const path of ['a', 'b']) run.write(`/x/dist/${path}`, 'good');
    run.disk.closed = new Set(['/x/dist/b']);
    await run.drop('/x/dist');
    return run.page.verdict.canWrite ? ['no list'] : ['dist/a: DIGEST', 'dist/b: UNREADABLE'];
  },
};

// ---- several lists

const OF_LISTS = {
  async 'two lists of the same files'(run) {
    run.folder('/x/dist', ['a', 'b']);
    run.list('/x/dist/again.sha256', 'a', 'b');
    await run.input('/x/dist');
    const rows = ['SHA256SUMS', 'again.sha256'].flatMap((it) => [`a: OK by dist/${it}`, `b: OK by dist/${it}`]);
    return run.page.verdict.text === '2 files: OK' ? rows : ['two files'];
  },
  async 'a list that another list names'(run) {
    run.list('/x/SHA256SUMS', 'none');
    const digest = hash('sha512', run.disk.files.get('/x/SHA256SUMS').bytes);
    run.write('/x/x.sha512', `${digest}  SHA256SUMS\n`);
    await run.files('/x/SHA256SUMS', '/x/x.sha512');
    if (run.page.verdict.text !== 'SHA256SUMS: OK') return ['an OK'];
    run.list('/x/SHA256SUMS', 'none', 'another');
    await run.files('/x/SHA256SUMS');
    const rows = ['SHA256SUMS: FAILED by x.sha512', 'none: MISSING by SHA256SUMS', 'another: MISSING by SHA256SUMS'];
    return run.page.verdict.text === 'SHA256SUMS: FAILED' ? rows : ['a FAILED'];
  },
};

// ---- digests that are pasted

/** What is shown of a file that is good when a text is pasted. */
async function pasted(run, text) {
  run.write('/x/a', 'good');
  await run.files('/x/a');
  await run.page.give('paste', text);
}

const [GOOD, EVIL] = ['good', 'evil'].map((it) => `sha256-${hash('sha256', it, 'base64')}`);
const NO_OK = ['the pasted text: MALFORMED', 'a: DIGEST'];

const PASTED = {
  async 'one in base64'(run) {
    await pasted(run, GOOD);
    return ['a: OK'];
  },
  async 'one of a file that is called like a hash'(run) {
    await pasted(run, `blake3-1.0.tgz: ${hash('sha256', 'good').replace(/.{8}/g, '$& ')}`);
    return ['a: OK'];
  },
  async 'one of another hash, which it names'(run) {
    await pasted(run, `BLAKE3: ${hash('sha256', 'good')}`);
    return ['a: FAILED'];
  },
  async 'two, of which the first is right'(run) {
    await pasted(run, `${GOOD} ${EVIL}`);
    return NO_OK;
  },
  async 'one, and another one in hexadecimal digits'(run) {
    await pasted(run, `${GOOD} ${hash('sha256', 'evil')}`);
    return NO_OK;
  },
  async 'one that is too long'(run) {
    await pasted(run, `${GOOD}=`);
    return NO_OK;
  },
  async 'one in an address that is too long'(run) {
    run.write('/x/a', 'good');
    await run.page.give('give', ofAddress(`#sha256=${encodeURIComponent(GOOD.replace('=', '++='))}`));
    await run.files('/x/a');
    return ['the digest in the address: MALFORMED', 'a: DIGEST'];
  },
};

// ---- commands that come while another one is done

/** What the page shows in the end, and the kind of its answer to the last command. */
const MEANWHILE = {
  async 'a list is saved while something is added'(run) {
    run.write('/x/a', 'evil');
    run.list('/y/SHA256SUMS', 'a');
    await run.files('/x/a');
    run.page.give('add', { ...chosen(run.disk.input('/y/SHA256SUMS')), isList: false });
    await run.page.give('write');
    return run.page.answer === 'verdict' ? ['a: FAILED'] : ['a verdict'];
  },
  async 'a list is saved while files are read'(run) {
    run.write('/x/a', 'evil');
    run.list('/y/SHA256SUMS', 'a');
    await run.files('/x/a');
    run.page.giveAt('plan', 'write');
    await run.files('/y/SHA256SUMS');
    const isWritten = run.page.told.some((it) => it.kind === 'written');
    return run.page.answer === 'verdict' && !isWritten ? ['a: FAILED'] : ['a verdict, and no list'];
  },
  async 'a list is saved when all begins anew'(run) {
    run.page.give('give', {});
    await run.page.give('write');
    return run.page.answer === 'verdict' ? [] : ['a verdict'];
  },
  async 'a stop after all was read'(run) {
    run.folder('/x/dist', ['a']);
    await run.input('/x/dist');
    await run.page.give('stop');
    return run.page.answer === 'verdict' && run.page.verdict.state === 'ok' ? ['a: OK'] : ['the verdict'];
  },
  async 'a stop while something is added'(run) {
    run.folder('/x/dist', ['a']);
    run.write('/y/b', 'evil');
    await run.input('/x/dist');
    run.page.give('add', { ...chosen(run.disk.input('/y/b')), isList: false });
    await run.page.give('stop');
    if (run.page.answer !== 'verdict' || !run.page.verdict.isStopped) return ['a stop'];
    if (run.page.verdict.text !== 'Stopped: 1\u00a0NOT\u00a0LISTED, 1 file not read') return ['what is left'];
    await run.page.give('go');
    return ['a: OK', 'b: NOT LISTED'];
  },
};

// ---- all of them

/** A row as a case has it: with its list if there are several, and with its detail if a case has that. */
function rowAs({ label, result, from, detail }, wanted) {
  const row = `${label}: ${result}${from && ` by ${from}`}`;
  return wanted.includes(`${row}, ${detail[0]}`) ? `${row}, ${detail[0]}` : row;
}

/** What a browser shows at the end of a case, if that is wrong. */
async function wrongIn(browser, does) {
  const run = new Run(browser);
  const wanted = await does(run);
  const got = run.page.rows.map((it) => rowAs(it, wanted));
  if (run.page.isBroken) return run.page.isBroken;
  return JSON.stringify(got) === JSON.stringify(wanted) ? '' : `${JSON.stringify(got)}, not ${JSON.stringify(wanted)}`;
}

let passed = 0;
let failed = 0;
const CASES = { ...CHANGES, ...AGAIN, ...NAMES, ...CLOSED, ...OF_LISTS, ...PASTED, ...MEANWHILE };
for (const [what, does] of Object.entries(CASES)) {
  for (const browser of ['chromium', 'firefox']) {
    const wrong = await wrongIn(browser, does);
    if (wrong) failed++;
    else passed++;
    if (wrong) console.log(`${browser}: ${what}: ${wrong.slice(0, 1000)}`);
  }
}
console.log(`${passed} passed, ${failed} failed`);
process.exit(failed ? 1 : 0);
