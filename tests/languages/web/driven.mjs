// The page without a browser: a disk that changes, its files as Chromium and Firefox give them, and the page's engine.
import { posix } from 'node:path';
import { Engine } from '../../../web/engine.js';
import { chosen, dropped } from '../../../web/gather.js';

const fault = (name) => Object.assign(new Error(name), { name });
const bufferOf = (bytes) => Uint8Array.from(bytes).buffer;

/** A part of a file, which is read when it is asked for. */
class Part {
  constructor(file, begin, end) {
    Object.assign(this, { file, begin, end, size: end - begin });
  }

  slice(begin, end) {
    return new Part(this.file, Math.min(this.begin + begin, this.end), Math.min(this.begin + end, this.end));
  }

  async arrayBuffer() {
    return bufferOf(this.file.partOf(this.begin, this.end));
  }
}

/**
 * A file as a browser gives it: `real` is its path on the disk, `held` what it is there now, and `given` the path by
 * which the page may know it.
 */
class GivenFile extends Part {
  constructor(disk, real, more) {
    const held = disk.files.get(real);
    super(null, 0, held.bytes.length);
    Object.assign(this, { file: this, disk, real, held, lastModified: held.time, name: posix.basename(real) });
    Object.assign(this, { webkitRelativePath: '', given: this.name, path: this.name, ...more });
  }

  /** Whether the disk still has what was added. */
  get isThere() {
    return this.disk.files.get(this.real) === this.held;
  }

  async arrayBuffer() {
    return bufferOf(this.whole());
  }

  /** All bytes. Chromium refuses a file of another time, and Firefox one of another size. */
  whole() {
    const now = this.disk.files.get(this.real);
    if (!now) throw fault('NotFoundError');
    const isOther = this.disk.isFirefox ? now.bytes.length !== this.size : now.time !== this.lastModified;
    if (isOther) throw fault('NotReadableError');
    return now.bytes;
  }

  /** The bytes from one place to another. Chromium refuses a file of another time, and one that is shorter. */
  partOf(begin, end) {
    const now = this.disk.files.get(this.real);
    if (begin === end) return [];
    if (!now) throw fault(this.disk.isFirefox ? 'AbortError' : 'NotFoundError');
    const isOther = now.time !== this.lastModified || now.bytes.length < this.size;
    if (isOther && !this.disk.isFirefox) throw fault('NotReadableError');
    return now.bytes.subarray(begin, end);
  }
}

globalThis.FileReader = class {
  readAsArrayBuffer(file) {
    try {
      this.result = bufferOf(file.whole());
    } catch (error) {
      this.error = error;
    }
    queueMicrotask(() => this.onloadend());
  }
};

/** Files by their paths, `{ bytes, time }` each. */
export class Disk {
  files = new Map();
  closed = new Set(); // paths that the browser cannot read, where they are dropped
  clock = 100;

  constructor(browser) {
    this.isFirefox = browser === 'firefox';
  }

  write(path, text, time = ++this.clock) {
    this.files.set(path, { bytes: Buffer.from(text), time });
  }

  inside(folder) {
    return [...this.files.keys()].filter((it) => it.startsWith(`${folder}/`));
  }

  /** All folders but those at the top. */
  get folders() {
    const all = new Set();
    for (const path of this.files.keys()) {
      for (let at = posix.dirname(path); posix.dirname(at) !== '/'; at = posix.dirname(at)) all.add(at);
    }
    return [...all];
  }

  /** What an input of files has. */
  input(...paths) {
    return { files: paths.map((real) => new GivenFile(this, real)) };
  }

  /** What an input of a folder has. Chromium gives a backslash of a path as a slash, and that of a file's name too. */
  folderInput(top) {
    return { files: this.inside(top).map((real) => {
      const path = real.slice(posix.dirname(top).length + 1);
      const webkitRelativePath = this.isFirefox ? path : path.replaceAll('\\', '/');
      const given = webkitRelativePath.slice(0, -posix.basename(real).length) + posix.basename(real);
      return new GivenFile(this, real, { webkitRelativePath, path, given, top });
    }) };
  }

  /** What is dropped, files and folders. Chromium gives the second of a name another one. */
  drop(...paths) {
    const names = new Set();
    return { items: paths.map((real) => {
      const name = this.isFirefox ? posix.basename(real) : otherName(posix.basename(real), names);
      names.add(name);
      const isFile = this.files.has(real);
      const getAsFile = () => (isFile ? new GivenFile(this, real, { name, given: name, path: name }) : null);
      return { kind: 'file', webkitGetAsEntry: () => this.#entry(real, { name, path: name, top: real }), getAsFile };
    }) };
  }

  #entry(real, { name, path, top }) {
    const isClosed = this.closed.has(real);
    const file = (give, refuse) => isClosed ? refuse(fault('NotReadableError'))
      : give(new GivenFile(this, real, { name, path, given: path, top }));
    if (this.files.has(real)) return { isFile: true, name, file };
    const names = new Set(this.inside(real).map((it) => it.slice(real.length + 1).split('/', 1)[0]));
    const all = [...names].map((it) => this.#entry(`${real}/${it}`, { name: it, path: `${path}/${it}`, top }));
    const readEntries = (give, refuse) => isClosed ? refuse(fault('NotReadableError')) : give(all.splice(0, 2));
    return { isDirectory: true, name, createReader: () => ({ readEntries }) };
  }
}

/** A name, or what Chromium makes of it where it is taken. */
function otherName(name, taken) {
  const { name: stem, ext } = posix.parse(name);
  let other = name;
  for (let count = 1; taken.has(other); count++) other = `${stem} (${count})${ext}`;
  return other;
}

/** The page over a disk: what is added, and what it says then. */
export class Page {
  told = [];
  #number = 0;
  #awaited = null;

  constructor(library, disk) {
    this.disk = disk;
    this.engine = new Engine(library, (it) => this.#hear(it));
  }

  #hear(it) {
    this.told.push(it);
    if (it.kind !== this.#awaited?.kind) return;
    const { command } = this.#awaited;
    this.#awaited = null;
    this.give(command);
  }

  /** Gives a command. What it returns can be waited for, until all is done. */
  give(kind, value) {
    return this.engine.take({ kind, number: ++this.#number, value });
  }

  /** Gives a command as soon as something of this kind is said. */
  giveAt(kind, command) {
    this.#awaited = { kind, command };
  }

  /** Adds what an input has, and gives its files. */
  async add(input, isList = false) {
    const files = [...input.files];
    await this.give('add', { ...chosen(input), isList });
    return files;
  }

  /** Adds what is dropped, and gives its files. */
  async drop(transfer) {
    const { loose, folders } = await dropped(transfer);
    await this.give('add', { loose, folders, isList: false });
    return [...loose, ...folders.flatMap((it) => it.files)].map(({ file }) => file);
  }

  get rows() {
    return this.engine.rows;
  }

  #last(kind) {
    return this.told.findLast((it) => it.kind === kind);
  }

  get things() {
    return this.#last('plan').things;
  }

  get verdict() {
    return this.#last('verdict');
  }

  /** The kind of what was said last, if it answers the last command. */
  get answer() {
    const { kind, number } = this.told.at(-1);
    return number === this.#number ? kind : '';
  }

  get isBroken() {
    return this.told.find((it) => it.kind === 'broken')?.message;
  }
}
