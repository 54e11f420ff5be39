// SPDX-License-Identifier: MIT OR Apache-2.0
// What was added: folders, and files by themselves, each by one selection, and what is added again.
import { groupsOf } from './groups.js';
import { foldersOf } from './names.js';
import { fateOf } from './reading.js';

const TWICE = 'two files of this name were added at once, so neither is judged';
const NO_FILE = 'it is no file';
let made = 0;

/** What a path means that is no file to be judged: why, and what it is about. */
export const faulty = (fault = NO_FILE, about = null) => ({ item: null, fault, about });

/** A file that was added, or the files of one path: these have a fault, and none of them is judged. */
class Item {
  id = ++made;
  fault = '';

  constructor(place, path, file) {
    Object.assign(this, { place, path, file, files: [file] });
  }

  addTwin(file) {
    this.files.push(file);
    Object.assign(this, { file: null, fault: TWICE });
  }

  /** What it is called here, with the folder that was added. */
  get name() {
    return this.place.isFolder ? `${this.place.label}/${this.path}` : this.place.label;
  }
}

/** A folder with all that was added of it, or a file by itself. Its label is not its name if another one has that. */
export class Place {
  id = ++made;
  items = new Map();
  folders = new Set(['']);
  closed = new Map();

  constructor(name, selection, isFolder) {
    Object.assign(this, { name, selection, label: name, isFolder });
  }

  get isRenamed() {
    return this.label !== this.name;
  }

  /** Why nothing of it was handed over, if so. */
  get refusal() {
    return this.closed.get('')?.fault ?? '';
  }

  add(path, file) {
    const before = this.items.get(path);
    if (before) before.addTwin(file);
    else this.items.set(path, new Item(this, path, file));
    for (const folder of foldersOf(path)) this.folders.add(folder);
  }

  /** Says of a file or a folder why it could not be added. */
  close(path, fault) {
    this.closed.set(path, { place: this, path, fault });
    for (const folder of foldersOf(path)) this.folders.add(folder);
  }

  /** What this path means, or null. */
  at(path) {
    const item = this.items.get(path);
    if (item) return item.fault ? faulty(item.fault, item) : { item, fault: '' };
    const closed = this.closed.get(path) ?? this.closed.get('');
    if (closed) return faulty(closed.fault, closed);
    return this.folders.has(`${path}/`) ? faulty() : null;
  }

  /** What has become of it, beside what is added now. A part that could not be read may be anything. */
  fate(now, mayGoOn) {
    return this.closed.size && !this.refusal ? 'other' : fateOf(this.items, now.items, mayGoOn);
  }
}

/** What was added before and is `now` again: what is the same, or else the one that has changed, and what is gone. */
async function addedAgain(before, now, mayGoOn) {
  const of = { same: [], other: [], changed: [], gone: [] };
  for (const it of before) of[await it.fate(now, mayGoOn)].push(it);
  return of.same.length ? of.same : [...(of.changed.length === 1 ? of.changed : []), ...of.gone];
}

const keyOfName = (isFolder, name) => `${isFolder ? 'folder' : 'file'} ${name}`;

/** All that was added, in its order. */
export class Places {
  all = [];
  #named = new Map(); // the places of each name

  get items() {
    return this.all.flatMap((place) => [...place.items.values()]);
  }

  get folders() {
    return this.all.filter((it) => it.isFolder);
  }

  /** What could not be added of folders, `{ place, path, fault }` each. */
  get closed() {
    return this.all.flatMap((place) => [...place.closed.values()]);
  }

  /** The folders of this name, or the files by themselves. */
  named(isFolder, name) {
    return this.#named.get(keyOfName(isFolder, name)) ?? [];
  }

  #keep(all) {
    this.all = all;
    this.#named = groupsOf(all, (it) => keyOfName(it.isFolder, it.name));
  }

  /**
   * Adds what comes by one selection, and gives what that replaces. What has the name of another one is called by a
   * number too. `mayGoOn` is told how many bytes are compared, and may end that.
   */
  async add(places, mayGoOn) {
    const replaced = new Set();
    for (const place of places) {
      const before = this.named(place.isFolder, place.name);
      for (const it of await addedAgain(before, place, mayGoOn)) replaced.add(it);
    }
    const left = this.all.filter((it) => !replaced.has(it));
    const labels = new Set(left.map((it) => keyOfName(it.isFolder, it.label)));
    for (const it of places) {
      for (let count = 2; labels.has(keyOfName(it.isFolder, it.label)); count++) it.label = `${it.name} (${count})`;
      labels.add(keyOfName(it.isFolder, it.label));
    }
    this.#keep([...left, ...places]);
    return [...replaced];
  }

  remove(id) {
    this.#keep(this.all.filter((it) => it.id !== id));
  }
}
