// SPDX-License-Identifier: MIT OR Apache-2.0
// What is added: files and folders, the lists among them, and what is pasted or given with the page.
import { TITLES } from './functions.js';
import { groupsOf } from './groups.js';
import { hashOfList, isListName } from './listnames.js';
import { looksLikeList, readList, SNIFFED } from './lists.js';
import { lastPart, shown, someOf } from './names.js';
import { pastedDigests } from './pasted.js';
import { Place, Places } from './places.js';
import { faultOf } from './reading.js';
import { plural } from './verdict.js';

const LIST_BYTES = 2 ** 26;
const TOO_LONG = 'it is longer than 64 MiB: use sums check';
const MOST_SEEN = 200; // files of a selection that are looked into, whether they are lists by other names
const MOST_TOLD = 200; // things

/** The bytes of a list, or why there are none. */
async function contentOf(file) {
  if (file.size > LIST_BYTES) return { fault: TOO_LONG };
  try {
    return { bytes: new Uint8Array(await file.arrayBuffer()) };
  } catch (error) {
    return { fault: faultOf(error) };
  }
}

/** Folders with what was chosen or dropped of them, and the files of each name by themselves. */
function placesOf({ loose, folders }, selection) {
  const alone = [...groupsOf(loose, (it) => it.path)].map(([name, files]) => ({ name, files, closed: [] }));
  return [...folders, ...alone].map(({ name, files, closed }, at) => {
    const place = new Place(name, selection, at < folders.length);
    for (const { path, file } of files) place.add(path, file);
    for (const { path, fault } of closed) place.close(path, fault);
    return place;
  });
}

export class Added {
  places = new Places();
  chosen = null;
  #said = []; // what the last addition replaced, and what it could not add
  #library;
  #given = { lists: [], digests: [] }; // that came with the page
  #pasted;
  #count = 0; // of selections and lists

  /** `library` reads the lines of lists. */
  constructor(library) {
    this.#library = library;
    this.paste('');
  }

  // ---- what changes it

  /** Adds what was chosen or dropped together: `loose` files, and `folders` with their files and faults. */
  async add(chosen, mayGoOn) {
    this.#said = [];
    const places = placesOf(chosen, ++this.#count);
    const replaced = (await this.places.add(places, mayGoOn)).map((it) => shown(it.label));
    if (replaced.length) this.#said.push(`Added again, which replaces what it was before: ${someOf(replaced)}.`);
    for (const place of places) this.#sayAdded(place);
    await this.#takeLists(places.flatMap((it) => [...it.items.values()]), chosen.isList);
  }

  #sayAdded({ name, label, closed, refusal, isFolder, isRenamed }) {
    const own = `${isFolder ? 'folder' : 'file'} ${shown(name)}`;
    if (isRenamed) this.#said.push(`Another ${own} is there: this one is called ${shown(label)} here.`);
    const unread = someOf([...closed.keys()].map(shown));
    if (refusal) this.#said.push(`Not added: ${shown(label)}, for ${refusal}.`);
    else if (unread) this.#said.push(`In the folder ${shown(label)} the browser could not read: ${unread}.`);
  }

  /** Takes the lists among items, in their order, and looks which others hold entries. */
  async #takeLists(items, isList) {
    let seen = 0;
    const others = [];
    for (const item of items.filter((it) => it.file)) {
      const isNamed = isListName(lastPart(item.path));
      const isLike = isList || ((isNamed || seen++ < MOST_SEEN) && (await this.#looksLikeList(item)));
      if (isLike && (isList || isNamed)) await this.#takeList(item);
      item.isOffered = isLike && !item.list;
      if (isNamed && !isLike) others.push(shown(item.name));
    }
    if (others.length) this.#said.push(`Without the lines of a list, and so no list: ${someOf(others)}.`);
  }

  async #looksLikeList({ file, path }) {
    const { bytes } = await contentOf(file.slice(0, SNIFFED + 1));
    return bytes !== undefined && looksLikeList(this.#library, bytes, lastPart(path));
  }

  async #takeList(item) {
    const { name, place } = item;
    item.list = { id: ++this.#count, name, item, selection: place.selection, ...(await contentOf(item.file)) };
  }

  /** Takes lists and digests that came with the page or in its address. */
  give({ lists = [], digests = [] }) {
    const digestsOf = (it) =>
      it.fault ? [it] : pastedDigests(`${it.hash}:${it.digits}`, null).map((digest) => ({ ...it, ...digest }));
    this.#given = {
      lists: lists.map((it) => ({ id: ++this.#count, item: null, ...it })), digests: digests.flatMap(digestsOf),
    };
  }

  paste(text) {
    const bytes = new TextEncoder().encode(text);
    this.#pasted = { id: ++this.#count, name: 'the pasted text', item: null, text, bytes };
  }

  /** Takes a file as a list that was not known as one. */
  async use(id) {
    const item = this.places.items.find((it) => it.id === id);
    if (!item?.isOffered) return;
    await this.#takeList(item);
    item.isOffered = false;
  }

  remove(id) {
    this.places.remove(id);
    this.#said = [];
  }

  // ---- what it is

  /** A list with what it says, which is read once for a hash. */
  #read(list) {
    if (list.readFor === this.chosen) return list;
    const { name, bytes, fault } = list;
    const read = fault ? { lines: [], notes: [], fault } : readList(this.#library, lastPart(name), bytes, this.chosen);
    return Object.assign(list, { read, readFor: this.chosen });
  }

  /** Whether the pasted text is a list: it has an entry. */
  get #isListPasted() {
    const { fault, lines } = this.#read(this.#pasted).read;
    return fault !== '' || lines.some(({ name }) => name !== null);
  }

  get lists() {
    const added = this.places.items.flatMap((it) => it.list ?? []);
    return [...this.#given.lists, ...added, ...(this.#isListPasted ? [this.#pasted] : [])].map((it) => this.#read(it));
  }

  /** The digests that stand alone: of the page, of files that hold nothing else, and those that are pasted. */
  get digests() {
    const all = [...this.#given.digests];
    for (const { name, read } of this.lists.filter((it) => it.read.digest)) {
      const [digest] = pastedDigests(read.digest, this.chosen ?? hashOfList(lastPart(name)));
      all.push({ title: shown(name), ...digest });
    }
    const { name, text } = this.#pasted;
    const isDigest = text.trim() !== '' && !this.#isListPasted;
    return isDigest ? [...all, ...pastedDigests(text, this.chosen).map((it) => ({ title: name, ...it }))] : all;
  }

  /** How much was added. */
  get summary() {
    const lists = this.places.items.filter((it) => it.list).length;
    const all = { file: this.places.items.length - lists, list: lists };
    const told = Object.keys(all).filter((it) => all[it]).map((it) => plural(all[it], it));
    return [...(told.length ? [`Added: ${told.join(' and ')}.`] : []), ...this.#said].join(' ');
  }

  /** Each thing that was added, to be named and removed: files by themselves, folders, and lists. */
  get things() {
    const things = this.places.all.slice(0, MOST_TOLD).map((it) => {
      const items = [...it.items.values()];
      const canUse = items.filter(({ isOffered }) => isOffered).map(({ id, name }) => ({ id, label: shown(name) }));
      return { id: it.id, label: shown(it.label), kind: it.isFolder ? folderKind(it) : this.#kindOf(items[0]), canUse };
    });
    return { things, more: this.places.all.length - things.length };
  }

  #kindOf({ list }) {
    if (!list) return 'a file';
    const hash = this.chosen ?? hashOfList(lastPart(list.name));
    return `${this.#read(list).read.digest ? 'a digest' : 'a list'}${hash ? `, ${TITLES[hash]}` : ''}`;
  }
}

function folderKind({ refusal, items }) {
  if (refusal) return 'not handed over';
  const lists = [...items.values()].filter((it) => it.list).length;
  return `a folder with ${plural(items.size - lists, 'file')}${lists ? ` and ${plural(lists, 'list')}` : ''}`;
}
