// SPDX-License-Identifier: MIT OR Apache-2.0
// Which of the files that were added a name in a list means.
import { groupsOf } from './groups.js';
import { folderOf, lastPart } from './names.js';
import { faulty } from './places.js';

const SEVERAL_FILES = 'several files of this name were added: remove all but one';
const SEVERAL_FOLDERS =
  'several folders have a file of this name: add the list within its folder, or remove the others';

/** The folder above, which is null outside of what was added. */
function above({ selection, place, folder }) {
  if (!place) return null;
  if (folder) return { selection, place, folder: folderOf(folder.slice(0, -1)) };
  return selection === undefined ? null : { selection };
}

/** Of what several selections have, what a list means that came by one of them: its own, or else the only one. */
function meant(found, selection) {
  const own = found.filter((it) => it.selection === selection);
  const all = own.length ? own : found;
  return all.length > 1 ? faulty(SEVERAL_FILES) : all[0] ?? null;
}

/** What a name means at the top of all that was added, as a folder or as a file by itself. */
function atTop(places, { selection }, name, isFolder) {
  return meant(places.named(isFolder, name), selection) ?? (places.named(!isFolder, name).length ? faulty() : null);
}

/** The folder of this name in a folder. A file on the way leads to none. */
function below(places, at, part) {
  if (!at.place) {
    const found = atTop(places, at, part, true);
    return found?.isFolder ? { ...at, place: found, folder: '' } : found;
  }
  const path = `${at.folder}${part}`;
  if (at.place.items.has(path)) return faulty();
  return at.place.folders.has(`${path}/`) ? { ...at, folder: `${path}/` } : at.place.at(path);
}

/**
 * What a name leads to from a folder, `{ place, folder }`, or from the top of all, `{ selection }`: an item, or none
 * and the fault that it has. Null if there is nothing.
 */
function named(places, from, name) {
  if (name.startsWith('/')) return null;
  const parts = name.split('/');
  // a name that ends with a slash is one of a folder
  const last = ['', '.', '..'].includes(parts.at(-1)) ? '' : parts.pop();
  let at = from;
  for (const part of parts) {
    if (part === '' || part === '.') continue;
    const next = part === '..' ? above(at) : below(places, at, part);
    if (!next || next.fault) return next;
    at = next;
  }
  if (!last) return faulty();
  if (at.place) return at.place.at(`${at.folder}${last}`);
  const found = atTop(places, at, last, false);
  return found && !found.fault ? found.at(last) : found;
}

/** What a name means from the tops of these folders, where only one may have it. */
function amongTops(places, tops, name) {
  const found = tops.map((place) => named(places, { place, folder: '' }, name)).filter(Boolean);
  return tops.length > 1 && found.length ? faulty(SEVERAL_FOLDERS) : found[0] ?? null;
}

/** The one file that was added by itself under this name, or null. */
function alone(places, name) {
  const found = places.named(false, name);
  const meaning = found.length === 1 ? found[0].at(name) : null;
  return meaning?.item ? meaning : null;
}

/**
 * What finds the file of a name in a list. All of its names count from one folder: that of the list, or else, where
 * none of them is there, from the top of a folder that was added.
 */
function finderOf({ item, selection }, places, names) {
  const from = (start) => (name) => named(places, start, name);
  const isThere = (find) => names.some(find);
  const isInFolder = item?.place.isFolder === true;
  const own = from(isInFolder ? { place: item.place, folder: folderOf(item.path) } : { selection });
  const tops = isInFolder ? [item.place] : places.folders.filter((place) => isThere(from({ place, folder: '' })));
  const top = (name) => amongTops(places, tops, name);
  const isElsewhere = !isThere(own) && isThere(top);
  return { find: isElsewhere ? top : own, isElsewhere };
}

/**
 * What each of these names in a list means: `{ item, fault, about, isOther }`, where `isOther` says that the file is
 * called otherwise here, or null if there is none. A file that was added by itself may be named with a folder, if no
 * other name ends like it.
 */
export function meaningsOf(list, places, names) {
  const { find, isElsewhere } = finderOf(list, places, names);
  const namesByEnd = groupsOf(new Set(names), lastPart);
  return (name) => {
    const found = find(name);
    const mayBeAlone = !list.item?.place.isFolder && namesByEnd.get(lastPart(name)).length === 1;
    const meaning = found ?? (mayBeAlone ? alone(places, lastPart(name)) : null);
    return meaning && { ...meaning, isOther: !found || isElsewhere || meaning.item?.place.isRenamed === true };
  };
}
