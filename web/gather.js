// SPDX-License-Identifier: MIT OR Apache-2.0
// The files of an input and of what was dropped, as one selection: files by themselves, and folders.
import { groupsOf } from './groups.js';

const CLOSED = 'the browser could not read it';
const CLOSED_TOP = 'the browser does not let this page read it: choose it as “A whole folder”';
const NO_FILE = 'the browser handed over no file';

/** What was chosen or dropped, and not handed over: it is named as a folder that is closed as a whole. */
const closedTop = (name, fault) => ({ name, files: [], closed: [{ path: '', fault }] });

/**
 * The folder that was chosen, and the path of a file below it. The file's own name keeps a backslash. The name of a
 * folder may not, so that of the one that was chosen may begin with a slash.
 */
function partsOf(file) {
  const above = file.webkitRelativePath.slice(0, -file.name.length);
  const [name] = /^\/*[^/]*/.exec(above);
  return { name, path: above.slice(name.length + 1) + file.name };
}

/** What an input has, which is emptied, so that a file that has changed can be added again. */
export function chosen(input) {
  const files = [...input.files];
  input.value = '';
  const loose = files.filter((it) => !it.webkitRelativePath).map((file) => ({ path: file.name, file }));
  const parts = files.filter((it) => it.webkitRelativePath).map((file) => ({ file, ...partsOf(file) }));
  const folders = [...groupsOf(parts, (it) => it.name)].map(([name, all]) => ({ name, files: all, closed: [] }));
  return { loose, folders: files.length ? folders : [closedTop('what was chosen', NO_FILE)] };
}

const promised = (call) => new Promise((resolve, reject) => call(resolve, reject));

/** All that a reader of a folder gives, which is some at a time. */
async function allOf(reader) {
  const all = [];
  for (;;) {
    const some = await promised((resolve, reject) => reader.readEntries(resolve, reject));
    if (!some.length) return all;
    all.push(...some);
  }
}

/** Adds an entry to what a folder has. What cannot be read is reported, and the rest is added. */
async function gather(entry, path, folder) {
  try {
    if (entry.isFile) {
      folder.files.push({ path, file: await promised((resolve, reject) => entry.file(resolve, reject)) });
    } else {
      const entries = await allOf(entry.createReader());
      for (const it of entries) await gather(it, path ? `${path}/${it.name}` : it.name, folder);
    }
  } catch {
    folder.closed.push({ path, fault: path ? CLOSED : CLOSED_TOP });
  }
}

/** Whether files or folders are dropped, and not a text. */
export const hasFiles = (transfer) => [...transfer.items].some((it) => it.kind === 'file');

/** What was dropped. Chromium gives the files of a folder to no page that is a file itself. */
export async function dropped(transfer) {
  const items = [...transfer.items].filter((it) => it.kind === 'file');
  // both have to be asked for before the event ends
  const both = items.map((it) => [it.webkitGetAsEntry?.(), it.getAsFile()]);
  const selection = { loose: [], folders: both.length ? [] : [closedTop('what was dropped', NO_FILE)] };
  for (const [entry, file] of both) {
    if (entry?.isDirectory) {
      const folder = { name: entry.name, files: [], closed: [] };
      await gather(entry, '', folder);
      selection.folders.push(folder);
    } else if (file) selection.loose.push({ path: file.name, file });
    else selection.folders.push(closedTop(entry?.name ?? 'what was dropped', NO_FILE));
  }
  return selection;
}
