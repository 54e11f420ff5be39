// SPDX-License-Identifier: MIT OR Apache-2.0
// Names of files: how they are shown, and their parts.

const SPECIAL = /[\\\u0000-\u001f\u007f-\u009f\u061c\u200e\u200f\u2028-\u202e\u2066-\u2069]/g;
const SHORT = { '\\': '\\\\', '\n': '\\n', '\r': '\\r' };

/** A name as one line that no character of it hides or turns, as `sums` shows names on standard error. */
export function shown(name) {
  return name.replace(SPECIAL, (it) => {
    if (SHORT[it]) return SHORT[it];
    const digits = it.charCodeAt(0).toString(16);
    return it < '\u0100' ? `\\x${digits.padStart(2, '0')}` : `\\u{${digits}}`;
  });
}

const MOST_QUOTED = 100; // characters
/** Words of somebody else, such as those of a link: in quotes, bounded, and so that they turn nothing beside them. */
export function quoted(text) {
  const characters = [...text];
  const end = characters.length > MOST_QUOTED ? '..' : '';
  return `“\u2068${shown(characters.slice(0, MOST_QUOTED).join(''))}${end}\u2069”`;
}

const MOST_NAMED = 3;
/** Some of these names, and how many more there are. */
export function someOf(names) {
  const more = names.length > MOST_NAMED ? `, and ${names.length - MOST_NAMED} more` : '';
  return `${names.slice(0, MOST_NAMED).join(', ')}${more}`;
}

export const lastPart = (path) => path.slice(path.lastIndexOf('/') + 1);
/** The folder of a path, with its slash, or nothing. */
export const folderOf = (path) => path.slice(0, path.lastIndexOf('/') + 1);

/** Each folder on the way to a path, with its slash. */
export function foldersOf(path) {
  const folders = [];
  for (let end = path.lastIndexOf('/'); end > 0; end = path.lastIndexOf('/', end - 1)) {
    folders.push(path.slice(0, end + 1));
  }
  return folders;
}
