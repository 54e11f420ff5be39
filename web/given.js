// SPDX-License-Identifier: MIT OR Apache-2.0
// What comes with the page: a list that its maker has put into it, or a digest or a list in its address.
import { TITLES } from './functions.js';
import { quoted, shown } from './names.js';

const FIRST_DIGITS = 12;

/** The list in the page, `{ name, bytes }`, or null. */
export function bakedList(holder) {
  if (!holder?.dataset.name) return null;
  return { name: holder.dataset.name, bytes: Uint8Array.from(atob(holder.textContent), (it) => it.charCodeAt(0)) };
}

/** The key and the value of a part of an address. One without a value, or with a wrong one, has no key. */
function partOfAddress(part) {
  const [, key, value] = /^([^=]*)=(.*)$/s.exec(part) ?? ['', '', ''];
  try {
    return { key: key.toLowerCase(), value: decodeURIComponent(value) };
  } catch {
    return { key: '', value: '' };
  }
}

/** What an address asks for after its #: `sha256=DIGITS`, with `name=` for the file's, or `list=` and its lines. */
export function ofAddress(fragment) {
  const [digests, lists, names] = [[], [], []];
  for (const part of fragment.replace(/^#/, '').split('&').filter(Boolean)) {
    const { key, value } = partOfAddress(part);
    if (key === 'name' && !names.length) names.push(value);
    else if (key === 'list') {
      lists.push({ name: 'the list in the address', bytes: new TextEncoder().encode(value), isOfLink: true });
    } else if (Object.hasOwn(TITLES, key)) {
      digests.push({ hash: key, digits: value.trim(), title: 'the digest in the address' });
    } else digests.push({ title: 'the link', fault: `this page does not understand ${quoted(part)} in it` });
  }
  return { digests: digests.map((it) => ({ ...it, name: names[0] })), lists };
}

/** What is said of it, in plain text. */
export function sayGiven(baked, { digests, lists }) {
  if (baked) return `Whoever made this page put the list ${shown(baked.name)} into it: add your file, and see.`;
  if (!digests.length && !lists.length) return '';
  const first = digests.find((it) => !it.fault);
  const name = first?.name === undefined ? '' : ` of ${quoted(first.name)}`;
  const digest = first && `the digest ${quoted(`${first.digits.slice(0, FIRST_DIGITS)}..`)}${name}`;
  const what = digest ?? (lists.length ? 'a list' : 'what this page does not understand');
  return `The link that you followed asks for ${what}. Add your file, and see. OK says then that it is what the link ` +
    'asks for. Anybody can write such a link, so follow none but the maker’s own.';
}
