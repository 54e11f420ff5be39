// SPDX-License-Identifier: MIT OR Apache-2.0
// What is to be checked: the rows of the page, without the page, and the files that have to be read for them.
import { keyOf, wholeOf } from './functions.js';
import { groupsOf } from './groups.js';
import { meaningsOf } from './meaning.js';
import { lastPart, quoted, shown } from './names.js';

/** The results of a row, as `sums check` names them, and others: of what has no hash or no list that is known. */
export const RESULT = {
  ok: 'OK', failed: 'FAILED', unmatched: 'NO MATCH', missing: 'MISSING', unreadable: 'UNREADABLE',
  malformed: 'MALFORMED', unlisted: 'NOT LISTED', digest: 'DIGEST',
};
const NO_DETAIL = Object.freeze([]); // one for all of half a million rows

// ---- rows: a label, what they are of, and a result as soon as there is one

export const settled = (label, result, detail = NO_DETAIL, item = null) =>
  ({ label, result, detail, item, from: '', list: null });

/** A row that waits for the digests of a file by these functions, one of which has to be `digest` if there is one. */
const waiting = (label, item, of, digest, remark = '') =>
  ({ label, result: '', detail: NO_DETAIL, item, from: '', list: null, of, digest, remark });

/** A row that waits for an item, or says what is wrong with it. */
function rowOf(item, of, digest, remark) {
  const label = shown(item.name);
  return item.fault ? settled(label, RESULT.unreadable, [item.fault], item) : waiting(label, item, of, digest, remark);
}

export const unlisted = (item) => settled(shown(item.name), RESULT.unlisted, NO_DETAIL, item);

/** The row of a line, whose name means a file, has a fault, or means nothing. */
function lineRow({ line, name, digest, of, isUnsigned }, meaningOf, shownName) {
  if (name === null) return settled(`line ${line}`, RESULT.malformed);
  const label = shownName(name);
  const meaning = meaningOf(name);
  if (!meaning) return settled(label, RESULT.missing);
  if (meaning.fault) return settled(label, RESULT.unreadable, [meaning.fault], meaning.about);
  const other = meaning.isOther ? `, of the file ${shown(meaning.item.name)}` : '';
  return waiting(label, meaning.item, of, digest, `${other}${isUnsigned ? ', outside of the signed text' : ''}`);
}

/** The rows of a list, and the notes on it. */
function listPart(list, places) {
  const name = shown(list.name);
  const { lines, notes, fault } = list.read;
  const meaningOf = meaningsOf(list, places, lines.flatMap((it) => it.name ?? []));
  const rows = lines.map((it) => lineRow(it, meaningOf, list.isOfLink ? quoted : shown));
  if (fault) rows.push(settled(name, RESULT.unreadable, [fault]));
  for (const row of rows) row.list = list;
  return { from: name, rows, notes: notes.map((it) => `${name}: ${it}`) };
}

/**
 * The rows of a digest alone, which is compared with the files that are called as it says, or else with each file that
 * was added, lists too. `isSure` says that it is of these. Otherwise it is if `isOne`, when there is but one of either.
 */
function digestPart(digest, items, isOne) {
  const { title, of, fault, name } = digest;
  if (fault) return { from: title, digest, rows: [settled(title, RESULT.malformed, [fault])], isSure: true };
  const own = items.filter((it) => lastPart(it.path) === name);
  const remark = name === undefined || own.length ? '' : `, of the file that is called ${quoted(name)} there`;
  const rows = (own.length ? own : items).map((it) => rowOf(it, of, digest.digest, remark));
  return { from: title, digest, rows, isSure: own.length > 0 || isOne };
}

const closedRow = ({ place, path, fault }) =>
  settled(shown(path ? `${place.label}/${path}` : place.label), RESULT.unreadable, [fault]);

/**
 * The rows and the notes of what was added: `places`, `lists` of `{ name, item, selection, read }`, where `read` is
 * what readList gives, `digests` that stand alone, and the hash that was chosen, or null. `files` are no lists,
 * `comparisons` have the rows of each digest, and `isOfFolder` says that a folder was added.
 */
export function planOf({ places, lists, digests, chosen }) {
  const files = places.items.filter((it) => !it.list);
  const items = places.items.filter((it) => !it.list?.read.digest);
  const ofLists = lists.filter((it) => !it.read.digest).map((it) => listPart(it, places));
  const isOne = [digests, items, files].every((it) => it.length === 1) && !places.closed.length;
  const comparisons = digests.map((it) => digestPart(it, items, isOne));
  const parts = [...ofLists, ...comparisons];
  if (parts.length > 1) for (const { from, rows } of parts) for (const row of rows) row.from = from;
  const rows = parts.flatMap((it) => it.rows);
  const had = new Set(rows.map((it) => it.item));
  const isJudged = ofLists.length > 0 || digests.some((it) => !it.fault);
  const other = (it) => (isJudged && !it.fault ? unlisted(it) : rowOf(it, [wholeOf(chosen ?? 'sha256')]));
  rows.push(...files.filter((it) => !had.has(it)).map(other));
  rows.push(...places.closed.filter((it) => !had.has(it)).map(closedRow));
  const isOfFolder = places.folders.length > 0;
  return { rows, files, comparisons, isOfFolder, notes: ofLists.flatMap((it) => it.notes) };
}

// ---- files: which digests are needed of each

/** Of each item that rows wait for, these rows, and the functions of its digests. */
export function jobsOf(rows) {
  const functionsOf = (all) => [...new Map(all.flatMap((it) => it.of).map((it) => [keyOf(it), it])).values()];
  const groups = groupsOf(rows.filter((it) => !it.result), (it) => it.item);
  return [...groups].map(([item, all]) => ({ item, rows: all, functions: functionsOf(all) }));
}
