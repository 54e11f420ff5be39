// SPDX-License-Identifier: MIT OR Apache-2.0
// What came out: the result of each row, as soon as its file is read, and what the rows come to in the end.
import { keyOf, titleOf } from './functions.js';
import { groupsOf } from './groups.js';
import { RESULT, settled, unlisted } from './plan.js';

const code = (text) => ({ code: text });
const titlesOf = (of) => of.map(titleOf).join(', ');

/** Sets the result of a row that is right by none of its functions. Only that of one hash is FAILED. */
function settleWrong(row, digests) {
  const { of, digest, remark } = row;
  if (of.length > 1) {
    const detail = [`none of ${titlesOf(of)}${remark} gives `, code(digest), '. Choose its hash above'];
    return Object.assign(row, { result: RESULT.unmatched, detail });
  }
  const got = code(digests.get(keyOf(of[0])));
  const detail = [`${titlesOf(of)}${remark}: it is `, got, ', and it should be ', code(digest)];
  return Object.assign(row, { result: RESULT.failed, detail });
}

/** Sets the result of a row, by its file's digests under their keys, or by the fault with which it was read. */
export function settle(row, { digests, fault }) {
  if (fault !== undefined) return Object.assign(row, { result: RESULT.unreadable, detail: [fault] });
  if (row.digest === undefined) {
    const detail = row.of.flatMap((it) => [`${titleOf(it)} `, code(digests.get(keyOf(it)))]);
    return Object.assign(row, { result: RESULT.digest, detail });
  }
  const right = row.of.find((it) => digests.get(keyOf(it)) === row.digest);
  if (!right) return settleWrong(row, digests);
  const detail = [`${titleOf(right)}${row.remark} `, code(row.digest)];
  return Object.assign(row, { result: RESULT.ok, right, detail });
}

// ---- lines that do not say their hash

/** The function that more of these rows are right by than by any other one, or null. */
function mostOf(rows) {
  const groups = [...groupsOf(rows.filter((it) => it.right), (it) => it.right).values()];
  const [most = [], next = []] = groups.sort((one, two) => two.length - one.length);
  return most.length > next.length ? most[0].right : null;
}

/** Settles the lines of one list and one length that do not say their hash, which is the one of most of them. */
function settleOpen(rows) {
  const most = mostOf(rows);
  const isRight = new Set(rows.filter((it) => it.right).map((it) => it.item));
  for (const row of rows) {
    if (row.right && row.right !== most) {
      const detail = `${titleOf(row.right)} gives it, and other lines here are of another hash. Choose one above`;
      Object.assign(row, { result: RESULT.unmatched, detail: [detail] });
    } else if (row.result === RESULT.unmatched && most && !isRight.has(row.item)) {
      settleWrong(Object.assign(row, { of: [most] }), row.item.reading.digests);
    }
  }
}

// ---- all rows

const isWrong = ({ result }) => [RESULT.failed, RESULT.unmatched].includes(result);

/**
 * The rows in the end. A digest alone is of the file that has it, and of no other one; if none has it, a row says so.
 * What it is not of counts as not listed.
 */
export function concluded({ rows, files, comparisons }) {
  const open = rows.filter((it) => it.list && it.of?.length > 1);
  for (const group of groupsOf(open, (it) => `${it.list.id} ${it.digest.length}`).values()) settleOpen(group);
  const unsure = comparisons.filter((it) => !it.isSure);
  const missed = new Set(unsure.flatMap((it) => it.rows.filter(isWrong)));
  const all = rows.filter((it) => !missed.has(it));
  for (const { digest, rows: its } of unsure) {
    const isMissed = its.some((it) => missed.has(it)) && !its.some((it) => it.result === RESULT.ok);
    const detail = [`no file that was added has the digest by ${titlesOf(digest.of)}: `, code(digest.digest)];
    if (isMissed) all.push(settled(digest.title, RESULT.unmatched, detail));
  }
  const had = new Set(all.map((it) => it.item));
  return [...all, ...files.filter((it) => !had.has(it)).map(unlisted)];
}
