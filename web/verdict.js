// SPDX-License-Identifier: MIT OR Apache-2.0
// What the rows say together, in words for whoever never saw a list.
import { groupsOf } from './groups.js';
import { someOf } from './names.js';
import { RESULT } from './plan.js';

const WRONG = [RESULT.failed, RESULT.unmatched, RESULT.unreadable, RESULT.malformed];
const IN_ORDER = Object.values(RESULT);
const WRONG_FIRST = [...WRONG, ...IN_ORDER.filter((it) => !WRONG.includes(it))];

const MEANING = {
  [RESULT.ok]: 'OK: the file has exactly the content that the list, or the digest, was made of.',
  [RESULT.failed]: 'FAILED: the file has another content. It is damaged, not whole, of another version, or somebody ' +
    'changed it. Do not use it. Download it again, from the maker’s own site.',
  [RESULT.unmatched]: 'NO MATCH: no file here has this digest, as far as its hash is known. The file is another one, ' +
    'or damaged, or the digest is of another hash: choose that above, and do not use the file before it is OK.',
  [RESULT.missing]: 'MISSING: the list names a file that was not added here.',
  [RESULT.unreadable]: 'UNREADABLE: the file was not compared, and nothing is known of it. Its row says why.',
  [RESULT.malformed]: 'MALFORMED: this line cannot be read, so that nothing is known of the file that it may name.',
  [RESULT.unlisted]: 'NOT LISTED: no list names this file, so that nothing is known of it.',
  [RESULT.digest]: 'DIGEST: these digits stand for the content of the file. To know whether it is the right file, ' +
    'add the maker’s list, or paste the digest that the maker has published.',
};

export const plural = (count, name) => `${count} ${name}${count === 1 ? '' : 's'}`;

/** How many rows have each result, in the order of the results; rows without one are left out. */
function counts(rows) {
  const groups = groupsOf(rows, (it) => it.result);
  return IN_ORDER.filter((it) => groups.has(it)).map((it) => [it, groups.get(it).length]);
}

/** The counts in words, each on one line with its result. */
const told = (all) => all.map(([result, count]) => `${count} ${result}`.replaceAll(' ', '\u00a0')).join(', ');

/** The names of rows that failed, since their lines may stand far below. */
function failedNames(rows) {
  const failed = rows.filter((it) => it.result === RESULT.failed);
  const names = failed.map((it) => it.from ? `${it.label} (${it.from})` : it.label);
  return names.length ? [`FAILED: ${someOf(names)}.`] : [];
}

/** What is said if no file was added yet. */
function asking(rows, count) {
  if (count.has(RESULT.unreadable)) return { state: 'wrong', text: 'The list cannot be read.' };
  const names = count.get(RESULT.missing) ?? 0;
  if (!names && count.has(RESULT.malformed)) {
    const what = rows.some((it) => it.list) ? 'No line of the list' : 'No digest';
    return { state: 'wrong', text: `${what} can be read.` };
  }
  if (!names) return { state: '', text: 'Now add the file.' };
  return { state: '', text: `Now add the files. The list names ${names === 1 ? 'one' : names}.` };
}

/** What is said if files were added, and at least one row has a result. A folder lacks what is missing. */
function judging(rows, count, isOfFolder) {
  const all = [...count];
  const one = (result) => rows.find((it) => it.result === result)?.label;
  const judged = all.filter(([it]) => it !== RESULT.missing);
  const [[result, times] = []] = judged;
  if (WRONG.some((it) => count.has(it))) {
    const isOne = judged.length === 1 && times === 1 && [RESULT.failed, RESULT.unmatched].includes(result);
    return { state: 'wrong', text: isOne ? `${one(result)}: ${result}` : `Something is wrong: ${told(all)}` };
  }
  const rest = all.filter(([it]) => it !== RESULT.ok && (it !== RESULT.missing || isOfFolder));
  // of one file there are several rows if several lists name it
  const ok = new Set(rows.filter((it) => it.result === RESULT.ok).map((it) => it.item)).size;
  const opening = count.has(RESULT.digest) ? 'No list yet' : 'Nothing was compared';
  if (!ok) return { state: '', text: `${opening}: ${told(all)}` };
  const text = ok === 1 ? `${one(RESULT.ok)}: OK` : `${ok} files: OK`;
  return rest.length ? { state: '', text: `${text}. Also ${told(rest)}` } : { state: 'ok', text };
}

/**
 * What the rows of a run say together: whether all is `ok`, something is `wrong`, or neither; a text; advice, in which
 * what is wrong comes first; how many rows are `folded`; and whether there is something to compare with, and no file.
 */
export function verdictOf({ rows, isGiven, isOfFolder, hasChanged, lists }) {
  const count = new Map(counts(rows));
  const isAsking = isGiven && rows.every((it) => !it.item);
  if (!count.size && !isAsking) return { state: '', text: '', advice: [], folded: 0, isAsking: true };
  const { state, text } = isAsking ? asking(rows, count) : judging(rows, count, isOfFolder);
  const explained = WRONG_FIRST.filter((it) => count.has(it) && !(isAsking && it === RESULT.missing));
  const names = text.endsWith(`: ${RESULT.failed}`) ? [] : failedNames(rows);
  const hasDoubt = hasChanged || lists.some((it) => it.read.isPartlySigned);
  const missing = isOfFolder ? 0 : count.get(RESULT.missing) ?? 0;
  return {
    state: state === 'ok' && hasDoubt ? '' : state, text, advice: [...names, ...explained.map((it) => MEANING[it])],
    folded: missing < rows.length ? missing : 0, isAsking,
  };
}

/** What is said of a run that is stopped. */
export function stopped({ rows, left }) {
  const all = counts(rows.filter((it) => it.result));
  const text = `Stopped: ${[...(all.length ? [told(all)] : []), `${plural(left, 'file')} not read`].join(', ')}`;
  const state = all.some(([it]) => WRONG.includes(it)) ? 'wrong' : '';
  return { state, text, advice: [], folded: 0, isAsking: false };
}
