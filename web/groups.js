// SPDX-License-Identifier: MIT OR Apache-2.0
// Things by what they have in common.

/** The arrays of the things that have each key, by these keys, in their order. */
export function groupsOf(all, keyOfThing) {
  const groups = new Map();
  for (const it of all) {
    const key = keyOfThing(it);
    if (!groups.has(key)) groups.set(key, []);
    groups.get(key).push(it);
  }
  return groups;
}
