// SPDX-License-Identifier: MIT OR Apache-2.0
// Which rows are shown: at most so many of each result.
const MOST_SHOWN = 1000; // rows of one result

export class View {
  #keys = new Map();
  #changed = new Map();
  #hidden;

  /** `waits` is what is said of rows without a result. */
  constructor(rows, waits = 'waits') {
    const counts = new Map();
    for (const row of rows) {
      const count = counts.get(row.result) ?? 0;
      counts.set(row.result, count + 1);
      if (count < MOST_SHOWN) this.#keys.set(row, this.#keys.size);
      this.draw(row, waits);
    }
    this.#hidden = rows.length - this.#keys.size;
  }

  /** Shows a row anew, with what it says meanwhile if it has no result. */
  draw(row, waits = 'waits') {
    if (this.#keys.has(row)) this.#changed.set(row, waits);
  }

  /** What has to be drawn since the last call. */
  taken() {
    const rows = [...this.#changed].map(([row, waits]) => {
      const { label, from, result, detail } = row;
      return { key: this.#keys.get(row), label, from, result, detail, waits };
    });
    this.#changed.clear();
    return { rows, hidden: this.#hidden };
  }
}
