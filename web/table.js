// SPDX-License-Identifier: MIT OR Apache-2.0
// The elements that show rows, things that were added, and texts to be copied. Whatever comes from outside is text.

export const byId = (id) => document.getElementById(id);
export const element = (name, properties) => Object.assign(document.createElement(name), properties);

const LINE_OF_DIGITS = /.{1,32}/g; // so that no line of a digest ends with a few of them
const lines = new Map();

/** A part of the table, whose role stays where a narrow screen lays it out in another way. */
function cellOf(name, role) {
  const cell = element(name);
  cell.setAttribute('role', role);
  return cell;
}

function lineOf({ label, from }) {
  const name = cellOf('th', 'rowheader');
  name.scope = 'row';
  name.append(element('bdi', { textContent: label }));
  if (from) {
    const by = element('div', { className: 'from', textContent: 'by ' });
    by.append(element('bdi', { textContent: from }));
    name.append(by);
  }
  const line = cellOf('tr', 'row');
  line.append(name, cellOf('td', 'cell'), cellOf('td', 'cell'));
  return line;
}

function button(textContent, label, does) {
  const made = element('button', { type: 'button', textContent });
  made.setAttribute('aria-label', label);
  made.addEventListener('click', does);
  return made;
}

/** A button that copies a text. */
export function copyButton(text, what) {
  const made = button('Copy', `Copy ${what}`, async () => {
    made.textContent = (await copy(text)) ? 'Copied' : 'Not copied';
  });
  made.className = 'copy';
  return made;
}

async function copy(text) {
  try {
    await navigator.clipboard.writeText(text);
    return true;
  } catch {
    return copySelected(text);
  }
}

/** Copies a text if a page has no clipboard, such as on a server without TLS. */
function copySelected(text) {
  const area = element('textarea', { value: text, readOnly: true });
  document.body.append(area);
  area.select();
  const isDone = document.execCommand('copy');
  area.remove();
  return isDone;
}

function partOf(part, { result, label }) {
  if (!part.code) return [part];
  const digits = element('code');
  for (const line of part.code.match(LINE_OF_DIGITS)) digits.append(line, element('wbr'));
  const isOwn = result === 'OK' || result === 'DIGEST';
  return isOwn ? [digits, ' ', copyButton(part.code, `the digest of ${label}`)] : [digits];
}

function fill(line, row) {
  line.className = (row.result || 'waits').toLowerCase().replace(' ', '-');
  const [, resultCell, detailCell] = line.children;
  resultCell.textContent = row.result || row.waits;
  detailCell.replaceChildren(...row.detail.flatMap((it) => partOf(it, row)));
}

export function clearRows() {
  lines.clear();
  byId('rows').replaceChildren();
}

/** Draws rows, new ones at the end. */
export function drawRows(rows) {
  for (const row of rows) {
    if (!lines.has(row.key)) {
      lines.set(row.key, lineOf(row));
      byId('rows').append(lines.get(row.key));
    }
    fill(lines.get(row.key), row);
  }
}

/** Draws what was added, each with a button that removes it, and with one for each file that is a list by its lines. */
export function drawThings(things, more, { remove, use }) {
  const lineOfThing = ({ id, label, kind, canUse }) => {
    const line = element('li');
    line.append(element('bdi', { textContent: label }), `, ${kind} `);
    line.append(button('Remove', `Remove ${label}`, () => remove(id)));
    for (const it of canUse) {
      const offer = element('div', { className: 'offer' });
      offer.append(element('bdi', { textContent: it.label }), ' has the lines of a list. ');
      offer.append(button('Use it as a list', `Use ${it.label} as a list`, () => use(it.id)));
      line.append(offer);
    }
    return line;
  };
  const rest = more ? [element('li', { textContent: `and ${more} more` })] : [];
  byId('things').replaceChildren(...things.map(lineOfThing), ...rest);
}
