// SPDX-License-Identifier: MIT OR Apache-2.0
// The page: what a person does goes to the worker as a command, and what it says is shown.
import { TITLES } from './functions.js';
import { chosen, dropped, hasFiles } from './gather.js';
import { bakedList, ofAddress, sayGiven } from './given.js';
import { byId, clearRows, copyButton, drawRows, drawThings, element } from './table.js';

const TYPING = 300; // milliseconds without a key

/** A number of bytes, in units of a thousand. */
function sizeOf(bytes) {
  const units = ['bytes', 'kB', 'MB', 'GB', 'TB'];
  const unit = bytes < 1000 ? 0 : Math.min(units.length - 1, Math.floor(Math.log10(bytes) / 3));
  const value = bytes / 1000 ** unit;
  return `${value.toFixed(unit && value < 100 ? 1 : 0)} ${units[unit]}`;
}

// ---- the worker

const moduleBytes = Uint8Array.from(atob(byId('module').textContent), (it) => it.charCodeAt(0));
const workerUrl = URL.createObjectURL(new Blob([byId('worker').textContent], { type: 'text/javascript' }));
const baked = bakedList(byId('list'));
let worker = null;
let sent = 0;
let awaited = new Set(); // what is dropped or typed, and not sent yet
let isStopped = false;
let isBroken = false;

/** Takes the last verdict away, which is of what was there before. */
function wait(text) {
  if (isBroken) return;
  byId('results').setAttribute('aria-busy', 'true');
  byId('details').hidden = true;
  byId('save').hidden = true;
  say('', text, []);
}

function send(kind, value) {
  byId('results').dataset.commands = ++sent;
  if (isBroken) return;
  isStopped = kind === 'stop';
  if (kind === 'write') byId('results').setAttribute('aria-busy', 'true');
  else if (!isStopped) wait('Reading ..');
  worker.postMessage({ kind, value, number: sent });
}

/** Begins with nothing but what came with the page. */
function begin() {
  worker?.terminate();
  isBroken = false;
  awaited = new Set();
  worker = new Worker(workerUrl);
  worker.onmessage = ({ data }) => SHOW[data.kind](data);
  worker.onerror = (event) => SHOW.broken({ message: event.message ?? 'no worker' });
  worker.postMessage({ module: moduleBytes });
  const address = baked ? { digests: [], lists: [] } : ofAddress(location.hash);
  byId('ask').textContent = sayGiven(baked, address);
  send('give', { ...address, lists: baked ? [baked] : address.lists });
}

// ---- what it says

function showProgress({ total, taken, left, seconds }) {
  byId('progress').hidden = !left;
  byId('bar').max = Math.max(1, total);
  byId('bar').value = total ? taken : 1;
  const speed = taken / seconds;
  const rest = left ? `, ${Math.ceil((total - taken) / speed)} s left` : `, ${seconds.toFixed(1)} s`;
  const told = seconds > 1 && taken ? `, ${sizeOf(speed)} a second${rest}` : '';
  byId('speed').textContent = `${sizeOf(taken)} of ${sizeOf(total)}${told}`;
}

/** Draws all rows that are shown, and how far they are read. */
function drawAnew(told) {
  clearRows();
  SHOW.draw(told);
  byId('details').hidden = !told.rows.length;
}

/** Shows what all comes to. Notes stand beside the verdict, where they are told aloud with it. */
function say(state, text, notes) {
  byId('results').className = state;
  byId('verdict').textContent = text;
  byId('notes').replaceChildren(...notes.map((textContent) => element('li', { textContent })));
}

/** Brings the verdict into view, which is far below the form on a small screen. */
const showVerdict = () => byId('verdict').scrollIntoView({ block: 'nearest' });

/** Folds so many rows of what a list names and was not added. */
function foldMissing(count) {
  byId('fold').hidden = !count;
  byId('missing').checked = false;
  byId('foldtext').textContent = `Show ${count} more on the list, which ${count === 1 ? 'was' : 'were'} not added`;
  byId('details').classList.toggle('without-missing', count > 0);
}

/** Whether all that a person did is answered. */
function isAnswer(number) {
  const isLast = number === sent && !awaited.size;
  if (isLast) byId('results').setAttribute('aria-busy', 'false');
  return isLast;
}

const SHOW = {
  comparing({ progress }) {
    say('', 'Comparing with what was added before ..', []);
    showProgress(progress);
  },
  plan({ summary, things, more, notes, ...told }) {
    byId('added').textContent = summary;
    drawThings(things, more, { remove: (id) => send('remove', id), use: (id) => send('use', id) });
    drawAnew(told);
    foldMissing(0);
    byId('save').hidden = true;
    byId('stop').textContent = 'Stop';
    say('', told.progress.left ? 'Reading ..' : '', notes);
    if (told.progress.left) showVerdict();
  },
  draw({ rows, hidden, progress }) {
    drawRows(rows);
    const count = `${hidden} more row${hidden === 1 ? '' : 's'}`;
    byId('more').textContent = hidden ? `${count} of the kinds above, which are counted, and not shown.` : '';
    showProgress(progress);
  },
  verdict({ number, state, text, advice, notes, folded, canWrite, isAsking, isStopped: isEarly, ...told }) {
    if (!isAnswer(number)) return;
    drawAnew(told);
    say(state, text, [...advice, ...notes]);
    foldMissing(folded);
    byId('save').hidden = !canWrite;
    byId('progress').hidden = !isEarly;
    byId('stop').textContent = isEarly ? 'Go on' : 'Stop';
    if (!isAsking) showVerdict();
  },
  written({ number, name, text }) {
    const address = URL.createObjectURL(new Blob([text], { type: 'text/plain' }));
    element('a', { href: address, download: name }).click();
    setTimeout(() => URL.revokeObjectURL(address), 60000);
    byId('copy').replaceChildren(copyButton(text, name));
    isAnswer(number);
  },
  broken({ message }) {
    isBroken = true;
    worker.terminate();
    byId('progress').hidden = true;
    say('wrong', `This browser cannot run the hashes: ${message}`, []);
    byId('results').setAttribute('aria-busy', 'false');
  },
};

// ---- what a person does

let typing = 0;
let gathering = Promise.resolve();

const add = (selection, isList) => send('add', { ...selection, isList });

/** Adds what is dropped as soon as its files are found, one drop after another. */
function addDropped(coming) {
  const mine = awaited;
  mine.add(coming);
  wait('Looking for the files of what was dropped ..');
  gathering = gathering.then(async () => {
    const selection = await coming.catch(() => dropped({ items: [] }));
    mine.delete(coming);
    if (mine === awaited) add(selection, false);
  });
}

/** Takes the text when no key was pressed for a while. */
function typed() {
  clearTimeout(typing);
  awaited.add('typing');
  wait('');
  typing = setTimeout(() => {
    awaited.delete('typing');
    send('paste', byId('text').value);
  }, TYPING);
}

function startOver() {
  byId('text').value = '';
  byId('hash').value = '';
  clearTimeout(typing);
  begin();
  byId('files').focus();
}

const over = (isOver) => document.body.classList.toggle('over', isOver);
const on = (id, kind, does) => byId(id).addEventListener(kind, (event) => does(event.target));

for (const id of ['files', 'folder', 'lists']) on(id, 'change', (input) => add(chosen(input), id === 'lists'));
on('hash', 'change', (select) => send('choose', select.value || null));
on('missing', 'change', (box) => byId('details').classList.toggle('without-missing', !box.checked));
on('text', 'input', typed);
on('stop', 'click', () => send(isStopped ? 'go' : 'stop'));
on('write', 'click', () => send('write'));
on('anew', 'click', startOver);
addEventListener('hashchange', startOver);
addEventListener('dragover', (event) => {
  event.preventDefault();
  over(true);
});
addEventListener('dragleave', () => over(false));
addEventListener('drop', (event) => {
  event.preventDefault();
  over(false);
  const text = hasFiles(event.dataTransfer) ? '' : event.dataTransfer.getData('text');
  if (!text) return addDropped(dropped(event.dataTransfer));
  byId('text').value = text;
  typed();
});

byId('hash').append(...Object.entries(TITLES).map(([value, textContent]) => element('option', { value, textContent })));
begin();
