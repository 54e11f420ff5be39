// SPDX-License-Identifier: MIT OR Apache-2.0
// What the worker does: it keeps what is added, reads lists and files one after another, and says what is to be shown.
import { Added } from './added.js';
import { keyOf } from './functions.js';
import { concluded, settle } from './judging.js';
import { shown } from './names.js';
import { jobsOf, planOf } from './plan.js';
import { faultNow, faultOf, isLong, piecesOfFile } from './reading.js';
import { stopped, verdictOf } from './verdict.js';
import { View } from './view.js';
import { writtenList } from './written.js';

const TELL_AFTER = 100; // milliseconds
const AT_ONCE = 32; // files that are looked at
const INTERRUPTED = Symbol('another command came');

/** What a reading of a file is for: a list that is new is never judged by an older reading. */
function purposeOf({ functions, rows }) {
  const of = rows.map((it) => it.list ? `list ${it.list.id}` : it.digest ?? '');
  return [...functions.map(keyOf), ...new Set(of)].sort().join(' ');
}

function progressOf({ total, taken, left, begun }) {
  return { progress: { total: Math.max(total, taken), taken, left, seconds: (performance.now() - begun) / 1000 } };
}

export class Engine {
  #library;
  #post;
  #queue = [];
  #working = null; // until all commands are done
  #isDue = false; // whether something has changed that is not judged yet
  #added;
  #number = 0; // of the last command
  #run = null;

  /** `post` is given what is to be shown. */
  constructor(library, post) {
    this.#library = library;
    this.#added = new Added(library);
    this.#post = post;
  }

  /** Takes a command: `add`, `give`, `paste`, `choose`, `use`, `remove`, `go`, `stop` or `write`. */
  take(command) {
    this.#queue.push(command);
    this.#working ??= this.#work();
    return this.#working;
  }

  /** What is checked by now. */
  get rows() {
    return this.#run.rows;
  }

  async #work() {
    try {
      while (this.#queue.length) {
        const command = this.#queue.shift();
        await this.#do(command);
        if (this.#isDue && command.kind !== 'stop' && !this.#queue.length) await this.#check();
      }
    } catch (error) {
      this.#post({ kind: 'broken', message: String(error?.message ?? error) });
    } finally {
      this.#working = null;
    }
  }

  /** Does a command, after which all is to be checked anew in most cases. */
  async #do({ kind, number, value }) {
    this.#number = number;
    if (kind === 'stop') return this.#interrupt();
    if (kind === 'write') return this.#write();
    if (kind === 'add') await this.#add(value);
    else if (kind === 'choose') this.#added.chosen = value;
    else if (kind !== 'go') await this.#added[kind](value);
    this.#isDue = true;
    this.#run = null;
  }

  /** Adds files and folders. Says how far they are compared with what was added before, until that is stopped. */
  async #add(value) {
    const files = [value.loose, ...value.folders.map((it) => it.files)].flat();
    const total = files.reduce((sum, { file }) => sum + file.size, 0);
    const far = { total, taken: 0, left: 1, begun: performance.now(), told: performance.now() };
    await this.#added.add(value, (bytes) => {
      far.taken += bytes;
      this.#tell(far, () => this.#post({ kind: 'comparing', ...progressOf(far) }));
      return !this.#queue.some(({ kind }) => kind === 'stop');
    });
  }

  /** Says what is to be checked. */
  #plan() {
    const added = this.#added;
    const { lists, digests, places, chosen } = added;
    const plan = planOf({ places, lists, digests, chosen });
    const jobs = jobsOf(plan.rows);
    const total = jobs.reduce((sum, it) => sum + it.item.file.size, 0);
    const far = { total, taken: 0, left: jobs.length, begun: performance.now(), told: 0 };
    const isGiven = lists.length > 0 || digests.length > 0;
    this.#run = { ...plan, jobs, lists, isGiven, view: new View(plan.rows), ...far };
    this.#say('plan', { summary: added.summary, ...added.things, notes: plan.notes });
  }

  /** Checks what was added, until all is done or another command comes. */
  async #check() {
    this.#plan();
    try {
      await this.#lookAgain(this.#run);
      for (const job of this.#run.jobs) if (!job.isDone) await this.#read(this.#run, job);
    } catch (error) {
      if (error !== INTERRUPTED) throw error;
      return;
    }
    if (!this.#queue.length) this.#judge(this.#run);
  }

  /** Says something, with the rows that have changed and how far the run is. */
  #say(kind, more = {}) {
    this.#post({ kind, number: this.#number, ...more, ...this.#run.view.taken(), ...progressOf(this.#run) });
  }

  #goOn() {
    if (this.#queue.length) throw INTERRUPTED;
  }

  /** Settles long files that were read before, for the same lists, if they are still there; and looks at lists. */
  async #lookAgain(run) {
    const known = run.jobs.filter((it) => isLong(it.item.file) && it.item.reading?.purpose === purposeOf(it));
    for (let at = 0; at < known.length; at += AT_ONCE) {
      this.#goOn();
      const some = known.slice(at, at + AT_ONCE);
      const faults = await Promise.all(some.map((it) => faultNow(it.item.file)));
      some.forEach((job, of) => this.#done(run, job, faults[of]));
    }
    for (const { item, bytes, name } of run.lists.filter((it) => it.item && !it.fault)) {
      this.#goOn();
      const fault = await faultNow(item.file, bytes);
      if (fault) run.notes.push(`${shown(name)}: ${fault}. Its lines here are those of before.`);
      run.hasChanged ||= fault !== undefined;
    }
  }

  /** Reads a file, for all rows that wait for it. */
  async #read(run, job) {
    const { item, functions } = job;
    try {
      const digests = await this.#digestsOf(run, job);
      item.reading = { purpose: purposeOf(job), digests: new Map(functions.map((it, at) => [keyOf(it), digests[at]])) };
      this.#done(run, job);
    } catch (error) {
      if (error === INTERRUPTED) throw error;
      this.#done(run, job, faultOf(error));
    }
  }

  async #digestsOf(run, job) {
    const { createHash } = this.#library;
    const messages = job.functions.map(({ hash, length }) => createHash(hash, { outputLength: length }));
    const before = run.taken;
    let taken = 0;
    this.#goOn();
    for await (const piece of piecesOfFile(job.item.file)) {
      for (const message of messages) message.update(piece);
      taken += piece.length;
      run.taken = before + taken;
      this.#goOn();
      this.#tell(run, () => {
        const share = `${Math.floor((100 * taken) / Math.max(1, job.item.file.size))} %`;
        for (const row of job.rows) run.view.draw(row, share);
        this.#say('draw');
      });
    }
    run.taken = before;
    return messages.map((message) => message.digest('hex'));
  }

  #done(run, job, fault) {
    job.isDone = true;
    run.left--;
    run.taken += job.item.file.size;
    if (fault !== undefined) job.item.reading = undefined;
    for (const row of job.rows) {
      settle(row, { digests: job.item.reading?.digests, fault });
      run.view.draw(row);
    }
    this.#tell(run, () => this.#say('draw'));
  }

  /** Says now and then how far it is. */
  #tell(far, say) {
    if (performance.now() - far.told < TELL_AFTER) return;
    far.told = performance.now();
    say();
  }

  #judge(run) {
    this.#isDue = false;
    Object.assign(run, { rows: concluded(run), comparisons: [] });
    run.view = new View(run.rows);
    const canWrite = writtenList(this.#library, run.rows, this.#added.places) !== null;
    this.#say('verdict', { ...verdictOf(run), notes: run.notes, canWrite, isStopped: false });
  }

  /** Says how far it came, or once more what came out if all was read by then. */
  #interrupt() {
    if (this.#run && !this.#isDue) return this.#judge(this.#run);
    if (!this.#run) this.#plan();
    this.#run.view = new View(this.#run.rows, 'stopped');
    this.#say('verdict', { ...stopped(this.#run), notes: [], canWrite: false, isStopped: true });
  }

  /** Gives the list of all rows. If they have changed since it was offered, they are said anew instead. */
  #write() {
    const written = this.#run && writtenList(this.#library, this.#run.rows, this.#added.places);
    if (written) this.#post({ kind: 'written', number: this.#number, ...written });
    else this.#isDue = true;
  }
}
