// SPDX-License-Identifier: MIT OR Apache-2.0

const PAGE = 65536;
/** How many bytes of a message are in the module's memory at once. */
export const CHUNK = 262144;
/** How many bytes can be there at once, of keys and whatever else has to be there as a whole. */
export const ROOM = 2 ** 24;
// After what the module itself uses come two pages with the slot, and then input and output. The longest state is that
// of a list, which is longer than one page.
const SLOT = 2 * PAGE;

const REFUSALS = [
  '',
  'the function has no output of that length',
  'the function takes no key or salt of that length',
  'the message is longer than the function takes',
  'the message was never begun',
  'the output has no such bytes',
  'the function takes no pieces of that length',
  'the output has another length than the digests',
  'no list is of such a hash',
  'no line has that name: it is empty, not UTF-8, has a NUL, or is too long',
  'there is no such verdict',
];
export const DIGEST_LENGTH = 1;
export const KEY_LENGTH = 2;
export const INPUT_TOO_LONG = 3;
export const END_OF_OUTPUT = 5;
export const NO_LINE = 9;

/** What cannot be done. `status` is its number in `sums_hash.h`. */
export class Refused extends RangeError {
  constructor(status, text = REFUSALS[status] ?? `status ${status}`) {
    super(text);
    this.name = 'Refused';
    this.status = status;
  }
}

/** A length in bytes that the function has. */
export function within(length, what, { least, most }, status) {
  if (length >= least && length <= most) return length;
  throw new Refused(status, `${what} must be ${least === most ? most : `between ${least} and ${most}`} bytes`);
}

const lengthOfAll = (all) => all.reduce((sum, it) => sum + it.length, 0);

/**
 * An instance of the module, and a slot in its memory for the state of one message.
 *
 * The module keeps nothing between two calls. A state is an array of bytes, and the one that was used last stays in the
 * slot until another is, so that a message in many pieces is moved once. Nothing has to be released.
 *
 * A call that throws, such as when the stack runs out, may leave anything in the module's memory. So the instance is let go
 * before each call and taken back after it. If it was not taken back, the next use makes a new one.
 */
export class Machine {
  #module;
  #spare;
  #instance = null;
  #memory = null;
  #base = 0;
  #resident = null;

  /** `instance` is one of the module that nobody else uses. Browsers may refuse to make one here, outside a worker. */
  constructor(module, instance = new WebAssembly.Instance(module)) {
    this.#module = module;
    this.#spare = instance;
    this.#take();
  }

  #take() {
    if (this.#instance) return;
    this.#resident = null;
    const instance = this.#spare ?? new WebAssembly.Instance(this.#module);
    this.#spare = null;
    this.#base = instance.exports.memory.grow((SLOT + CHUNK) / PAGE) * PAGE;
    this.#memory = new Uint8Array(instance.exports.memory.buffer);
    this.#instance = instance;
  }

  /** Moves the state that is in the slot back to its array. */
  empty() {
    this.#take();
    const state = this.#resident;
    state?.set(this.#memory.subarray(this.#base, this.#base + state.length));
    this.#resident = null;
  }

  /** Moves a state into the slot, where calls find it. */
  enter(state) {
    this.#take();
    if (this.#resident === state) return;
    this.empty();
    this.#memory.set(state, this.#base);
    this.#resident = state;
  }

  /** Forgets a state that nobody needs any more. */
  forget(state) {
    if (this.#resident === state) this.#resident = null;
  }

  #answer(name, words) {
    const instance = this.#instance;
    this.#instance = null;
    const answer = instance.exports[`sums_${name}`](...words);
    this.#instance = instance;
    return answer;
  }

  /** Calls a function of the header. */
  call(name, ...words) {
    const status = this.#answer(name, words);
    if (status) throw new Refused(status);
  }

  /** The length that a function of the header has for numbers and an argument. */
  lengthOf(name, numbers, argument) {
    this.empty();
    return Number(this.#answer(name, [...numbers, ...this.put(argument)]));
  }

  /** The slot, as a word of a call. */
  get slot() {
    return BigInt(this.#base);
  }

  /** The place so many bytes after the start of input and output, as a word of a call. */
  input(offset = 0) {
    return BigInt(this.#base + SLOT + offset);
  }

  /** Makes room for so many bytes of input and output. */
  room(length) {
    if (length > ROOM) throw new RangeError(`more than ${ROOM} bytes that have to be in memory at once`);
    const lack = this.#base + SLOT + length - this.#memory.length;
    if (lack <= 0) return;
    const instance = this.#instance;
    this.#instance = null;
    instance.exports.memory.grow(Math.ceil(lack / PAGE));
    this.#memory = new Uint8Array(instance.exports.memory.buffer);
    this.#instance = instance;
  }

  write(data, offset = 0) {
    this.#memory.set(data, this.#base + SLOT + offset);
  }

  /** So many bytes of output, until something else is written there. */
  view(length, offset = 0) {
    const at = this.#base + SLOT + offset;
    return this.#memory.subarray(at, at + length);
  }

  /** A copy of so many bytes of output. */
  read(length, offset = 0) {
    return this.view(length, offset).slice();
  }

  /** Writes arguments one after the other: for each the two words of a call, its place and its length. */
  put(...all) {
    this.room(lengthOfAll(all));
    let at = 0;
    return all.flatMap((it) => {
      this.write(it, at);
      const words = [this.input(at), BigInt(it.length)];
      at += it.length;
      return words;
    });
  }

  /** The output, of so many bytes, of a call on no state: it gets words for output and arguments, in this order. */
  output(length, all, call) {
    const behind = lengthOfAll(all);
    this.empty();
    this.room(behind + length);
    const words = this.put(...all);
    call(this.input(behind), BigInt(length), ...words);
    return this.read(length, behind);
  }
}
