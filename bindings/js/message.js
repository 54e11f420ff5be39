// SPDX-License-Identifier: MIT OR Apache-2.0
import { bytesOf, encoderOf, whole, withText } from './bytes.js';
import { CHUNK, DIGEST_LENGTH, END_OF_OUTPUT, Refused, within } from './machine.js';

const TAKEN = 'the digest was taken: begin anew, or take a copy() before it';
const LOST = 'a call on this message did not end: begin anew';
/** The longest output that is read at once. */
export const LONGEST = 2 ** 32 - 1;
const LAST = 2n ** 64n - 1n; // the end of an output

/** The options that are given, each read once. One that is not known is refused: without it the digest is another. */
export function optionsOf(options, known) {
  if (options === undefined || options === null) return {};
  if (typeof options !== 'object') throw new TypeError('options must be an object');
  for (const name of Object.keys(options)) {
    if (!known.includes(name)) throw new TypeError(`there is no option ${name}: the options are ${known.join(', ')}`);
  }
  return Object.fromEntries(known.filter((name) => name in options).map((name) => [name, options[name]]));
}

/** The option `outputLength`: a number of bytes that the function has as an output. */
export function outputLengthOf({ outputLength }, { byDefault, least, most }) {
  if (outputLength === undefined) return byDefault;
  if (!Number.isSafeInteger(outputLength)) return whole(outputLength, 'outputLength', least, most);
  return within(outputLength, 'outputLength', { least, most }, DIGEST_LENGTH);
}

const maker = Symbol('what makes messages');

/** A message in pieces. Its state is an array of its own, so that it can be dropped at any time. */
class Message {
  #machine;
  #kind;
  #lengths;
  #state;
  #over = '';

  constructor(made, machine, { kind, lengths }, state) {
    if (made !== maker) throw new TypeError('createHash and createHmac make messages');
    this.#machine = machine;
    this.#kind = kind;
    this.#lengths = lengths;
    this.#state = state;
  }

  #going() {
    if (this.#over) throw new Error(this.#over);
  }

  /** Does calls on the state in the slot. Where they do not end, the message does. */
  #whole(calls) {
    this.#going();
    this.#over = LOST;
    this.#machine.enter(this.#state);
    const result = calls(this.#machine);
    this.#over = '';
    return result;
  }

  /** Adds a piece: a string as UTF-8, a buffer, or a view of one. */
  update(data, encoding = 'utf8') {
    if (typeof data === 'string' && !/^utf-?8$/i.test(encoding)) {
      throw new TypeError(`a string is added as utf8, and not as ${String(encoding)}: give its bytes`);
    }
    this.#going();
    const all = bytesOf(data);
    this.#whole(() => {
      for (let at = 0; at < all.length; at += CHUNK) this.#add(all.subarray(at, at + CHUNK));
    });
    return this;
  }

  #add(piece) {
    const machine = this.#machine;
    machine.write(piece);
    machine.call(`${this.#kind}_update`, machine.slot, machine.input(), BigInt(piece.length));
  }

  /** The digest, with which the message ends. */
  digest(encoding) {
    const encode = encoderOf(encoding);
    const length = this.#lengths.byDefault;
    const isBlake3 = this.#kind === 'blake3';
    const result = encode(isBlake3 ? this.output(length) : this.#whole((machine) => this.#finished(machine, length)));
    this.#over = TAKEN;
    this.#machine.forget(this.#state);
    this.#state = null;
    return result;
  }

  #finished(machine, length) {
    // SHA-2 has one length
    const lengths = this.#kind.startsWith('sha') ? [] : [BigInt(length)];
    machine.call(`${this.#kind}_finish`, machine.slot, machine.input(), ...lengths);
    return machine.read(length);
  }

  /** BLAKE3: so many bytes of the output, from a position on. The message can go on. */
  output(length, seek = 0) {
    this.#going();
    if (this.#kind !== 'blake3') throw new TypeError('only BLAKE3 has an output of any length');
    whole(length, 'length', 0, LONGEST);
    const from = typeof seek === 'bigint' ? seek : BigInt(whole(seek, 'seek', 0, Number.MAX_SAFE_INTEGER));
    if (from < 0n || from + BigInt(length) > LAST) {
      throw new Refused(END_OF_OUTPUT, `the output begins at byte 0 and ends after ${LAST} bytes`);
    }
    const result = withText(new Uint8Array(length));
    return this.#whole((machine) => {
      for (let at = 0; at < length; at += CHUNK) {
        result.set(outputOf(machine, from + BigInt(at), Math.min(CHUNK, length - at)), at);
      }
      return result;
    });
  }

  /** Another message that goes on from here. Its digest may have another length, if the function has both in one. */
  copy(options) {
    const byDefault = outputLengthOf(optionsOf(options, ['outputLength']), this.#lengths);
    this.#going();
    this.#machine.empty();
    const form = { kind: this.#kind, lengths: { ...this.#lengths, byDefault } };
    return new Message(maker, this.#machine, form, this.#state.slice());
  }
}

function outputOf(machine, from, length) {
  machine.call('blake3_output', machine.slot, from, machine.input(), BigInt(length));
  return machine.read(length);
}

/**
 * A message that `begin` has begun, by a call on the state in the slot. `kind` is what stands between `sums_` and the
 * names of its calls, `size` is the length of its state, and `lengths` has those of a digest: `byDefault` its own, and
 * `least` and `most` of what a copy can have.
 */
export function beginMessage(machine, { kind, lengths, size }, begin) {
  const state = new Uint8Array(size);
  machine.enter(state);
  begin();
  return new Message(maker, machine, { kind, lengths }, state);
}
