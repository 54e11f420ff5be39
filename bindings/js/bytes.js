// SPDX-License-Identifier: MIT OR Apache-2.0

const encoder = new TextEncoder();

// What a view says of itself, which no subclass and no property of its own can change.
const getter = (prototype, name) => Object.getOwnPropertyDescriptor(prototype, name).get;
const ofPlace = (prototype) => ['buffer', 'byteOffset', 'byteLength'].map((name) => getter(prototype, name));
const ARRAY = Object.getPrototypeOf(Uint8Array.prototype);
const ARRAY_PLACE = ofPlace(ARRAY);
const VIEW_PLACE = ofPlace(DataView.prototype);
const arrayKeys = ARRAY.keys;
const arrayTag = getter(ARRAY, Symbol.toStringTag);

function viewed(view) {
  // undefined of a DataView
  const isArray = arrayTag.call(view) !== undefined;
  // throws if the buffer is gone, or too short by now
  if (isArray) arrayKeys.call(view);
  return new Uint8Array(...(isArray ? ARRAY_PLACE : VIEW_PLACE).map((it) => it.call(view)));
}

const BUFFER_LENGTHS = [ArrayBuffer, globalThis.SharedArrayBuffer]
  .flatMap((kind) => (kind ? [getter(kind.prototype, 'byteLength')] : []));

// A buffer of another realm, as of a frame, is no instance of the kinds of this one. What only looks like a buffer has
// no length to give.
function hasLength(data, lengthOf) {
  try {
    lengthOf.call(data);
    return true;
  } catch (error) {
    // the error too may be of another realm, and is another one when the stack runs out
    if (error.name === 'TypeError') return false;
    throw error;
  }
}

const isBuffer = (data) => BUFFER_LENGTHS.some((lengthOf) => hasLength(data, lengthOf));

export const isBytes = (data) => typeof data === 'string' || ArrayBuffer.isView(data) || isBuffer(data);

/** The bytes of a string, as UTF-8, of a buffer or of a view of one; not copied, but for a string. */
export function bytesOf(data, what = 'the data') {
  if (!isBytes(data)) throw new TypeError(`${what} must be a string, a buffer or a view of one`);
  if (typeof data === 'string') return encoder.encode(data);
  return ArrayBuffer.isView(data) ? viewed(data) : new Uint8Array(data);
}

/** A whole number from `least` to `most`. */
export function whole(value, what, least, most) {
  if (!Number.isSafeInteger(value) || value < least || value > most) {
    throw new RangeError(`${what} must be a whole number from ${least} to ${most}`);
  }
  return value;
}

const DIGITS = Array.from({ length: 256 }, (_, byte) => byte.toString(16).padStart(2, '0'));

/** The digits of bytes. */
export function toHex(data) {
  let digits = '';
  for (const byte of bytesOf(data)) digits += DIGITS[byte];
  return digits;
}

function toBase64(data) {
  let text = '';
  for (const byte of data) text += String.fromCharCode(byte);
  return btoa(text);
}

const TEXTS = {
  hex: toHex,
  base64: toBase64,
  base64url: (data) => toBase64(data).replace(/\+/g, '-').replace(/\//g, '_').replace(/=/g, ''),
};

function encoderIn(encodings, encoding) {
  const isThere = typeof encoding === 'string' && Object.hasOwn(encodings, encoding);
  if (isThere) return encodings[encoding];
  const names = Object.keys(encodings).join(', ');
  throw new TypeError(`there is no encoding ${String(encoding)}: the encodings are ${names}`);
}

const plainText = ARRAY.toString;
const TO_STRING = {
  value: function toString(encoding) {
    return encoding === undefined ? plainText.call(this) : encoderIn(TEXTS, encoding)(this);
  },
  configurable: true,
  writable: true,
};

/** Bytes that a caller gets: their `toString` takes an encoding, as that of a Buffer does. */
export const withText = (data) => Object.defineProperty(data, 'toString', TO_STRING);

const ENCODINGS = { ...TEXTS, buffer: withText };

/** What makes the text of bytes, by the name of an encoding; nothing named, or `buffer`, leaves the bytes. */
export const encoderOf = (encoding = 'buffer') => encoderIn(ENCODINGS, encoding);
