// SPDX-License-Identifier: MIT OR Apache-2.0
// What stands around the lines of a list: the armour of a signature, and another encoding than UTF-8.

const SIGNED = '-----BEGIN PGP SIGNED MESSAGE-----';
const SIGNATURE = '-----BEGIN PGP SIGNATURE-----';
const SIGNED_END = '-----END PGP SIGNATURE-----';
const HEADER = /^[A-Za-z]+: |^$/;
const OF_SIGNATURE = /^[A-Za-z]+: |^[A-Za-z0-9+/=]*$/;
const MARK = [0xef, 0xbb, 0xbf]; // of UTF-8
const latin = new TextDecoder('latin1', { ignoreBOM: true });

/**
 * Of a clear-signed list the numbers of the `first` line that is signed, of the `last` one, and of the `end` of its
 * armour; or null. What is of another form there, or lacks its end, is no armour.
 */
export function armourOf(bytes) {
  if (!isSigned(bytes)) return null;
  const lines = latin.decode(bytes).split('\n').map((it) => it.trimEnd());
  const headersEnd = lines.indexOf('');
  const [begin, end] = [lines.indexOf(SIGNATURE), lines.indexOf(SIGNED_END)];
  const isWhole = headersEnd > 0 && begin > headersEnd && end > begin;
  const fits = isWhole && lines.slice(1, headersEnd).every((it) => HEADER.test(it)) &&
    lines.slice(begin + 1, end).every((it) => OF_SIGNATURE.test(it));
  return fits ? { first: headersEnd + 2, last: begin, end: end + 1 } : null;
}

/** Whether a text is of UTF-16, by its mark or by a first character of ASCII. */
export function isUtf16(bytes) {
  const [first, second, , fourth] = bytes;
  const isMarked = (first === 0xff && second === 0xfe) || (first === 0xfe && second === 0xff);
  return isMarked || (bytes.length > 3 && first > 0 && second === 0 && fourth === 0);
}

export const hasMark = (bytes) => MARK.every((it, at) => bytes[at] === it);

/** A text as UTF-8, without a mark. */
export function asUtf8(bytes) {
  if (!isUtf16(bytes)) return bytes.subarray(hasMark(bytes) ? MARK.length : 0);
  const label = bytes[0] === 0xfe ? 'utf-16be' : 'utf-16le';
  return new TextEncoder().encode(new TextDecoder(label).decode(bytes));
}

/** Whether a text begins as a clear-signed one. */
export const isSigned = (bytes) => latin.decode(bytes.subarray(0, SIGNED.length)) === SIGNED;
