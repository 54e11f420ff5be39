// SPDX-License-Identifier: MIT OR Apache-2.0
use crate::native;
use crate::refusal::{checked, Refusal};

/// The digests by SHA-256 (FIPS 180-4, 6.2) of the pieces of `input`, one after the other. Every piece has `piece_len`
/// bytes, and the last may have fewer; an empty input has no pieces. If there are enough whole pieces, several are hashed
/// side by side.
///
/// A `piece_len` of 0 is refused, and so is an `out` that has not 32 bytes for each piece:
///
/// ```
/// let input = [7; 100];
/// let mut digests = vec![0; 32 * input.chunks(64).len()];
/// sums_hash::sha256_pieces(&mut digests, &input, 64)?;
/// assert_eq!(digests[..32], sums_hash::sha256(&input[..64]));
/// assert_eq!(digests[32..], sums_hash::sha256(&input[64..]));
/// # Ok::<(), sums_hash::Refusal>(())
/// ```
pub fn sha256_pieces(out: &mut [u8], input: &[u8], piece_len: usize) -> Result<(), Refusal> {
    let (into, from) = (out.as_mut_ptr(), input.as_ptr());
    checked(unsafe { native::sums_sha256_pieces(into, out.len(), from, input.len(), piece_len) })
}

/// The digests by SHA-512 (FIPS 180-4, 6.4), of 64 bytes, of the pieces of `input`, as of [`sha256_pieces`].
pub fn sha512_pieces(out: &mut [u8], input: &[u8], piece_len: usize) -> Result<(), Refusal> {
    let (into, from) = (out.as_mut_ptr(), input.as_ptr());
    checked(unsafe { native::sums_sha512_pieces(into, out.len(), from, input.len(), piece_len) })
}

/// The digests by BLAKE2b (RFC 7693, 3) of the pieces of `input`, as of [`sha256_pieces`]. A digest has `digest_len`
/// bytes, 1 to 64, and `out` has so many for each piece.
pub fn blake2b_pieces(out: &mut [u8], digest_len: usize, input: &[u8], piece_len: usize) -> Result<(), Refusal> {
    let (into, from) = (out.as_mut_ptr(), input.as_ptr());
    checked(unsafe { native::sums_blake2b_pieces(into, out.len(), digest_len, from, input.len(), piece_len) })
}

/// The digests by BLAKE2s (RFC 7693, 3) of the pieces of `input`, as of [`sha256_pieces`]. A digest has `digest_len`
/// bytes, 1 to 32, and `out` has so many for each piece.
pub fn blake2s_pieces(out: &mut [u8], digest_len: usize, input: &[u8], piece_len: usize) -> Result<(), Refusal> {
    let (into, from) = (out.as_mut_ptr(), input.as_ptr());
    checked(unsafe { native::sums_blake2s_pieces(into, out.len(), digest_len, from, input.len(), piece_len) })
}

/// The digests by BLAKE3, of 32 bytes, of the pieces of `input`, as of [`sha256_pieces`].
pub fn blake3_pieces(out: &mut [u8], input: &[u8], piece_len: usize) -> Result<(), Refusal> {
    let (into, from) = (out.as_mut_ptr(), input.as_ptr());
    checked(unsafe { native::sums_blake3_pieces(into, out.len(), from, input.len(), piece_len) })
}
