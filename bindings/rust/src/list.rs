// SPDX-License-Identifier: MIT OR Apache-2.0
//! Lists of digests, as sha256sum, b2sum and b3sum write them, tagged or not: read, checked and written.
//!
//! Untagged lines have digests of the hash that a list is read for, and without one they are malformed; a tagged line
//! names its hash. What a line means is proved of the library; opening files is this crate's, and tested.
//!
//! With `std`, [`List`] gives the entries of any reader, [`check`] hashes their files, and [`line`] is the line of a
//! name and a digest:
//!
#![cfg_attr(feature = "std", doc = "```")]
#![cfg_attr(not(feature = "std"), doc = "```ignore")]
//! use sums_hash::list::{self, Hash, List};
//!
//! let line = list::line(Hash::Sha256, &sums_hash::sha256(b"abc"), "disk.iso")?;
//! for entry in List::new(line.as_bytes(), Some(Hash::Sha256)) {
//!     let entry = entry?;
//!     assert_eq!((entry.name.as_str(), entry.line), ("disk.iso", 1));
//!     assert_eq!(entry.digest, sums_hash::sha256(b"abc"));
//! }
//! # Ok::<(), Box<dyn std::error::Error>>(())
//! ```
//!
//! Without it, [`ListState`] takes a list in pieces, and says what each line means:
//!
//! ```
//! use sums_hash::list::{Hash, ListLine, ListState, Meaning};
//!
//! let (mut state, mut line) = (ListState::new(Some(Hash::Blake2b)), ListLine::new());
//! let mut piece: &[u8] = b"# digests of one byte\n2e  empty\n";
//! while !piece.is_empty() {
//!     piece = &piece[state.read(piece, &mut line)?..];
//!     if let Meaning::Entry { name, digest, .. } = line.meaning() {
//!         assert_eq!((line.number(), name, digest), (2, "empty", &[0x2e][..]));
//!     }
//! }
//! state.end(&mut line)?;
//! assert_eq!(line.meaning(), Meaning::None);
//! # Ok::<(), sums_hash::Refusal>(())
//! ```

use core::fmt;
#[cfg(feature = "std")]
use std::alloc::{alloc_zeroed, handle_alloc_error, Layout};
#[cfg(feature = "std")]
use std::boxed::Box;

use crate::native;
use crate::refusal::{checked, Refusal};

#[cfg(feature = "std")]
mod checking;
#[cfg(feature = "std")]
mod reading;

#[cfg(feature = "std")]
pub use self::checking::{check, check_inside, Report};
#[cfg(feature = "std")]
pub use self::reading::{line, report, tagged_line, Entry, Error, List};

/// A hash that lines can have digests of.
#[derive(Clone, Copy, Debug, PartialEq, Eq, Hash)]
#[non_exhaustive]
pub enum Hash {
    /// SHA-256, with digests of 32 bytes.
    Sha256 = 1,
    /// SHA-512, with 64.
    Sha512 = 2,
    /// BLAKE2b, with 1 to 64.
    Blake2b = 3,
    /// BLAKE2s, with 1 to 32.
    Blake2s = 4,
    /// BLAKE3, with 32.
    Blake3 = 5,
}

impl Hash {
    const ALL: [Hash; 5] = [Hash::Sha256, Hash::Sha512, Hash::Blake2b, Hash::Blake2s, Hash::Blake3];

    /// Its name: "sha256", "sha512", "blake2b", "blake2s" or "blake3".
    pub fn name(self) -> &'static str {
        match self {
            Hash::Sha256 => "sha256",
            Hash::Sha512 => "sha512",
            Hash::Blake2b => "blake2b",
            Hash::Blake2s => "blake2s",
            Hash::Blake3 => "blake3",
        }
    }

    /// The hash of this name.
    pub fn named(name: &str) -> Option<Hash> {
        Self::ALL.into_iter().find(|hash| hash.name() == name)
    }
}

impl fmt::Display for Hash {
    fn fmt(&self, f: &mut fmt::Formatter<'_>) -> fmt::Result {
        f.write_str(self.name())
    }
}

/// What became of an entry.
#[derive(Clone, Copy, Debug, PartialEq, Eq, Hash)]
#[non_exhaustive]
pub enum Verdict {
    /// The file has this digest.
    Ok = 1,
    /// The file has another digest.
    Failed = 2,
    /// There is no such file.
    Missing = 3,
    /// The file could not be read.
    Unreadable = 4,
    /// The file is longer than the hash takes.
    TooLong = 5,
}

/// What a line means.
#[derive(Clone, Copy, Debug, PartialEq, Eq)]
pub enum Meaning<'a> {
    /// No line has ended.
    None,
    /// It is empty, or a comment.
    Skipped,
    /// It is neither skipped nor an entry.
    Malformed,
    /// It is malformed here, and an entry in a list for another hash.
    Untagged,
    /// It is the digest of the file of a name.
    Entry {
        /// The name, without escapes.
        name: &'a str,
        /// The digest.
        digest: &'a [u8],
        /// The hash that it is of.
        hash: Hash,
    },
}

/// A line of a list, as [`ListState::read`] leaves it in memory of 65,632 bytes.
#[derive(Clone)]
pub struct ListLine(native::ListLine);

impl ListLine {
    /// No line yet.
    pub fn new() -> Self {
        Self(native::ListLine {
            number: 0,
            taken: 0,
            kind: 0,
            hash: 0,
            digest_len: 0,
            name_len: 0,
            digest: [0; 64],
            name: [0; 65536],
        })
    }

    /// The number of the line that ended last, from 1, or 0 if none has.
    pub fn number(&self) -> u64 {
        self.0.number
    }

    /// No line yet, on the heap.
    #[cfg(feature = "std")]
    fn boxed() -> Box<Self> {
        // SAFETY: a line is integers
        unsafe { zeros() }
    }

    #[cfg(feature = "std")]
    fn has_ended(&self) -> bool {
        self.0.kind != 0
    }

    /// What the line means.
    pub fn meaning(&self) -> Meaning<'_> {
        match self.0.kind {
            0 => Meaning::None,
            1 => Meaning::Skipped,
            3 => Meaning::Untagged,
            4 => self.entry().unwrap_or(Meaning::Malformed),
            // a later library may have kinds and hashes that are not known here
            _ => Meaning::Malformed,
        }
    }

    fn entry(&self) -> Option<Meaning<'_>> {
        let line = &self.0;
        Some(Meaning::Entry {
            name: core::str::from_utf8(line.name.get(..line.name_len as usize)?).ok()?,
            digest: line.digest.get(..line.digest_len as usize)?,
            hash: Hash::ALL.into_iter().find(|hash| *hash as u32 == line.hash)?,
        })
    }
}

impl Default for ListLine {
    fn default() -> Self {
        Self::new()
    }
}

impl fmt::Debug for ListLine {
    fn fmt(&self, f: &mut fmt::Formatter<'_>) -> fmt::Result {
        let mut shown = f.debug_struct("ListLine");
        shown
            .field("number", &self.number())
            .field("meaning", &self.meaning())
            .finish()
    }
}

/// A list that comes in pieces, whose state is the memory of the value itself: 65,560 bytes, since it may hold a whole
/// line.
#[derive(Clone)]
pub struct ListState(native::ListState);

impl ListState {
    /// Begins a list whose untagged lines are of this hash. Without one they are malformed.
    pub fn new(hash: Option<Hash>) -> Self {
        let mut state = Self(native::ListState::ZERO);
        state.begin(hash);
        state
    }

    /// Begins it on the heap.
    #[cfg(feature = "std")]
    fn boxed(hash: Option<Hash>) -> Box<Self> {
        // SAFETY: a state is integers
        let mut state: Box<Self> = unsafe { zeros() };
        state.begin(hash);
        state
    }

    fn begin(&mut self, hash: Option<Hash>) {
        let number = hash.map_or(0, |hash| hash as u32);
        checked(unsafe { native::sums_list_init(&mut self.0, number) }).expect("each hash has a number of the library");
    }

    /// Reads a piece of the list up to its first LF, and what the line means that ends there. If the piece has no LF,
    /// all of it is read and no line has ended. Returns how many bytes were read; the rest of the piece is for the next
    /// call. A list is refused after 2^64 - 1 lines.
    pub fn read(&mut self, piece: &[u8], line: &mut ListLine) -> Result<usize, Refusal> {
        checked(unsafe { native::sums_list_read(&mut self.0, &mut line.0, piece.as_ptr(), piece.len()) })?;
        Ok(line.0.taken as usize)
    }

    /// At the end of the list, reads the last line, if no LF ended it.
    pub fn end(&mut self, line: &mut ListLine) -> Result<(), Refusal> {
        checked(unsafe { native::sums_list_end(&mut self.0, &mut line.0) })
    }
}

impl fmt::Debug for ListState {
    fn fmt(&self, f: &mut fmt::Formatter<'_>) -> fmt::Result {
        f.debug_struct("ListState").finish_non_exhaustive()
    }
}

/// Zeros on the heap. `Box::new` has its argument on the stack, which takes several copies if they are not optimised away.
///
/// # Safety
/// Zeros have to be a value of the type, which has some bytes.
#[cfg(feature = "std")]
unsafe fn zeros<T>() -> Box<T> {
    let layout = Layout::new::<T>();
    let memory = alloc_zeroed(layout);
    if memory.is_null() {
        handle_alloc_error(layout);
    }
    Box::from_raw(memory.cast())
}

/// How many bytes the line of an entry has, with its LF, if there is one: the hash has digests of that length, and the
/// name is not empty, has no NUL, and makes no line of more than 65,536 bytes.
pub fn line_length(hash: Hash, is_tagged: bool, digest_len: usize, name: &str) -> Option<usize> {
    let (from, len) = (name.as_ptr(), name.len());
    match unsafe { native::sums_list_line_length(hash as u32, is_tagged.into(), digest_len, from, len) } {
        0 => None,
        length => Some(length),
    }
}

/// Writes that line with its LF into `out`, which has to have its length.
pub fn write_line(out: &mut [u8], hash: Hash, is_tagged: bool, digest: &[u8], name: &str) -> Result<(), Refusal> {
    let (into, from, about) = (out.as_mut_ptr(), digest.as_ptr(), name.as_ptr());
    let (hash, is_tagged) = (hash as u32, is_tagged.into());
    checked(unsafe { native::sums_list_line(into, out.len(), hash, is_tagged, from, digest.len(), about, name.len()) })
}

/// How many bytes the line of a report has, such as "disk.iso: OK", with its LF, if the name has no more than 65,536.
pub fn report_length(verdict: Verdict, name: &str) -> Option<usize> {
    match unsafe { native::sums_list_report_length(verdict as u32, name.as_ptr(), name.len()) } {
        0 => None,
        length => Some(length),
    }
}

/// Writes that line with its LF into `out`, which has to have its length.
pub fn write_report(out: &mut [u8], verdict: Verdict, name: &str) -> Result<(), Refusal> {
    let (into, about) = (out.as_mut_ptr(), name.as_ptr());
    checked(unsafe { native::sums_list_report(into, out.len(), verdict as u32, about, name.len()) })
}

#[cfg(test)]
mod tests {
    use super::*;

    #[test]
    fn lines_of_a_later_library() {
        let mut line = ListLine::new();
        for (kind, hash) in [(4, 0), (4, 6), (4, u32::MAX), (5, 1), (u32::MAX, 1)] {
            (line.0.kind, line.0.hash) = (kind, hash);
            assert_eq!(line.meaning(), Meaning::Malformed);
        }
    }
}
