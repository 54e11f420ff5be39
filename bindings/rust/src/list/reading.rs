// SPDX-License-Identifier: MIT OR Apache-2.0
//! Entries of a reader, and lines as texts.

use std::boxed::Box;
use std::io::{self, ErrorKind, Read};
use std::string::String;
use std::vec::Vec;
use std::{fmt, vec};

use super::{line_length, report_length, write_line, write_report, Hash, ListLine, ListState, Meaning, Verdict};
use crate::refusal::Refusal;

/// How many bytes are asked of a reader or a file at a time.
pub(super) const PIECE: usize = 65536;

/// The digest of the file of a name.
#[derive(Clone, Debug, PartialEq, Eq)]
pub struct Entry {
    /// The name, without escapes.
    pub name: String,
    /// The digest.
    pub digest: Vec<u8>,
    /// The hash that it is of.
    pub hash: Hash,
    /// The number of its line, from 1.
    pub line: u64,
}

/// Why there is no next entry, or a list was not checked.
#[derive(Debug)]
#[non_exhaustive]
pub enum Error {
    /// A line is neither empty, nor a comment, nor an entry. The list can be read on.
    Malformed {
        /// The number of the line, from 1.
        line: u64,
        /// Whether it would be an entry in a list for another hash.
        untagged: bool,
    },
    /// The list could not be opened or read.
    Io(io::Error),
    /// The library refused a call, as it does after 2^64 - 1 lines.
    Refused(Refusal),
}

impl fmt::Display for Error {
    fn fmt(&self, f: &mut fmt::Formatter<'_>) -> fmt::Result {
        match self {
            Error::Malformed { line, untagged: false } => write!(f, "line {line} is malformed"),
            Error::Malformed { line, untagged: true } => {
                write!(
                    f,
                    "line {line} is malformed: it has no tag, and its hash has to be named"
                )
            }
            Error::Io(fault) => write!(f, "the list was not read: {fault}"),
            Error::Refused(refusal) => refusal.fmt(f),
        }
    }
}

impl std::error::Error for Error {
    fn source(&self) -> Option<&(dyn std::error::Error + 'static)> {
        match self {
            Error::Malformed { .. } => None,
            Error::Io(fault) => Some(fault),
            Error::Refused(refusal) => Some(refusal),
        }
    }
}

impl From<io::Error> for Error {
    fn from(fault: io::Error) -> Self {
        Error::Io(fault)
    }
}

impl From<Refusal> for Error {
    fn from(refusal: Refusal) -> Self {
        Error::Refused(refusal)
    }
}

/// The entries of a list, in the order of its lines. Empty lines and comments are passed over. After a malformed line the
/// entries go on; after any other error there are none.
///
/// ```
/// use sums_hash::list::{Error, List};
///
/// let mut list = List::new(&b"# a comment\nBLAKE2b-8 (empty) = 2e\nnone\n"[..], None);
/// assert_eq!(list.next().unwrap()?.name, "empty");
/// assert!(matches!(list.next(), Some(Err(Error::Malformed { line: 3, untagged: false }))));
/// assert!(list.next().is_none());
/// # Ok::<(), Error>(())
/// ```
pub struct List<R> {
    reader: R,
    // room for a piece, and where what was read into it begins and ends
    piece: Vec<u8>,
    at: usize,
    end: usize,
    state: Box<ListState>,
    line: Box<ListLine>,
    has_ended: bool,
    skipped: u64,
}

impl<R: Read> List<R> {
    /// Begins with a reader of a list, which need not be buffered. Its untagged lines are of this hash, and without one
    /// they are malformed.
    pub fn new(reader: R, hash: Option<Hash>) -> Self {
        Self {
            reader,
            piece: vec![0; PIECE],
            at: 0,
            end: 0,
            state: ListState::boxed(hash),
            line: ListLine::boxed(),
            has_ended: false,
            skipped: 0,
        }
    }

    /// How many lines were empty or comments.
    pub fn skipped(&self) -> u64 {
        self.skipped
    }

    /// Reads more of the list, and returns whether there was some.
    fn fill(&mut self) -> io::Result<bool> {
        loop {
            match self.reader.read(&mut self.piece) {
                Err(fault) if fault.kind() == ErrorKind::Interrupted => {}
                Err(fault) => return Err(fault),
                Ok(count) => {
                    (self.at, self.end) = (0, count);
                    return Ok(count > 0);
                }
            }
        }
    }

    /// Reads a line, of which the last one ends the list.
    fn read_line(&mut self) -> Result<(), Error> {
        loop {
            if self.at == self.end && !self.fill()? {
                self.has_ended = true;
                return Ok(self.state.end(&mut self.line)?);
            }
            self.at += self.state.read(&self.piece[self.at..self.end], &mut self.line)?;
            if self.line.has_ended() {
                return Ok(());
            }
        }
    }
}

impl<R: Read> Iterator for List<R> {
    type Item = Result<Entry, Error>;

    fn next(&mut self) -> Option<Self::Item> {
        while !self.has_ended {
            if let Err(error) = self.read_line() {
                self.has_ended = true;
                return Some(Err(error));
            }
            let line = self.line.number();
            match self.line.meaning() {
                Meaning::None => {}
                Meaning::Skipped => self.skipped += 1,
                Meaning::Malformed => return Some(Err(Error::Malformed { line, untagged: false })),
                Meaning::Untagged => return Some(Err(Error::Malformed { line, untagged: true })),
                Meaning::Entry { name, digest, hash } => {
                    let (name, digest) = (name.into(), digest.into());
                    return Some(Ok(Entry {
                        name,
                        digest,
                        hash,
                        line,
                    }));
                }
            }
        }
        None
    }
}

impl<R: Read> std::iter::FusedIterator for List<R> {}

impl<R> fmt::Debug for List<R> {
    fn fmt(&self, f: &mut fmt::Formatter<'_>) -> fmt::Result {
        f.debug_struct("List")
            .field("line", &self.line.number())
            .finish_non_exhaustive()
    }
}

/// The line of an entry with its LF, as `sha256sum` and its like write it: `digits  name`, with a backslash before it and
/// escapes if the name has a backslash, LF or CR.
///
/// Refused are a digest of a length that the hash has not, and a name that is empty, has NUL, or makes a line of more
/// than 65,536 bytes:
///
/// ```
/// use sums_hash::{list::{self, Hash}, Refusal};
///
/// assert_eq!(list::line(Hash::Blake2b, &[0x2e], "a\nb")?, "\\2e  a\\nb\n");
/// assert_eq!(list::line(Hash::Blake2b, &[0x2e], ""), Err(Refusal::NoLine));
/// assert_eq!(list::line(Hash::Sha256, &[0x2e], "a"), Err(Refusal::DigestLength));
/// # Ok::<(), Refusal>(())
/// ```
pub fn line(hash: Hash, digest: &[u8], name: &str) -> Result<String, Refusal> {
    entry_line(hash, false, digest, name)
}

/// The line of an entry as a tagged line, which names its hash: `SHA256 (name) = digits`.
///
/// ```
/// let line = sums_hash::list::tagged_line(sums_hash::list::Hash::Blake2b, &[0x2e], "empty")?;
/// assert_eq!(line, "BLAKE2b-8 (empty) = 2e\n");
/// # Ok::<(), sums_hash::Refusal>(())
/// ```
pub fn tagged_line(hash: Hash, digest: &[u8], name: &str) -> Result<String, Refusal> {
    entry_line(hash, true, digest, name)
}

fn entry_line(hash: Hash, is_tagged: bool, digest: &[u8], name: &str) -> Result<String, Refusal> {
    let mut out = vec![0; line_length(hash, is_tagged, digest.len(), name).unwrap_or(0)];
    write_line(&mut out, hash, is_tagged, digest, name)?;
    Ok(text(out))
}

/// The line of a report with its LF, as `sums check` writes it: `name: OK`, with escapes in the name. A name of more than
/// 65,536 bytes is refused.
///
/// ```
/// use sums_hash::list::{self, Verdict};
///
/// assert_eq!(list::report(Verdict::Failed, "a\\b")?, "a\\\\b: FAILED\n");
/// # Ok::<(), sums_hash::Refusal>(())
/// ```
pub fn report(verdict: Verdict, name: &str) -> Result<String, Refusal> {
    let mut out = vec![0; report_length(verdict, name).unwrap_or(0)];
    write_report(&mut out, verdict, name)?;
    Ok(text(out))
}

fn text(line: Vec<u8>) -> String {
    String::from_utf8(line).expect("a line of a name that is UTF-8 is so too")
}

#[cfg(test)]
mod tests {
    use super::*;

    /// A stack of 64 KiB has no room for the memory of a state or of a line.
    #[test]
    fn a_list_on_a_small_stack() {
        let small = std::thread::Builder::new().stack_size(64 << 10);
        let list = || List::new(&b"BLAKE2b-8 (empty) = 2e"[..], None).count();
        assert_eq!(small.spawn(list).unwrap().join().unwrap(), 1);
    }
}
