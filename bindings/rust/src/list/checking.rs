// SPDX-License-Identifier: MIT OR Apache-2.0
//! The files of a list.

use std::fs::File;
use std::io::{ErrorKind, Read};
use std::path::{Component, Path};
use std::vec;
use std::vec::Vec;

use super::reading::{Entry, Error, List, PIECE};
use super::{Hash, Verdict};
use crate::refusal::Refusal;
use crate::{Blake2b, Blake2s, Blake3, Sha256, Sha512};

/// What became of the lines of a list.
#[derive(Clone, Debug, Default)]
#[non_exhaustive]
pub struct Report {
    /// The entries, with the verdict of each.
    pub entries: Vec<(Entry, Verdict)>,
    /// The entries whose names leave the folder, which [`check_inside`] does not open.
    pub outside: Vec<Entry>,
    /// The numbers of the lines that are malformed.
    pub malformed: Vec<u64>,
    /// Whether one of them would be an entry in a list for another hash.
    pub untagged: bool,
    /// How many lines were empty or comments.
    pub skipped: u64,
}

impl Report {
    /// How many entries have this verdict.
    pub fn count(&self, verdict: Verdict) -> usize {
        self.entries.iter().filter(|(_, each)| *each == verdict).count()
    }

    /// Whether there is an entry, each entry is [`Verdict::Ok`], and no line is malformed. `sums check` ends with status 0
    /// for a list without an entry too.
    pub fn is_ok(&self) -> bool {
        let has_others = !self.outside.is_empty() || !self.malformed.is_empty();
        !has_others && !self.entries.is_empty() && self.count(Verdict::Ok) == self.entries.len()
    }
}

/// Checks the list in the file `list`: the files of its entries, whose names are relative to `folder`. Untagged lines are
/// of this hash, and without one they are malformed.
///
/// A file that fails, is missing or cannot be read and a malformed line stand in the report. An error is that the list
/// itself cannot be read. A name is opened wherever it leads; for a list that is not trusted there is [`check_inside`].
///
/// ```
/// use sums_hash::list::{self, Hash};
///
/// # let folder = std::env::temp_dir().join(format!("sums-hash-{}", std::process::id()));
/// # std::fs::create_dir_all(&folder)?;
/// let digest = sums_hash::sha256(b"abc");
/// std::fs::write(folder.join("disk.iso"), "abc")?;
/// std::fs::write(folder.join("SHA256SUMS"), list::line(Hash::Sha256, &digest, "disk.iso")?)?;
///
/// let report = list::check(folder.join("SHA256SUMS"), Some(Hash::Sha256), &folder)?;
/// assert!(report.is_ok(), "{report:?}");
/// # std::fs::remove_dir_all(&folder)?;
/// # Ok::<(), Box<dyn std::error::Error>>(())
/// ```
pub fn check(list: impl AsRef<Path>, hash: Option<Hash>, folder: impl AsRef<Path>) -> Result<Report, Error> {
    check_where(list.as_ref(), hash, folder.as_ref(), |_| true)
}

/// Checks like [`check`], but opens no file whose name leaves the folder: one that begins with `/` or has `..` is in
/// `outside` of the report. A symbolic link that stands in the folder is followed.
pub fn check_inside(list: impl AsRef<Path>, hash: Option<Hash>, folder: impl AsRef<Path>) -> Result<Report, Error> {
    check_where(list.as_ref(), hash, folder.as_ref(), is_inside)
}

fn check_where(list: &Path, hash: Option<Hash>, folder: &Path, is_opened: fn(&str) -> bool) -> Result<Report, Error> {
    let mut report = Report::default();
    let mut entries = List::new(File::open(list)?, hash);
    for entry in entries.by_ref() {
        match entry {
            Ok(entry) if is_opened(&entry.name) => {
                let verdict = verdict_of(&entry, folder);
                report.entries.push((entry, verdict));
            }
            Ok(entry) => report.outside.push(entry),
            Err(Error::Malformed { line, untagged }) => {
                report.malformed.push(line);
                report.untagged |= untagged;
            }
            Err(error) => return Err(error),
        }
    }
    report.skipped = entries.skipped();
    Ok(report)
}

/// Whether a name leads nowhere above the folder that it begins in.
fn is_inside(name: &str) -> bool {
    let mut parts = Path::new(name).components();
    parts.all(|part| matches!(part, Component::Normal(_) | Component::CurDir))
}

fn verdict_of(entry: &Entry, folder: &Path) -> Verdict {
    match digest_of(&folder.join(&entry.name), entry.hash, entry.digest.len()) {
        Ok(digest) if digest == entry.digest => Verdict::Ok,
        Ok(_) => Verdict::Failed,
        Err(verdict) => verdict,
    }
}

/// The digest of a file, of so many bytes, or why there is none.
fn digest_of(path: &Path, hash: Hash, digest_len: usize) -> Result<Vec<u8>, Verdict> {
    let mut file = File::open(path).map_err(|fault| match fault.kind() {
        ErrorKind::NotFound => Verdict::Missing,
        _ => Verdict::Unreadable,
    })?;
    let mut message = Message::new(hash, digest_len);
    let mut piece = vec![0; PIECE];
    loop {
        match file.read(&mut piece) {
            Ok(0) => return Ok(message.digest(digest_len)),
            Ok(count) => message.update(&piece[..count]).map_err(|_| Verdict::TooLong)?,
            Err(fault) if fault.kind() == ErrorKind::Interrupted => {}
            Err(_) => return Err(Verdict::Unreadable),
        }
    }
}

/// A message in pieces by any of the hashes.
// one stands there for the time of a file, and a box would be an allocation for each
#[allow(clippy::large_enum_variant)]
enum Message {
    Sha256(Sha256),
    Sha512(Sha512),
    Blake2b(Blake2b),
    Blake2s(Blake2s),
    Blake3(Blake3),
}

/// An entry has no digest of another length than its hash has.
const SIZED: &str = "the digest of an entry is one of its hash";

impl Message {
    fn new(hash: Hash, digest_len: usize) -> Self {
        match hash {
            Hash::Sha256 => Message::Sha256(Sha256::new()),
            Hash::Sha512 => Message::Sha512(Sha512::new()),
            Hash::Blake2b => Message::Blake2b(Blake2b::new(digest_len, b"").expect(SIZED)),
            Hash::Blake2s => Message::Blake2s(Blake2s::new(digest_len, b"").expect(SIZED)),
            Hash::Blake3 => Message::Blake3(Blake3::new()),
        }
    }

    fn update(&mut self, piece: &[u8]) -> Result<(), Refusal> {
        match self {
            Message::Sha256(message) => message.update(piece),
            Message::Sha512(message) => message.update(piece),
            Message::Blake2b(message) => message.update(piece),
            Message::Blake2s(message) => message.update(piece),
            Message::Blake3(message) => message.update(piece),
        }
    }

    fn digest(&self, digest_len: usize) -> Vec<u8> {
        let mut digest = vec![0; digest_len];
        match self {
            Message::Sha256(message) => return message.finish().into(),
            Message::Sha512(message) => return message.finish().into(),
            Message::Blake2b(message) => message.finish(&mut digest).expect(SIZED),
            Message::Blake2s(message) => message.finish(&mut digest).expect(SIZED),
            Message::Blake3(message) => message.output(0, &mut digest).expect(SIZED),
        }
        digest
    }
}
