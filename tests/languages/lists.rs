//! The words of `sums check` and `sums hash` over the crate of Rust, so that tests/program/lists.py and
//! tests/program/random_lists.py try it as they try the program. See tests/languages/bindings.
//! usage: lists check -a HASH [--summary] -
//!        lists hash -a HASH [-l BYTES] [--tag] -- FILE..

use std::error::Error;
use std::io::Write;

use sums_hash::list::{self, Hash, Report, Verdict};
use sums_hash::Refusal;

/// The report of `sums check`, its lines in the order of those of the list.
fn lines_of(report: &Report) -> Result<Vec<(u64, String)>, Refusal> {
    let malformed = report.malformed.iter().map(|line| Ok((*line, format!("line {line}: MALFORMED\n"))));
    let entries = report.entries.iter().map(|(entry, verdict)| Ok((entry.line, list::report(*verdict, &entry.name)?)));
    let mut lines: Vec<_> = malformed.chain(entries).collect::<Result<_, Refusal>>()?;
    lines.sort();
    Ok(lines)
}

/// What it says of the list behind that.
fn hint(report: &Report) -> Option<&'static str> {
    let is_all = |verdict| report.malformed.is_empty() && report.count(verdict) == report.entries.len();
    if report.untagged {
        Some("digests of another length than those of -a")
    } else if report.entries.is_empty() && report.malformed.is_empty() {
        Some("no entries")
    } else if report.entries.is_empty() {
        Some("no line is an entry")
    } else if is_all(Verdict::Failed) {
        Some("all FAILED, untagged lines may need another -a")
    } else if is_all(Verdict::Missing) {
        Some("all MISSING, names count from the current folder")
    } else {
        None
    }
}

fn check(hash: Hash, wants_summary: bool) -> Result<bool, Box<dyn Error>> {
    let report = list::check("/dev/stdin", Some(hash), "")?;
    let lines = lines_of(&report)?;
    for (_, line) in &lines {
        std::io::stdout().write_all(line.as_bytes())?;
    }
    if wants_summary {
        let of = |verdict| report.count(verdict);
        eprintln!(
            "sums: {} OK, {} failed, {} missing, {} unreadable, {} too long, {} malformed, {} skipped",
            of(Verdict::Ok),
            of(Verdict::Failed),
            of(Verdict::Missing),
            of(Verdict::Unreadable),
            of(Verdict::TooLong),
            report.malformed.len(),
            report.skipped
        );
    }
    if let Some(text) = hint(&report) {
        eprintln!("sums: -: {text}");
    }
    let is_clean = report.is_ok() || lines.is_empty();
    assert_eq!(is_clean, lines.iter().all(|(_, line)| line.ends_with(": OK\n")));
    Ok(is_clean)
}

fn digest_of(hash: Hash, len: usize, data: &[u8]) -> Result<Vec<u8>, Refusal> {
    let mut digest = vec![0; len];
    match hash {
        Hash::Sha256 => digest = sums_hash::sha256(data).to_vec(),
        Hash::Sha512 => digest = sums_hash::sha512(data).to_vec(),
        Hash::Blake2b => sums_hash::blake2b(&mut digest, data, b"")?,
        Hash::Blake2s => sums_hash::blake2s(&mut digest, data, b"")?,
        _ => sums_hash::blake3(&mut digest, 0, data)?,
    }
    Ok(digest)
}

fn main() -> Result<(), Box<dyn Error>> {
    let mut words = std::env::args().skip(1);
    let command = words.next();
    let (mut hash, mut len, mut is_tagged, mut wants_summary) = (Hash::Sha256, None, false, false);
    while let Some(word) = words.next() {
        match word.as_str() {
            "-a" => hash = words.next().and_then(|name| Hash::named(&name)).ok_or("no such hash")?,
            "-l" => len = words.next().and_then(|bytes| bytes.parse().ok()),
            "--tag" => is_tagged = true,
            "--summary" => wants_summary = true,
            _ => break,
        }
    }
    if command.as_deref() == Some("check") {
        std::process::exit(if check(hash, wants_summary)? { 0 } else { 1 });
    }
    let len = len.unwrap_or(if matches!(hash, Hash::Sha512 | Hash::Blake2b) { 64 } else { 32 });
    let written = if is_tagged { list::tagged_line } else { list::line };
    for name in words {
        print!("{}", written(hash, &digest_of(hash, len, &std::fs::read(&name)?)?, &name)?);
    }
    Ok(())
}
