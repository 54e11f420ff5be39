// SPDX-License-Identifier: MIT OR Apache-2.0
//! Checks the files of a list that is named as a program of coreutils names it, or of b3sum, beside the list:
//! cargo run --features bundled --example check SHA256SUMS

use std::error::Error;
use std::path::Path;

use sums_hash::list::{self, Hash};

/// The hash that the name of a list begins with, as SHA256SUMS and b2sums.txt do.
fn hash_of(list: &Path) -> Option<Hash> {
    let name = list.file_name()?.to_str()?.to_lowercase();
    let begins = [
        ("sha256", Hash::Sha256),
        ("sha512", Hash::Sha512),
        ("b2", Hash::Blake2b),
        ("b3", Hash::Blake3),
    ];
    begins
        .into_iter()
        .find(|(begin, _)| name.starts_with(begin))
        .map(|(_, hash)| hash)
}

fn main() -> Result<(), Box<dyn Error>> {
    let list = std::env::args_os().nth(1).ok_or("name a list")?;
    let list = Path::new(&list);
    let folder = list.parent().unwrap_or(Path::new(""));

    // no name of the list leads out of its folder, whoever wrote it
    let report = list::check_inside(list, hash_of(list), folder)?;
    for (entry, verdict) in &report.entries {
        print!("{}", list::report(*verdict, &entry.name)?);
    }
    for line in &report.malformed {
        println!("line {line}: MALFORMED");
    }
    for entry in &report.outside {
        println!("line {}: outside of the folder", entry.line);
    }
    if report.is_ok() {
        Ok(())
    } else {
        Err("the list does not fit its files".into())
    }
}
