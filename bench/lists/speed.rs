//! The entries of a list by sums_hash beside a parser in Rust: speed ROUNDS LIST

use std::time::Instant;

use sums_hash::list::{Hash, List};

type Entry = (String, Vec<u8>);

fn without_escapes(name: &str) -> String {
    let mut found = String::new();
    let mut rest = name.chars();
    while let Some(each) = rest.next() {
        found.push(match each {
            '\\' => match rest.next().expect("malformed") {
                'n' => '\n',
                'r' => '\r',
                other => other,
            },
            _ => each,
        });
    }
    found
}

/// The entry of a line of a list of SHA-256; None for one that is skipped.
fn entry_of(line: &[u8]) -> Option<Entry> {
    let line = line.strip_suffix(b"\r").unwrap_or(line);
    if line.is_empty() || line.starts_with(b"#") {
        return None;
    }
    let text = line.strip_prefix(b"\\").unwrap_or(line);
    let (digits, name) = match text.strip_prefix(b"SHA256 (") {
        Some(rest) => (&rest[rest.len() - 64..], &rest[..rest.len() - 68]),
        None => {
            assert!([&b"  "[..], b" *"].contains(&&text[64..66]));
            (&text[..64], &text[66..])
        }
    };
    let name = std::str::from_utf8(name).expect("malformed");
    assert!(!name.is_empty() && !name.contains('\0'));
    let name = if text.len() < line.len() {
        without_escapes(name)
    } else {
        name.to_owned()
    };
    let half = |digit: u8| (digit as char).to_digit(16).expect("malformed") as u8;
    let digest = digits.chunks(2).map(|pair| half(pair[0]) << 4 | half(pair[1]));
    Some((name, digest.collect()))
}

fn ours(data: &[u8]) -> Vec<Entry> {
    let entries = List::new(data, Some(Hash::Sha256)).map(|entry| entry.expect("malformed"));
    entries.map(|entry| (entry.name, entry.digest)).collect()
}

fn theirs(data: &[u8]) -> Vec<Entry> {
    data.split(|&byte| byte == b'\n').filter_map(entry_of).collect()
}

fn lines_a_second(call: fn(&[u8]) -> Vec<Entry>, data: &[u8]) -> f64 {
    let begun = Instant::now();
    let count = call(data).len();
    count as f64 / begun.elapsed().as_secs_f64()
}

fn main() {
    let words: Vec<String> = std::env::args().collect();
    let data = std::fs::read(&words[2]).expect("no list");
    assert!(ours(&data) == theirs(&data));
    let mut best = [0.0_f64; 2];
    for _ in 0..words[1].parse().expect("no number") {
        best[0] = best[0].max(lines_a_second(ours, &data));
        best[1] = best[1].max(lines_a_second(theirs, &data));
    }
    println!("Rust|{:.0}|{:.0}", best[0], best[1]);
}
