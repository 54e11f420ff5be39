//! One call of sums-hash beside RustCrypto: speed ROUNDS    a row for each function and size.

use std::hint::black_box;
use std::time::Instant;

use digest::Digest;
use hmac::{Hmac, Mac};

const LEAST: f64 = 0.01; // seconds of one measurement

fn nanoseconds(call: &dyn Fn() -> Vec<u8>, times: u64) -> f64 {
    let start = Instant::now();
    for _ in 0..times {
        black_box(call());
    }
    start.elapsed().as_secs_f64() * 1e9 / times as f64
}

fn row(name: &str, size: usize, ours: &dyn Fn() -> Vec<u8>, theirs: &dyn Fn() -> Vec<u8>) {
    assert_eq!(ours(), theirs());
    let times = (LEAST * 1e9 / nanoseconds(theirs, 3)).max(1.0) as u64;
    let rounds = std::env::args().nth(1).and_then(|word| word.parse().ok()).unwrap_or(9);
    let (mut mine, mut other) = (f64::MAX, f64::MAX);
    for _ in 0..rounds {
        mine = mine.min(nanoseconds(ours, times));
        other = other.min(nanoseconds(theirs, times));
    }
    println!("Rust|{name}|{size}|RustCrypto|{mine:.0}|{other:.0}");
}

fn main() {
    for size in [64, 1 << 20] {
        let data: Vec<u8> = (0..size).map(|i| (i % 251) as u8).collect();
        row("sha256", size, &|| sums_hash::sha256(&data).to_vec(), &|| sha2::Sha256::digest(&data).to_vec());
        row("sha512", size, &|| sums_hash::sha512(&data).to_vec(), &|| sha2::Sha512::digest(&data).to_vec());
        let ours = || {
            let mut tag = vec![0; 32];
            sums_hash::hmac_sha256(&mut tag, &data, b"key").unwrap();
            tag
        };
        let theirs = || {
            let mac = <Hmac<sha2::Sha256> as Mac>::new_from_slice(b"key").unwrap();
            mac.chain_update(&data).finalize().into_bytes().to_vec()
        };
        row("hmac-sha256", size, &ours, &theirs);
    }
}
