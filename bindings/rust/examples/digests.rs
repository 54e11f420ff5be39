// SPDX-License-Identifier: MIT OR Apache-2.0
//! Prints digests of "abc" and a tag: cargo run --features bundled --example digests

use sums_hash::{Blake2b, Blake3, Refusal};

fn print(name: &str, bytes: &[u8]) {
    let digits: String = bytes.iter().map(|byte| format!("{byte:02x}")).collect();
    println!("{name} {digits}");
}

fn main() -> Result<(), Refusal> {
    let mut digest = [0; 32];
    sums_hash::blake2s(&mut digest, b"abc", b"")?;
    print("blake2s", &digest);

    let mut message = Blake3::new();
    for piece in [b"a", b"b", b"c"] {
        message.update(piece)?;
    }
    message.output(0, &mut digest)?;
    print("blake3 ", &digest);

    sums_hash::hmac_sha256(&mut digest, b"abc", b"key")?;
    print("tag    ", &digest);

    if let Err(refusal) = Blake2b::new(65, b"") {
        println!("refused: {refusal}");
    }
    Ok(())
}
