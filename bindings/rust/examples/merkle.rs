// SPDX-License-Identifier: MIT OR Apache-2.0
//! Prints the root of a file's Merkle tree as BitTorrent v2 has it (BEP 52, "pieces root"). The leaves are the SHA-256
//! digests of blocks of 16 KiB, and each node above is that of its two:
//! cargo run --features bundled --example merkle FILE

use std::error::Error;

use sums_hash::{sha256_pieces, Refusal};

const BLOCK: usize = 16384;
const DIGEST: usize = 32;

/// The root of one byte or more.
fn merkle_root(data: &[u8]) -> Result<Vec<u8>, Refusal> {
    let leaves = data.chunks(BLOCK).len();
    // leaves of zeros fill the layer up to a power of two
    let mut layer = vec![0; DIGEST * leaves.next_power_of_two()];
    sha256_pieces(&mut layer[..DIGEST * leaves], data, BLOCK)?;
    while layer.len() > DIGEST {
        let mut above = vec![0; layer.len() / 2];
        sha256_pieces(&mut above, &layer, 2 * DIGEST)?;
        layer = above;
    }
    Ok(layer)
}

fn main() -> Result<(), Box<dyn Error>> {
    let name = std::env::args_os().nth(1).ok_or("name a file")?;
    let data = std::fs::read(name)?;
    if data.is_empty() {
        return Err("a file without a byte has no root".into());
    }
    let digits: String = merkle_root(&data)?.iter().map(|byte| format!("{byte:02x}")).collect();
    println!("{digits}");
    Ok(())
}
