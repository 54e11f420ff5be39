// SPDX-License-Identifier: MIT OR Apache-2.0
//! BLAKE2, BLAKE3, SHA-2, HMAC and HKDF over the C library libsums_hash, whose every call is proved equal to its
//! definition. This crate above it is tested, and not proved.
//!
//! ```
//! let digest: [u8; 32] = sums_hash::blake3_hash(b"abc");
//!
//! let mut message = sums_hash::Sha256::new();
//! message.update(b"a")?;
//! message.update(b"bc")?;
//! assert_eq!(message.finish(), sums_hash::sha256(b"abc"));
//! # Ok::<(), sums_hash::Refusal>(())
//! ```
//!
//! Lengths and positions are in bytes. A refused call has written nothing. A message in pieces owns the memory of its
//! state; its `Debug` shows nothing of it. Neither is wiped when it is dropped, and no constant time is claimed.
//!
//! The module [`list`] reads, checks and writes lists of digests, as sha256sum and b2sum write them.
//!
//! With the feature `digest` the module `traits` has the hashes and HMAC under the traits of the crate digest. With
//! `std`, which is on by default, each message in pieces is a `std::io::Write`.
#![no_std]
#![warn(missing_docs)]

#[cfg(feature = "std")]
extern crate std;

// Each call of `native` is sound for one reason: the declarations are those of sums_hash.h, each pointer and length are
// those of one slice or array, and a state is borrowed for the call.
mod native;

mod blake2;
mod blake3;
mod keyed;
pub mod list;
mod message;
mod pieces;
mod refusal;
mod sha2;
#[cfg(feature = "digest")]
pub mod traits;

pub use self::blake2::*;
pub use self::blake3::*;
pub use self::keyed::*;
pub use self::pieces::*;
pub use self::refusal::Refusal;
pub use self::sha2::*;
