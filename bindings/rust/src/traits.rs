// SPDX-License-Identifier: MIT OR Apache-2.0
//! The hashes, HMAC and the keyed hashes under the traits of the crate `digest` 0.10.
//!
//! ```
//! use digest::Digest;
//! use sums_hash::traits::Sha256;
//! assert_eq!(Sha256::digest(b"abc")[..], sums_hash::sha256(b"abc"));
//! ```
//!
//! What is generic over `Digest`, `Mac` or `KeyInit` takes them, as do `SimpleHmac` of the crate `hmac` 0.12 and
//! `SimpleHkdf` of `hkdf` 0.12. `Hmac` and `Hkdf` of these crates do not, nor what is built on them, since they need
//! the blocks of a hash (`CoreProxy`): take [`HmacSha256`] and its like, and [`hkdf_sha256`](crate::hkdf_sha256).
//!
//! These traits have no refusals: `update` panics if the message would be longer than the function takes, which is at
//! least 2^61 - 1 bytes, and a reader panics at the end of the output, after 2^64 - 1 bytes. With the feature `std` each is a
//! `std::io::Write` too, and the reader a `std::io::Read` and a `std::io::Seek`, which panic nowhere.

use core::fmt;

use digest::consts::{U128, U32, U64};
use digest::crypto_common::{BlockSizeUser, KeySizeUser};
use digest::{
    ExtendableOutput, FixedOutput, FixedOutputReset, HashMarker, InvalidLength, Key, KeyInit, MacMarker, Output,
    OutputSizeUser, Reset, Update, XofReader,
};

use crate::Refusal;

const BEGUN: &str = "a state that was begun is not refused";

// What a hash and a tag have in common.
macro_rules! of_size {
    ($Name:ident, $Size:ty, $Block:ty, |$message:ident, $out:ident| $finish:expr) => {
        impl $Name {
            fn finish(&self, $out: &mut Output<Self>) {
                let $message = &self.message;
                $finish;
            }
        }

        impl fmt::Debug for $Name {
            fn fmt(&self, f: &mut fmt::Formatter<'_>) -> fmt::Result {
                self.message.fmt(f)
            }
        }

        impl OutputSizeUser for $Name {
            type OutputSize = $Size;
        }

        impl BlockSizeUser for $Name {
            type BlockSize = $Block;
        }

        impl Update for $Name {
            fn update(&mut self, data: &[u8]) {
                self.message
                    .update(data)
                    .expect("the message is longer than the function takes");
            }
        }

        impl FixedOutput for $Name {
            fn finalize_into(self, out: &mut Output<Self>) {
                self.finish(out);
            }
        }

        impl FixedOutputReset for $Name {
            fn finalize_into_reset(&mut self, out: &mut Output<Self>) {
                self.finish(out);
                self.reset();
            }
        }

        #[cfg(feature = "std")]
        impl std::io::Write for $Name {
            fn write(&mut self, piece: &[u8]) -> std::io::Result<usize> {
                std::io::Write::write(&mut self.message, piece)
            }

            fn flush(&mut self) -> std::io::Result<()> {
                Ok(())
            }
        }
    };
}

macro_rules! hash {
    ($(#[$about:meta])* $Name:ident, $Message:ident, $Size:ty, $Block:ty, |$message:ident, $out:ident| $finish:expr) => {
        $(#[$about])*
        #[derive(Clone, Default)]
        pub struct $Name {
            message: crate::$Message,
        }

        of_size!($Name, $Size, $Block, |$message, $out| $finish);

        impl HashMarker for $Name {}

        impl Reset for $Name {
            fn reset(&mut self) {
                *self = Self::default();
            }
        }
    };
}

// A tag under a key of at most so many bytes, which begins a message or is refused.
macro_rules! mac {
    ($(#[$about:meta])* $Name:ident, $Message:ident, $Size:ty, $Block:ty, $Longest:ty, |$key:ident| $begun:expr,
     |$message:ident, $out:ident| $finish:expr) => {
        $(#[$about])*
        #[derive(Clone)]
        pub struct $Name {
            message: crate::$Message,
            begun: crate::$Message,
        }

        of_size!($Name, $Size, $Block, |$message, $out| $finish);

        impl MacMarker for $Name {}

        impl Reset for $Name {
            fn reset(&mut self) {
                self.message.clone_from(&self.begun);
            }
        }

        impl KeySizeUser for $Name {
            type KeySize = $Longest;
        }

        impl KeyInit for $Name {
            fn new(key: &Key<Self>) -> Self {
                Self::new_from_slice(key).expect("a key of this length is not refused")
            }

            fn new_from_slice($key: &[u8]) -> Result<Self, InvalidLength> {
                let message: crate::$Message = $begun.map_err(|_| InvalidLength)?;
                let begun = message.clone();
                Ok(Self { message, begun })
            }
        }
    };
}

macro_rules! hmac {
    ($(#[$about:meta])* $Name:ident, $Message:ident, $Size:ty, $Block:ty) => {
        mac!($(#[$about])* $Name, $Message, $Size, $Block, $Block, |key| crate::$Message::new(key),
             |message, out| message.finish(out).expect(BEGUN));
    };
}

/// A key of BLAKE2, which is no key if it has no bytes.
fn some(key: &[u8]) -> Result<&[u8], Refusal> {
    if key.is_empty() {
        Err(Refusal::KeyLength)
    } else {
        Ok(key)
    }
}

hash!(
    /// SHA-256.
    Sha256, Sha256, U32, U64, |message, out| out.copy_from_slice(&message.finish())
);
hash!(
    /// SHA-512.
    Sha512, Sha512, U64, U128, |message, out| out.copy_from_slice(&message.finish())
);
hash!(
    /// BLAKE2b of 64 bytes.
    Blake2b512, Blake2b, U64, U128, |message, out| message.finish(out).expect(BEGUN)
);
hash!(
    /// BLAKE2s of 32 bytes.
    Blake2s256, Blake2s, U32, U64, |message, out| message.finish(out).expect(BEGUN)
);
hash!(
    /// BLAKE3 of 32 bytes, or by [`ExtendableOutput`] of any length.
    Blake3, Blake3, U32, U64, |message, out| message.output(0, out).expect(BEGUN)
);

hmac!(
    /// HMAC over SHA-256.
    HmacSha256, HmacSha256, U32, U64
);
hmac!(
    /// HMAC over SHA-512.
    HmacSha512, HmacSha512, U64, U128
);
hmac!(
    /// HMAC over BLAKE2b of 64 bytes.
    HmacBlake2b512, HmacBlake2b, U64, U128
);
hmac!(
    /// HMAC over BLAKE2s of 32 bytes.
    HmacBlake2s256, HmacBlake2s, U32, U64
);

mac!(
    /// Keyed BLAKE2b of 64 bytes, under a key of 1 to 64.
    Blake2bMac512, Blake2b, U64, U128, U64, |key| some(key).and_then(|key| crate::Blake2b::new(64, key)),
    |message, out| message.finish(out).expect(BEGUN)
);
mac!(
    /// Keyed BLAKE2s of 32 bytes, under a key of 1 to 32.
    Blake2sMac256, Blake2s, U32, U64, U32, |key| some(key).and_then(|key| crate::Blake2s::new(32, key)),
    |message, out| message.finish(out).expect(BEGUN)
);
mac!(
    /// Keyed BLAKE3 of 32 bytes, under a key of 32.
    Blake3Mac, Blake3, U32, U64, U32, |key| key.try_into().map(crate::Blake3::keyed),
    |message, out| message.output(0, out).expect(BEGUN)
);

/// A reader of BLAKE3's output, from its first byte on.
#[derive(Clone, Debug)]
pub struct Blake3Reader {
    message: crate::Blake3,
    position: u64,
}

impl XofReader for Blake3Reader {
    fn read(&mut self, buffer: &mut [u8]) {
        self.message
            .output(self.position, buffer)
            .expect("the output has no more bytes");
        self.position += buffer.len() as u64;
    }
}

#[cfg(feature = "std")]
impl std::io::Read for Blake3Reader {
    fn read(&mut self, buffer: &mut [u8]) -> std::io::Result<usize> {
        let left = usize::try_from(u64::MAX - self.position).unwrap_or(usize::MAX);
        let length = buffer.len().min(left);
        self.message.output(self.position, &mut buffer[..length])?;
        self.position += length as u64;
        Ok(length)
    }
}

#[cfg(feature = "std")]
impl std::io::Seek for Blake3Reader {
    /// Moves to a position of the output, which has 2^64 - 1 bytes. One that is outside is an error, and moves nothing.
    fn seek(&mut self, to: std::io::SeekFrom) -> std::io::Result<u64> {
        let (base, offset) = match to {
            std::io::SeekFrom::Start(position) => (position, 0),
            std::io::SeekFrom::Current(offset) => (self.position, offset),
            std::io::SeekFrom::End(offset) => (u64::MAX, offset),
        };
        let position = i128::from(base) + i128::from(offset);
        self.position = u64::try_from(position).map_err(|_| Refusal::EndOfOutput)?;
        Ok(self.position)
    }
}

impl ExtendableOutput for Blake3 {
    type Reader = Blake3Reader;

    fn finalize_xof(self) -> Blake3Reader {
        Blake3Reader {
            message: self.message,
            position: 0,
        }
    }
}
