// SPDX-License-Identifier: MIT OR Apache-2.0
use crate::message::message;
use crate::native;
use crate::refusal::{checked, Refusal};

// A width of SHA-2: the call on a whole message, and messages in pieces.
macro_rules! sha2 {
    ($name:literal, $Message:ident, $State:ident, $length:literal, $whole:ident,
     $c_whole:ident, $c_init:ident, $c_update:ident, $c_finish:ident) => {
        #[doc = concat!($name, " (FIPS 180-4) of a message.")]
        pub fn $whole(input: &[u8]) -> [u8; $length] {
            let mut out = [0; $length];
            unsafe { native::$c_whole(&mut out, input.as_ptr(), input.len()) };
            out
        }

        message! {
            #[doc = concat!($name, " (FIPS 180-4) of a message that comes in pieces.")]
            $Message, $State, $c_update
        }

        impl $Message {
            /// Begins a message.
            pub fn new() -> Self {
                let mut state = native::$State::ZERO;
                unsafe { native::$c_init(&mut state) };
                Self(state)
            }

            /// The digest of the message so far, which can go on.
            pub fn finish(&self) -> [u8; $length] {
                let mut out = [0; $length];
                checked(unsafe { native::$c_finish(&self.0, &mut out) })
                    .expect("a state that was begun is not refused");
                out
            }
        }

        impl Default for $Message {
            fn default() -> Self {
                Self::new()
            }
        }
    };
}

sha2!(
    "SHA-256",
    Sha256,
    Sha256State,
    32,
    sha256,
    sums_sha256,
    sums_sha256_init,
    sums_sha256_update,
    sums_sha256_finish
);
sha2!(
    "SHA-512",
    Sha512,
    Sha512State,
    64,
    sha512,
    sums_sha512,
    sums_sha512_init,
    sums_sha512_update,
    sums_sha512_finish
);
