// SPDX-License-Identifier: MIT OR Apache-2.0
use crate::message::message;
use crate::native;
use crate::refusal::{checked, Refusal};

// A width of BLAKE2: the calls on whole messages, and messages in pieces.
macro_rules! blake2 {
    ($name:literal, $Message:ident, $State:ident, $longest:literal, $salt:literal, $whole:ident, $whole_salted:ident,
     $c_whole:ident, $c_whole_salted:ident, $c_init:ident, $c_init_salted:ident, $c_update:ident, $c_finish:ident) => {
        #[doc = concat!($name, " (RFC 7693) of a message under a key of up to ", $longest, " bytes, which may be empty.")]
        #[doc = concat!("The digest fills `out`, which has 1 to ", $longest, " bytes.")]
        pub fn $whole(out: &mut [u8], input: &[u8], key: &[u8]) -> Result<(), Refusal> {
            let (into, from) = (out.as_mut_ptr(), input.as_ptr());
            checked(unsafe { native::$c_whole(into, out.len(), from, input.len(), key.as_ptr(), key.len()) })
        }

        /// Writes a digest like the function without a salt, with a salt and a personalization.
        pub fn $whole_salted(
            out: &mut [u8],
            input: &[u8],
            key: &[u8],
            salt: &[u8; $salt],
            personal: &[u8; $salt],
        ) -> Result<(), Refusal> {
            let (into, from, under) = (out.as_mut_ptr(), input.as_ptr(), key.as_ptr());
            checked(unsafe {
                native::$c_whole_salted(
                    into,
                    out.len(),
                    from,
                    input.len(),
                    under,
                    key.len(),
                    salt,
                    personal,
                )
            })
        }

        message! {
            #[doc = concat!($name, " (RFC 7693) of a message that comes in pieces.")]
            $Message, $State, $c_update
        }

        impl $Message {
            #[doc = concat!("Begins a message, for a digest of 1 to ", $longest, " bytes under a key of up to ")]
            #[doc = concat!($longest, " bytes, which may be empty.")]
            pub fn new(digest_len: usize, key: &[u8]) -> Result<Self, Refusal> {
                let mut state = native::$State::ZERO;
                checked(unsafe { native::$c_init(&mut state, digest_len, key.as_ptr(), key.len()) })?;
                Ok(Self(state))
            }

            /// Begins a message like `new`, with a salt and a personalization.
            pub fn salted(
                digest_len: usize,
                key: &[u8],
                salt: &[u8; $salt],
                personal: &[u8; $salt],
            ) -> Result<Self, Refusal> {
                let (mut state, under) = (native::$State::ZERO, key.as_ptr());
                checked(unsafe { native::$c_init_salted(&mut state, digest_len, under, key.len(), salt, personal) })?;
                Ok(Self(state))
            }

            /// The digest of the message so far, which can go on. `out` has to be as long as `new` was given.
            pub fn finish(&self, out: &mut [u8]) -> Result<(), Refusal> {
                checked(unsafe { native::$c_finish(&self.0, out.as_mut_ptr(), out.len()) })
            }
        }

        #[doc = concat!("Begins a message for a digest of ", $longest, " bytes without a key.")]
        impl Default for $Message {
            fn default() -> Self {
                Self::new($longest, &[]).expect("the longest digest is not refused")
            }
        }
    };
}

blake2!(
    "BLAKE2b",
    Blake2b,
    Blake2bState,
    64,
    16,
    blake2b,
    blake2b_salted,
    sums_blake2b,
    sums_blake2b_salted,
    sums_blake2b_init,
    sums_blake2b_init_salted,
    sums_blake2b_update,
    sums_blake2b_finish
);
blake2!(
    "BLAKE2s",
    Blake2s,
    Blake2sState,
    32,
    8,
    blake2s,
    blake2s_salted,
    sums_blake2s,
    sums_blake2s_salted,
    sums_blake2s_init,
    sums_blake2s_init_salted,
    sums_blake2s_update,
    sums_blake2s_finish
);
