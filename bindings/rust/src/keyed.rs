// SPDX-License-Identifier: MIT OR Apache-2.0
use crate::message::message;
use crate::native;
use crate::refusal::{checked, Refusal};

// HMAC over a hash, whose digest has so many bytes, of whole messages and in pieces.
macro_rules! hmac {
    ($hash:literal, $Message:ident, $State:ident, $half:literal, $length:literal, $whole:ident,
     $c_whole:ident, $c_init:ident, $c_update:ident, $c_finish:ident) => {
        #[doc = concat!("The tag of a message by HMAC (RFC 2104) over ", $hash, ", or its beginning, as long as `out`: ")]
        #[doc = concat!($half, " to ", $length, " bytes.")]
        pub fn $whole(out: &mut [u8], input: &[u8], key: &[u8]) -> Result<(), Refusal> {
            let (into, from) = (out.as_mut_ptr(), input.as_ptr());
            checked(unsafe { native::$c_whole(into, out.len(), from, input.len(), key.as_ptr(), key.len()) })
        }

        message! {
            #[doc = concat!("HMAC (RFC 2104) over ", $hash, " of a message that comes in pieces.")]
            $Message, $State, $c_update
        }

        impl $Message {
            /// Begins a message under a key of any length.
            pub fn new(key: &[u8]) -> Result<Self, Refusal> {
                let mut state = native::$State::ZERO;
                checked(unsafe { native::$c_init(&mut state, key.as_ptr(), key.len()) })?;
                Ok(Self(state))
            }

            /// The tag of the message so far, which can go on, or its beginning, as long as `out`:
            #[doc = concat!($half, " to ", $length, " bytes.")]
            pub fn finish(&self, out: &mut [u8]) -> Result<(), Refusal> {
                checked(unsafe { native::$c_finish(&self.0, out.as_mut_ptr(), out.len()) })
            }
        }
    };
}

// HKDF over a hash, whose digest has so many bytes.
macro_rules! hkdf {
    ($hash:literal, $length:literal, $longest:literal, $whole:ident, $extract:ident, $expand:ident,
     $c_whole:ident, $c_extract:ident, $c_expand:ident) => {
        #[doc = concat!("A key by HKDF (RFC 5869) over ", $hash, ", which fills `out`, up to ", $longest, " bytes.")]
        /// An empty salt is none.
        pub fn $whole(out: &mut [u8], material: &[u8], salt: &[u8], info: &[u8]) -> Result<(), Refusal> {
            let (into, from) = (out.as_mut_ptr(), material.as_ptr());
            let (salt_from, info_from) = (salt.as_ptr(), info.as_ptr());
            checked(unsafe {
                native::$c_whole(
                    into,
                    out.len(),
                    from,
                    material.len(),
                    salt_from,
                    salt.len(),
                    info_from,
                    info.len(),
                )
            })
        }

        /// The first step of HKDF: the pseudorandom key.
        pub fn $extract(material: &[u8], salt: &[u8]) -> Result<[u8; $length], Refusal> {
            let mut prk = [0; $length];
            let (from, salt_from) = (material.as_ptr(), salt.as_ptr());
            checked(unsafe { native::$c_extract(&mut prk, from, material.len(), salt_from, salt.len()) })?;
            Ok(prk)
        }

        /// The second step of HKDF: a key that fills `out`, of a pseudorandom key as long as a digest or longer.
        pub fn $expand(out: &mut [u8], prk: &[u8], info: &[u8]) -> Result<(), Refusal> {
            let (into, from) = (out.as_mut_ptr(), prk.as_ptr());
            checked(unsafe { native::$c_expand(into, out.len(), from, prk.len(), info.as_ptr(), info.len()) })
        }
    };
}

hmac!(
    "SHA-256",
    HmacSha256,
    HmacSha256State,
    16,
    32,
    hmac_sha256,
    sums_hmac_sha256,
    sums_hmac_sha256_init,
    sums_hmac_sha256_update,
    sums_hmac_sha256_finish
);
hmac!(
    "SHA-512",
    HmacSha512,
    HmacSha512State,
    32,
    64,
    hmac_sha512,
    sums_hmac_sha512,
    sums_hmac_sha512_init,
    sums_hmac_sha512_update,
    sums_hmac_sha512_finish
);
hmac!(
    "BLAKE2b of 64 bytes",
    HmacBlake2b,
    HmacBlake2bState,
    32,
    64,
    hmac_blake2b,
    sums_hmac_blake2b,
    sums_hmac_blake2b_init,
    sums_hmac_blake2b_update,
    sums_hmac_blake2b_finish
);
hmac!(
    "BLAKE2s of 32 bytes",
    HmacBlake2s,
    HmacBlake2sState,
    16,
    32,
    hmac_blake2s,
    sums_hmac_blake2s,
    sums_hmac_blake2s_init,
    sums_hmac_blake2s_update,
    sums_hmac_blake2s_finish
);

hkdf!(
    "SHA-256",
    32,
    "8,160",
    hkdf_sha256,
    hkdf_extract_sha256,
    hkdf_expand_sha256,
    sums_hkdf_sha256,
    sums_hkdf_extract_sha256,
    sums_hkdf_expand_sha256
);
hkdf!(
    "SHA-512",
    64,
    "16,320",
    hkdf_sha512,
    hkdf_extract_sha512,
    hkdf_expand_sha512,
    sums_hkdf_sha512,
    sums_hkdf_extract_sha512,
    sums_hkdf_expand_sha512
);
hkdf!(
    "BLAKE2b of 64 bytes",
    64,
    "16,320",
    hkdf_blake2b,
    hkdf_extract_blake2b,
    hkdf_expand_blake2b,
    sums_hkdf_blake2b,
    sums_hkdf_extract_blake2b,
    sums_hkdf_expand_blake2b
);
hkdf!(
    "BLAKE2s of 32 bytes",
    32,
    "8,160",
    hkdf_blake2s,
    hkdf_extract_blake2s,
    hkdf_expand_blake2s,
    sums_hkdf_blake2s,
    sums_hkdf_extract_blake2s,
    sums_hkdf_expand_blake2s
);
