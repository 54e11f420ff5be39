// SPDX-License-Identifier: MIT OR Apache-2.0
//! The calls of libsums_hash, as sums_hash.h declares them, and the memory of their states.

macro_rules! states {
    ($($State:ident: $bytes:literal,)*) => {
        $(
            /// A state of the library, as whole words, so that it has its alignment.
            #[repr(C)]
            #[derive(Clone)]
            pub struct $State([u64; $bytes / 8]);

            impl $State {
                pub const ZERO: Self = Self([0; $bytes / 8]);
            }
        )*
    };
}

states! {
    Blake2bState: 224,
    Blake2sState: 120,
    Blake3State: 1880,
    Sha256State: 112,
    Sha512State: 216,
    HmacSha256State: 224,
    HmacSha512State: 432,
    HmacBlake2bState: 448,
    HmacBlake2sState: 240,
    ListState: 65560,
}

/// A line of a list, as the library writes it.
#[repr(C)]
#[derive(Clone)]
pub struct ListLine {
    pub number: u64,
    pub taken: u64,
    pub kind: u32,
    pub hash: u32,
    pub digest_len: u32,
    pub name_len: u32,
    pub digest: [u8; 64],
    pub name: [u8; 65536],
}

extern "C" {
    pub fn sums_blake2b(
        out: *mut u8,
        out_len: usize,
        input: *const u8,
        input_len: usize,
        key: *const u8,
        key_len: usize,
    ) -> u32;
    pub fn sums_blake2b_salted(
        out: *mut u8,
        out_len: usize,
        input: *const u8,
        input_len: usize,
        key: *const u8,
        key_len: usize,
        salt: *const [u8; 16],
        personal: *const [u8; 16],
    ) -> u32;
    pub fn sums_blake2s(
        out: *mut u8,
        out_len: usize,
        input: *const u8,
        input_len: usize,
        key: *const u8,
        key_len: usize,
    ) -> u32;
    pub fn sums_blake2s_salted(
        out: *mut u8,
        out_len: usize,
        input: *const u8,
        input_len: usize,
        key: *const u8,
        key_len: usize,
        salt: *const [u8; 8],
        personal: *const [u8; 8],
    ) -> u32;
    pub fn sums_blake3(out: *mut u8, out_len: usize, position: u64, input: *const u8, input_len: usize) -> u32;
    pub fn sums_blake3_hash(out: *mut [u8; 32], input: *const u8, input_len: usize);
    pub fn sums_blake3_keyed(
        out: *mut u8,
        out_len: usize,
        position: u64,
        input: *const u8,
        input_len: usize,
        key: *const [u8; 32],
    ) -> u32;
    pub fn sums_blake3_derive(
        out: *mut u8,
        out_len: usize,
        position: u64,
        material: *const u8,
        material_len: usize,
        context: *const u8,
        context_len: usize,
    ) -> u32;
    pub fn sums_sha256(out: *mut [u8; 32], input: *const u8, input_len: usize);
    pub fn sums_sha512(out: *mut [u8; 64], input: *const u8, input_len: usize);
    pub fn sums_sha256_pieces(
        out: *mut u8,
        out_len: usize,
        input: *const u8,
        input_len: usize,
        piece_len: usize,
    ) -> u32;
    pub fn sums_sha512_pieces(
        out: *mut u8,
        out_len: usize,
        input: *const u8,
        input_len: usize,
        piece_len: usize,
    ) -> u32;
    pub fn sums_blake2b_pieces(
        out: *mut u8,
        out_len: usize,
        digest_len: usize,
        input: *const u8,
        input_len: usize,
        piece_len: usize,
    ) -> u32;
    pub fn sums_blake2s_pieces(
        out: *mut u8,
        out_len: usize,
        digest_len: usize,
        input: *const u8,
        input_len: usize,
        piece_len: usize,
    ) -> u32;
    pub fn sums_blake3_pieces(
        out: *mut u8,
        out_len: usize,
        input: *const u8,
        input_len: usize,
        piece_len: usize,
    ) -> u32;
    pub fn sums_hmac_sha256(
        out: *mut u8,
        out_len: usize,
        input: *const u8,
        input_len: usize,
        key: *const u8,
        key_len: usize,
    ) -> u32;
    pub fn sums_hmac_sha512(
        out: *mut u8,
        out_len: usize,
        input: *const u8,
        input_len: usize,
        key: *const u8,
        key_len: usize,
    ) -> u32;
    pub fn sums_hmac_blake2b(
        out: *mut u8,
        out_len: usize,
        input: *const u8,
        input_len: usize,
        key: *const u8,
        key_len: usize,
    ) -> u32;
    pub fn sums_hmac_blake2s(
        out: *mut u8,
        out_len: usize,
        input: *const u8,
        input_len: usize,
        key: *const u8,
        key_len: usize,
    ) -> u32;
    pub fn sums_hkdf_sha256(
        out: *mut u8,
        out_len: usize,
        material: *const u8,
        material_len: usize,
        salt: *const u8,
        salt_len: usize,
        info: *const u8,
        info_len: usize,
    ) -> u32;
    pub fn sums_hkdf_sha512(
        out: *mut u8,
        out_len: usize,
        material: *const u8,
        material_len: usize,
        salt: *const u8,
        salt_len: usize,
        info: *const u8,
        info_len: usize,
    ) -> u32;
    pub fn sums_hkdf_blake2b(
        out: *mut u8,
        out_len: usize,
        material: *const u8,
        material_len: usize,
        salt: *const u8,
        salt_len: usize,
        info: *const u8,
        info_len: usize,
    ) -> u32;
    pub fn sums_hkdf_blake2s(
        out: *mut u8,
        out_len: usize,
        material: *const u8,
        material_len: usize,
        salt: *const u8,
        salt_len: usize,
        info: *const u8,
        info_len: usize,
    ) -> u32;
    pub fn sums_hkdf_extract_sha256(
        prk: *mut [u8; 32],
        material: *const u8,
        material_len: usize,
        salt: *const u8,
        salt_len: usize,
    ) -> u32;
    pub fn sums_hkdf_extract_sha512(
        prk: *mut [u8; 64],
        material: *const u8,
        material_len: usize,
        salt: *const u8,
        salt_len: usize,
    ) -> u32;
    pub fn sums_hkdf_extract_blake2b(
        prk: *mut [u8; 64],
        material: *const u8,
        material_len: usize,
        salt: *const u8,
        salt_len: usize,
    ) -> u32;
    pub fn sums_hkdf_extract_blake2s(
        prk: *mut [u8; 32],
        material: *const u8,
        material_len: usize,
        salt: *const u8,
        salt_len: usize,
    ) -> u32;
    pub fn sums_hkdf_expand_sha256(
        out: *mut u8,
        out_len: usize,
        prk: *const u8,
        prk_len: usize,
        info: *const u8,
        info_len: usize,
    ) -> u32;
    pub fn sums_hkdf_expand_sha512(
        out: *mut u8,
        out_len: usize,
        prk: *const u8,
        prk_len: usize,
        info: *const u8,
        info_len: usize,
    ) -> u32;
    pub fn sums_hkdf_expand_blake2b(
        out: *mut u8,
        out_len: usize,
        prk: *const u8,
        prk_len: usize,
        info: *const u8,
        info_len: usize,
    ) -> u32;
    pub fn sums_hkdf_expand_blake2s(
        out: *mut u8,
        out_len: usize,
        prk: *const u8,
        prk_len: usize,
        info: *const u8,
        info_len: usize,
    ) -> u32;
    pub fn sums_blake2b_init(state: *mut Blake2bState, digest_len: usize, key: *const u8, key_len: usize) -> u32;
    pub fn sums_blake2b_init_salted(
        state: *mut Blake2bState,
        digest_len: usize,
        key: *const u8,
        key_len: usize,
        salt: *const [u8; 16],
        personal: *const [u8; 16],
    ) -> u32;
    pub fn sums_blake2b_update(state: *mut Blake2bState, piece: *const u8, piece_len: usize) -> u32;
    pub fn sums_blake2b_finish(state: *const Blake2bState, out: *mut u8, out_len: usize) -> u32;
    pub fn sums_blake2s_init(state: *mut Blake2sState, digest_len: usize, key: *const u8, key_len: usize) -> u32;
    pub fn sums_blake2s_init_salted(
        state: *mut Blake2sState,
        digest_len: usize,
        key: *const u8,
        key_len: usize,
        salt: *const [u8; 8],
        personal: *const [u8; 8],
    ) -> u32;
    pub fn sums_blake2s_update(state: *mut Blake2sState, piece: *const u8, piece_len: usize) -> u32;
    pub fn sums_blake2s_finish(state: *const Blake2sState, out: *mut u8, out_len: usize) -> u32;
    pub fn sums_blake3_init(state: *mut Blake3State);
    pub fn sums_blake3_init_keyed(state: *mut Blake3State, key: *const [u8; 32]);
    pub fn sums_blake3_init_derive(state: *mut Blake3State, context: *const u8, context_len: usize);
    pub fn sums_blake3_reset(state: *mut Blake3State) -> u32;
    pub fn sums_blake3_update(state: *mut Blake3State, piece: *const u8, piece_len: usize) -> u32;
    pub fn sums_blake3_output(state: *const Blake3State, position: u64, out: *mut u8, out_len: usize) -> u32;
    pub fn sums_sha256_init(state: *mut Sha256State);
    pub fn sums_sha256_update(state: *mut Sha256State, piece: *const u8, piece_len: usize) -> u32;
    pub fn sums_sha256_finish(state: *const Sha256State, out: *mut [u8; 32]) -> u32;
    pub fn sums_sha512_init(state: *mut Sha512State);
    pub fn sums_sha512_update(state: *mut Sha512State, piece: *const u8, piece_len: usize) -> u32;
    pub fn sums_sha512_finish(state: *const Sha512State, out: *mut [u8; 64]) -> u32;
    pub fn sums_hmac_sha256_init(state: *mut HmacSha256State, key: *const u8, key_len: usize) -> u32;
    pub fn sums_hmac_sha256_update(state: *mut HmacSha256State, piece: *const u8, piece_len: usize) -> u32;
    pub fn sums_hmac_sha256_finish(state: *const HmacSha256State, out: *mut u8, out_len: usize) -> u32;
    pub fn sums_hmac_sha512_init(state: *mut HmacSha512State, key: *const u8, key_len: usize) -> u32;
    pub fn sums_hmac_sha512_update(state: *mut HmacSha512State, piece: *const u8, piece_len: usize) -> u32;
    pub fn sums_hmac_sha512_finish(state: *const HmacSha512State, out: *mut u8, out_len: usize) -> u32;
    pub fn sums_hmac_blake2b_init(state: *mut HmacBlake2bState, key: *const u8, key_len: usize) -> u32;
    pub fn sums_hmac_blake2b_update(state: *mut HmacBlake2bState, piece: *const u8, piece_len: usize) -> u32;
    pub fn sums_hmac_blake2b_finish(state: *const HmacBlake2bState, out: *mut u8, out_len: usize) -> u32;
    pub fn sums_hmac_blake2s_init(state: *mut HmacBlake2sState, key: *const u8, key_len: usize) -> u32;
    pub fn sums_hmac_blake2s_update(state: *mut HmacBlake2sState, piece: *const u8, piece_len: usize) -> u32;
    pub fn sums_hmac_blake2s_finish(state: *const HmacBlake2sState, out: *mut u8, out_len: usize) -> u32;
    pub fn sums_list_init(state: *mut ListState, hash: u32) -> u32;
    pub fn sums_list_read(state: *mut ListState, line: *mut ListLine, piece: *const u8, piece_len: usize) -> u32;
    pub fn sums_list_end(state: *mut ListState, line: *mut ListLine) -> u32;
    pub fn sums_list_line_length(
        hash: u32,
        is_tagged: u32,
        digest_len: usize,
        name: *const u8,
        name_len: usize,
    ) -> usize;
    pub fn sums_list_line(
        out: *mut u8,
        out_len: usize,
        hash: u32,
        is_tagged: u32,
        digest: *const u8,
        digest_len: usize,
        name: *const u8,
        name_len: usize,
    ) -> u32;
    pub fn sums_list_report_length(verdict: u32, name: *const u8, name_len: usize) -> usize;
    pub fn sums_list_report(out: *mut u8, out_len: usize, verdict: u32, name: *const u8, name_len: usize) -> u32;
}
