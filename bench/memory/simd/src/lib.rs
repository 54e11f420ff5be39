//! BLAKE2b-512 and BLAKE2s-256 of the crates blake2b_simd and blake2s_simd, for callers in C.

/// # Safety
/// `length` bytes at `input` can be read, and 64 bytes at `digest` written.
#[no_mangle]
pub unsafe extern "C" fn simd_blake2b(input: *const u8, length: usize, digest: *mut u8) {
    let input = std::slice::from_raw_parts(input, length);
    let digest = std::slice::from_raw_parts_mut(digest, 64);
    digest.copy_from_slice(blake2b_simd::blake2b(input).as_bytes());
}

/// # Safety
/// `length` bytes at `input` can be read, and 32 bytes at `digest` written.
#[no_mangle]
pub unsafe extern "C" fn simd_blake2s(input: *const u8, length: usize, digest: *mut u8) {
    let input = std::slice::from_raw_parts(input, length);
    let digest = std::slice::from_raw_parts_mut(digest, 32);
    digest.copy_from_slice(blake2s_simd::blake2s(input).as_bytes());
}

/// BLAKE2b-512 of the pieces of `length` bytes at `input`, each of `piece` bytes but the last, as many at once as the
/// crate likes, 64 at a time.
///
/// # Safety
/// `length` bytes at `input` can be read, and 64 for each piece written at `digests`; `piece` is above 0.
#[no_mangle]
pub unsafe extern "C" fn simd_blake2b_many(input: *const u8, length: usize, piece: usize, digests: *mut u8) {
    use blake2b_simd::many::{hash_many, HashManyJob};
    let params = blake2b_simd::Params::new();
    let pieces = std::slice::from_raw_parts(input, length).chunks(piece);
    let digests = std::slice::from_raw_parts_mut(digests, 64 * pieces.len());
    let mut jobs: Vec<_> = pieces.map(|piece| HashManyJob::new(&params, piece)).collect();
    for (jobs, digests) in jobs.chunks_mut(64).zip(digests.chunks_mut(64 * 64)) {
        hash_many(jobs.iter_mut());
        for (job, digest) in jobs.iter().zip(digests.chunks_mut(64)) {
            digest.copy_from_slice(job.to_hash().as_bytes());
        }
    }
}

/// The same by BLAKE2s-256.
///
/// # Safety
/// `length` bytes at `input` can be read, and 32 for each piece written at `digests`; `piece` is above 0.
#[no_mangle]
pub unsafe extern "C" fn simd_blake2s_many(input: *const u8, length: usize, piece: usize, digests: *mut u8) {
    use blake2s_simd::many::{hash_many, HashManyJob};
    let params = blake2s_simd::Params::new();
    let pieces = std::slice::from_raw_parts(input, length).chunks(piece);
    let digests = std::slice::from_raw_parts_mut(digests, 32 * pieces.len());
    let mut jobs: Vec<_> = pieces.map(|piece| HashManyJob::new(&params, piece)).collect();
    for (jobs, digests) in jobs.chunks_mut(64).zip(digests.chunks_mut(64 * 32)) {
        hash_many(jobs.iter_mut());
        for (job, digest) in jobs.iter().zip(digests.chunks_mut(32)) {
            digest.copy_from_slice(job.to_hash().as_bytes());
        }
    }
}
