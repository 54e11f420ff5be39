//! The hashes and HMAC of sums-hash by the vectors of RustCrypto's crates, through the traits of the crate digest.
#![cfg(test)]

use std::fmt::Debug;

use blobby::{Blob2Iterator, Blob3Iterator, Blob4Iterator};
use digest::crypto_common::{BlockSizeUser, KeySizeUser};
use digest::{
    dev, Digest, DynDigest, ExtendableOutput, FixedOutputReset, HashMarker, Key, KeyInit, Mac, Update, XofReader,
};
use hkdf::SimpleHkdf;
use hmac::SimpleHmac;
use sums_hash::traits::*;

fn vectors(name: &str) -> Vec<u8> {
    std::fs::read(format!("/usr/share/cargo/registry/{name}.blb")).unwrap_or_else(|fault| panic!("{name}: {fault}"))
}

/// Counts rows as they pass, and tells how many there were.
fn each<T>(name: &str, rows: impl Iterator<Item = Result<T, blobby::Error>>, passes: impl Fn(T)) {
    let mut count = 0;
    for row in rows {
        passes(row.unwrap());
        count += 1;
    }
    println!("{name}: {count} rows");
    assert!(count > 0, "{name} has no rows");
}

fn digests<D: FixedOutputReset + Clone + Default + Update + HashMarker + Debug>(name: &str) {
    each(name, Blob2Iterator::new(&vectors(name)).unwrap(), |[input, output]| {
        assert_eq!(dev::fixed_reset_test::<D>(input, output), None);
    });
}

#[test]
fn sha2() {
    digests::<Sha256>("sha2-0.10.5/tests/data/sha256");
    digests::<Sha512>("sha2-0.10.5/tests/data/sha512");
}

/// Begins anew under the same key, in each way that there is, and makes the same tag.
fn is_reset<M: Mac + FixedOutputReset>(mac: &mut M, input: &[u8], tag: &[u8]) {
    assert_eq!(mac.finalize_reset().into_bytes()[..], *tag);
    Mac::update(mac, b"forgotten");
    Mac::reset(mac);
    Mac::update(mac, input);
    assert_eq!(mac.finalize_reset().into_bytes()[..], *tag);
    Mac::update(mac, input);
    Mac::update(mac, b"more");
    assert_ne!(mac.finalize_reset().into_bytes()[..], *tag);
}

/// A vector may have the beginning of a tag alone.
fn tags<M: Mac + KeyInit + Clone + FixedOutputReset>(name: &str) {
    each(name, Blob3Iterator::new(&vectors(name)).unwrap(), |[key, input, tag]| {
        for size in [1, 7, 64, 1000] {
            let mut mac = <M as Mac>::new_from_slice(key).unwrap();
            for piece in input.chunks(size) {
                Mac::update(&mut mac, piece);
            }
            assert_eq!(&mac.clone().finalize().into_bytes()[..tag.len()], tag);
            is_reset(&mut mac.clone(), input, &mac.clone().finalize().into_bytes());
            mac.clone().verify_truncated_left(tag).unwrap();
            let mut wrong = tag.to_vec();
            wrong[0] ^= 1;
            mac.verify_truncated_left(&wrong).unwrap_err();
        }
    });
}

#[test]
fn hmac() {
    tags::<HmacSha256>("hmac-0.12.1/tests/data/sha256");
    tags::<HmacSha512>("hmac-0.12.1/tests/data/sha512");
    tags::<HmacSha256>("hmac-0.12.1/tests/data/wycheproof-sha256");
    tags::<HmacSha512>("hmac-0.12.1/tests/data/wycheproof-sha512");
}

fn keys(name: &str, derive: fn(&mut [u8], &[u8], &[u8], &[u8]) -> Result<(), sums_hash::Refusal>) {
    each(
        name,
        Blob4Iterator::new(&vectors(name)).unwrap(),
        |[material, salt, info, key]| {
            let mut out = vec![0; key.len()];
            derive(&mut out, material, salt, info).unwrap();
            assert_eq!(out, key);
        },
    );
}

#[test]
fn hkdf() {
    keys("hkdf-0.12.3/tests/data/wycheproof-sha256", sums_hash::hkdf_sha256);
    keys("hkdf-0.12.3/tests/data/wycheproof-sha512", sums_hash::hkdf_sha512);
}

fn as_digest<D: Digest + FixedOutputReset>(abc: &[u8]) {
    let mut hasher = D::new();
    Digest::update(&mut hasher, b"a");
    Digest::update(&mut hasher, b"bc");
    assert_eq!(hasher.finalize_reset()[..], *abc);
    assert_eq!(D::digest(b""), hasher.finalize());
}

#[test]
fn as_digests() {
    let (mut short, mut long) = ([0; 32], [0; 64]);
    as_digest::<Sha256>(&sums_hash::sha256(b"abc"));
    as_digest::<Sha512>(&sums_hash::sha512(b"abc"));
    sums_hash::blake2s(&mut short, b"abc", b"").unwrap();
    as_digest::<Blake2s256>(&short);
    sums_hash::blake2b(&mut long, b"abc", b"").unwrap();
    as_digest::<Blake2b512>(&long);
    sums_hash::blake3(&mut short, 0, b"abc").unwrap();
    as_digest::<Blake3>(&short);
}

#[test]
fn as_any_digest() {
    let mut boxed: Box<dyn DynDigest> = Box::new(Sha512::default());
    boxed.update(b"abc");
    let mut digest = [0; 64];
    boxed.finalize_into_reset(&mut digest).unwrap();
    assert_eq!(digest, sums_hash::sha512(b"abc"));
    boxed.finalize_into_reset(&mut digest).unwrap();
    assert_eq!(digest, sums_hash::sha512(b""));
}

fn message_of(data: &[u8]) -> Blake3 {
    let mut message = Blake3::default();
    Update::update(&mut message, data);
    message
}

#[test]
fn output_of_blake3() {
    let (mut whole, mut read) = ([0; 1000], [0; 1000]);
    sums_hash::blake3(&mut whole, 0, b"abc").unwrap();
    let mut reader = message_of(b"abc").finalize_xof();
    for piece in read.chunks_mut(33) {
        reader.read(piece);
    }
    assert_eq!(read, whole);
    let mut reader = message_of(b"abc").finalize_xof();
    for piece in read.chunks_mut(256) {
        reader.read(piece);
    }
    assert_eq!(read, whole);
}

/// HMAC over BLAKE2 by RFC 2104, of the hash alone.
fn hmac_by_hash<D: Digest>(key: &[u8], block: usize, input: &[u8]) -> Vec<u8> {
    let mut padded = if key.len() > block {
        D::digest(key).to_vec()
    } else {
        key.to_vec()
    };
    padded.resize(block, 0);
    let pad = |with: u8| -> Vec<u8> { padded.iter().map(|byte| byte ^ with).collect() };
    let inner = D::new_with_prefix(pad(0x36)).chain_update(input).finalize();
    D::new_with_prefix(pad(0x5c)).chain_update(inner).finalize().to_vec()
}

#[test]
fn hmac_over_blake2() {
    for length in [0, 1, 63, 64, 65, 127, 128, 129, 500] {
        let (key, input) = (vec![7; length], vec![9; 3 * length]);
        let tag = <HmacBlake2b512 as Mac>::new_from_slice(&key)
            .unwrap()
            .chain_update(&input)
            .finalize();
        assert_eq!(tag.into_bytes().to_vec(), hmac_by_hash::<Blake2b512>(&key, 128, &input));
        let tag = <HmacBlake2s256 as Mac>::new_from_slice(&key)
            .unwrap()
            .chain_update(&input)
            .finalize();
        assert_eq!(tag.into_bytes().to_vec(), hmac_by_hash::<Blake2s256>(&key, 64, &input));
    }
}

/// The tag of a message under a key by `Mac`, in pieces, which is `wanted`.
fn is_keyed<M: Mac + KeyInit + Clone + FixedOutputReset>(key: &[u8], input: &[u8], wanted: &[u8]) {
    let mut mac = <M as Mac>::new_from_slice(key).unwrap();
    input.chunks(33).for_each(|piece| Mac::update(&mut mac, piece));
    assert_eq!(mac.clone().finalize().into_bytes()[..], *wanted);
    is_reset(&mut mac.clone(), input, wanted);
    mac.verify_slice(wanted).unwrap();
}

#[test]
fn keyed_blake() {
    let (bytes, input) = ([7; 64], [9; 300]);
    let (mut short, mut long) = ([0; 32], [0; 64]);
    for length in [1, 32, 64] {
        sums_hash::blake2b(&mut long, &input, &bytes[..length]).unwrap();
        is_keyed::<Blake2bMac512>(&bytes[..length], &input, &long);
    }
    for length in [1, 32] {
        sums_hash::blake2s(&mut short, &input, &bytes[..length]).unwrap();
        is_keyed::<Blake2sMac256>(&bytes[..length], &input, &short);
    }
    sums_hash::blake3_keyed(&mut short, 0, &input, &[7; 32]).unwrap();
    is_keyed::<Blake3Mac>(&bytes[..32], &input, &short);
    for length in [0, 65] {
        <Blake2bMac512 as Mac>::new_from_slice(&vec![7; length]).unwrap_err();
    }
    for length in [0, 33] {
        <Blake2sMac256 as Mac>::new_from_slice(&vec![7; length]).unwrap_err();
    }
    for length in [0, 31, 33] {
        <Blake3Mac as Mac>::new_from_slice(&vec![7; length]).unwrap_err();
    }
}

#[test]
fn generic_over_a_digest() {
    let mut tag = [0; 32];
    sums_hash::hmac_sha256(&mut tag, b"message", b"key").unwrap();
    is_keyed::<SimpleHmac<Sha256>>(b"key", b"message", &tag);
    let (mut ours, mut theirs) = ([0; 100], [0; 100]);
    sums_hash::hkdf_sha512(&mut ours, b"secret", b"salt", b"what for").unwrap();
    SimpleHkdf::<Sha512>::new(Some(b"salt"), b"secret").expand(b"what for", &mut theirs).unwrap();
    assert_eq!(ours, theirs);
}

#[cfg(feature = "std")]
mod with_std {
    use std::io::{self, ErrorKind, Read, Seek, SeekFrom, Write};

    use digest::{ExtendableOutput, FixedOutput, Mac};
    use sums_hash::traits::*;

    fn written<H: FixedOutput + Write>(mut hasher: H, input: &[u8]) -> Vec<u8> {
        assert_eq!(io::copy(&mut &*input, &mut hasher).unwrap(), input.len() as u64);
        hasher.flush().unwrap();
        hasher.finalize_fixed().to_vec()
    }

    #[test]
    fn writers() {
        let input = vec![9; 100_000];
        assert_eq!(written(Sha256::default(), &input), sums_hash::sha256(&input));
        assert_eq!(written(Sha512::default(), &input), sums_hash::sha512(&input));
        let (mut short, mut long) = ([0; 32], [0; 64]);
        sums_hash::blake2b(&mut long, &input, b"").unwrap();
        assert_eq!(written(Blake2b512::default(), &input), long);
        sums_hash::blake2b(&mut long, &input, b"key").unwrap();
        assert_eq!(written(<Blake2bMac512 as Mac>::new_from_slice(b"key").unwrap(), &input), long);
        sums_hash::hmac_sha256(&mut short, &input, b"key").unwrap();
        assert_eq!(written(<HmacSha256 as Mac>::new_from_slice(b"key").unwrap(), &input), short);
    }

    #[test]
    fn output_as_a_reader() {
        let mut whole = [0; 1000];
        sums_hash::blake3(&mut whole, 0, b"").unwrap();
        let (mut reader, mut read) = (Blake3::default().finalize_xof(), [0; 900]);
        Read::by_ref(&mut reader).take(100).read_to_end(&mut Vec::new()).unwrap();
        reader.read_exact(&mut read).unwrap();
        assert_eq!(read, whole[100..]);
        assert_eq!(reader.stream_position().unwrap(), 1000);
        assert_eq!(reader.seek(SeekFrom::Current(-700)).unwrap(), 300);
        reader.read_exact(&mut read[..50]).unwrap();
        assert_eq!(read[..50], whole[300..350]);
        assert_eq!(reader.seek(SeekFrom::Start(7)).unwrap(), 7);
        digest::XofReader::read(&mut reader, &mut read[..50]);
        assert_eq!(read[..50], whole[7..57]);
    }

    #[test]
    fn end_of_the_output() {
        let (mut reader, mut read) = (Blake3::default().finalize_xof(), [0; 10]);
        assert_eq!(reader.seek(SeekFrom::End(-3)).unwrap(), u64::MAX - 3);
        for wrong in [SeekFrom::Current(4), SeekFrom::End(1), SeekFrom::Current(i64::MAX)] {
            assert_eq!(reader.seek(wrong).unwrap_err().kind(), ErrorKind::InvalidInput);
            assert_eq!(reader.stream_position().unwrap(), u64::MAX - 3);
        }
        assert_eq!(Read::read(&mut reader, &mut read).unwrap(), 3);
        let mut last = [0; 3];
        sums_hash::blake3(&mut last, u64::MAX - 3, b"").unwrap();
        assert_eq!(read[..3], last);
        assert_eq!(Read::read(&mut reader, &mut read).unwrap(), 0);
        assert_eq!(reader.seek(SeekFrom::End(0)).unwrap(), u64::MAX);
        reader.rewind().unwrap();
        assert_eq!(reader.seek(SeekFrom::Current(-1)).unwrap_err().kind(), ErrorKind::InvalidInput);
        assert_eq!(Read::read(&mut reader, &mut []).unwrap(), 0);
    }
}

/// A hash or tag has blocks of so many bytes, by which HMAC over it is defined.
fn has_block<H: BlockSizeUser>(block: usize) {
    assert_eq!(H::block_size(), block, "{}", std::any::type_name::<H>());
}

/// A key of the type that `KeyInit::new` takes has so many bytes.
fn has_key<M: KeyInit + Mac>(key: usize) {
    assert_eq!(M::key_size(), key, "{}", std::any::type_name::<M>());
    let bytes = vec![7; key];
    let (new, of_slice) = (<M as KeyInit>::new(Key::<M>::from_slice(&bytes)), <M as KeyInit>::new_from_slice(&bytes));
    assert_eq!(new.finalize().into_bytes(), of_slice.unwrap().finalize().into_bytes());
}

#[test]
fn blocks_and_keys() {
    has_block::<Sha256>(64);
    has_block::<Sha512>(128);
    has_block::<Blake2b512>(128);
    has_block::<Blake2s256>(64);
    has_block::<Blake3>(64);
    has_block::<HmacSha256>(64);
    has_block::<HmacSha512>(128);
    has_block::<HmacBlake2b512>(128);
    has_block::<HmacBlake2s256>(64);
    has_block::<Blake2bMac512>(128);
    has_block::<Blake2sMac256>(64);
    has_block::<Blake3Mac>(64);
    has_key::<HmacSha256>(64);
    has_key::<HmacSha512>(128);
    has_key::<HmacBlake2b512>(128);
    has_key::<HmacBlake2s256>(64);
    has_key::<Blake2bMac512>(64);
    has_key::<Blake2sMac256>(32);
    has_key::<Blake3Mac>(32);
}

#[test]
fn nothing_is_shown() {
    let mut hasher = Blake3::default();
    Update::update(&mut hasher, b"secret");
    assert_eq!(format!("{hasher:?}"), "Blake3 { .. }");
    let mac = <HmacSha256 as Mac>::new_from_slice(b"secret").unwrap();
    assert_eq!(format!("{mac:?}"), "HmacSha256 { .. }");
    let mac = <Blake2sMac256 as Mac>::new_from_slice(b"secret").unwrap();
    assert_eq!(format!("{mac:?}"), "Blake2s { .. }");
}
