//! Calls each function of the crate of Rust, and prints what it gives, for tests/library/library_python to compare.

use std::io::{self, ErrorKind, Read, Write};

use sums_hash::list::*;
use sums_hash::*;

/// A position that no 32 bits hold.
const FAR: u64 = (1 << 40) + 7;
/// A context that is longer than a block.
const CONTEXT: [u8; 100] = [b'c'; 100];

fn told(name: &str, bytes: &[u8]) {
    let digits: String = bytes.iter().map(|byte| format!("{byte:02x}")).collect();
    println!("{name} {digits}");
}

/// Compares the digests of up to 20 pieces of each length, and of a short one behind them, with those of each alone.
fn pieces_of_each_length() -> Result<(), Refusal> {
    let data: Vec<u8> = (0..21 * 65537u32).map(|i| (i.wrapping_mul(2654435761) >> 24) as u8).collect();
    let about = [1024, 4096, 65536].into_iter().flat_map(|middle| middle - 1..=middle + 1);
    for length in (1..=300).chain(about) {
        for end in (0..=20).flat_map(|count| [0, 1, length / 2, length - 1].map(|rest| count * length + rest)) {
            let of_each = |alone: fn(&mut [u8], &[u8]) -> Result<(), Refusal>, size: usize, out: &[u8]| {
                let mut want = vec![0; out.len()];
                let pieces = data[..end].chunks(length);
                want.chunks_mut(size).zip(pieces).try_for_each(|(digest, piece)| alone(digest, piece))?;
                assert_eq!(out, want, "{end} bytes in pieces of {length}");
                Ok(())
            };
            let count = data[..end].chunks(length).len();
            let mut out = vec![0; 64 * count];
            sha512_pieces(&mut out, &data[..end], length)?;
            of_each(|digest, piece| Ok(digest.copy_from_slice(&sha512(piece))), 64, &out)?;
            out.truncate(32 * count);
            sha256_pieces(&mut out, &data[..end], length)?;
            of_each(|digest, piece| Ok(digest.copy_from_slice(&sha256(piece))), 32, &out)?;
            blake2b_pieces(&mut out, 32, &data[..end], length)?;
            of_each(|digest, piece| blake2b(digest, piece, b""), 32, &out)?;
            blake2s_pieces(&mut out, 32, &data[..end], length)?;
            of_each(|digest, piece| blake2s(digest, piece, b""), 32, &out)?;
            blake3_pieces(&mut out, &data[..end], length)?;
            of_each(|digest, piece| blake3(digest, 0, piece), 32, &out)?;
        }
    }
    Ok(())
}

/// A message of all bytes comes to a writer in pieces of any length, and to `update` as one.
fn written() -> Result<(), Refusal> {
    let data: Vec<u8> = (0..200_000u32).map(|i| (i.wrapping_mul(2654435761) >> 24) as u8).collect();
    let (mut whole, mut pieces) = (Sha512::new(), Sha512::new());
    whole.update(&data)?;
    assert_eq!(pieces.write(&data[..70_000]).unwrap(), 70_000);
    pieces.write_all(&data[70_000..]).unwrap();
    pieces.flush().unwrap();
    assert_eq!(whole.finish(), sha512(&data));
    assert_eq!(pieces.finish(), sha512(&data));
    assert_eq!(std::io::Error::from(Refusal::InputTooLong).kind(), std::io::ErrorKind::InvalidInput);
    Ok(())
}

/// A reader that gives a byte at a time, is interrupted before each, and fails at the end.
struct Failing(&'static [u8], bool);

impl Read for Failing {
    fn read(&mut self, piece: &mut [u8]) -> io::Result<usize> {
        self.1 = !self.1;
        if self.1 {
            return Err(ErrorKind::Interrupted.into());
        }
        match self.0.read(&mut piece[..1])? {
            0 => Err(ErrorKind::TimedOut.into()),
            count => Ok(count),
        }
    }
}

/// A list is read, and its files are hashed, on a stack that has no room for a line of a list.
fn on_a_small_stack() -> Result<(), Refusal> {
    let list = std::env::temp_dir().join(format!("sums-hash-stack-{}", std::process::id()));
    let name = list.to_str().expect("a name in UTF-8");
    let lines = [Hash::Sha256, Hash::Blake2s, Hash::Blake3].map(|hash| tagged_line(hash, &[7; 32], name));
    std::fs::write(&list, lines.into_iter().collect::<Result<String, _>>()?).unwrap();
    let (path, small) = (list.clone(), std::thread::Builder::new().stack_size(64 << 10));
    let report = small.spawn(|| check(path, None, "/")).unwrap().join().unwrap().unwrap();
    assert_eq!(report.count(Verdict::Failed), 3);
    std::fs::remove_file(list).unwrap();
    Ok(())
}

/// A list of lines of each kind, in pieces of a byte, and from a reader that fails behind it.
fn lists() -> Result<(), Refusal> {
    const LIST: &[u8] = b"# list\n\\2e  a\\nb\r\n50  x\n\nSHA256 (x) = 2e\nBLAKE2s-8 (x y) = 50\n2E *last";
    let (mut state, mut line) = (ListState::new(Some(Hash::Blake2b)), ListLine::new());
    let mut told = vec![];
    for byte in LIST.chunks(1) {
        assert_eq!(state.read(byte, &mut line)?, 1);
        told.extend((line.meaning() != Meaning::None).then(|| format!("{line:?}")));
    }
    state.end(&mut line)?;
    told.push(format!("{line:?}"));
    state.end(&mut line)?;
    assert_eq!((line.meaning(), line.number()), (Meaning::None, 7));
    let entry = |number, name, digest: u8, hash: Hash| {
        let (hash, digest) = (format!("{hash:?}"), [digest]);
        format!("ListLine {{ number: {number}, meaning: Entry {{ name: {name:?}, digest: {digest:?}, hash: {hash} }} }}")
    };
    let other = |number, meaning| format!("ListLine {{ number: {number}, meaning: {meaning} }}");
    let entries = [entry(2, "a\nb", 0x2e, Hash::Blake2b), entry(3, "x", 0x50, Hash::Blake2b)];
    assert_eq!(told[..3], [other(1, "Skipped"), entries[0].clone(), entries[1].clone()]);
    assert_eq!(told[3..5], [other(4, "Skipped"), other(5, "Malformed")]);
    assert_eq!(told[5..], [entry(6, "x y", 0x50, Hash::Blake2s), entry(7, "last", 0x2e, Hash::Blake2b)]);

    let mut list = List::new(Failing(LIST, false), None);
    assert!(matches!(list.next(), Some(Err(Error::Malformed { line: 2, untagged: true }))));
    assert!(matches!(list.next(), Some(Err(Error::Malformed { line: 3, untagged: true }))));
    assert!(matches!(list.next(), Some(Err(Error::Malformed { line: 5, untagged: false }))));
    assert_eq!(list.next().unwrap().unwrap().name, "x y");
    assert!(matches!(list.next(), Some(Err(Error::Io(fault))) if fault.kind() == ErrorKind::TimedOut));
    assert!(list.next().is_none() && list.next().is_none());
    assert_eq!(list.skipped(), 2);
    let untagged = sums_hash::list::line(Hash::Sha256, &[7; 32], "a")?;
    let mut without = List::new(untagged.as_bytes(), None);
    let malformed = without.next().expect("a line").expect_err("a malformed line");
    assert!(matches!(malformed, Error::Malformed { line: 1, untagged: true }));
    assert_eq!(malformed.to_string(), "line 1 is malformed: it has no tag, and its hash has to be named");
    let mut whole = List::new(LIST, Some(Hash::Blake2b)).filter_map(Result::ok);
    assert_eq!(whole.by_ref().map(|entry| entry.line).collect::<Vec<_>>(), [2, 3, 6, 7]);
    assert!(whole.next().is_none());
    Ok(())
}

/// Lines, in memory of each length about theirs, and what has none.
fn lines() -> Result<(), Refusal> {
    let (digest, longest) = ([0xab; 32], "n".repeat(65536));
    for (hash, is_tagged, want) in [
        (Hash::Blake2b, false, format!("\\{}  a\\nb\n", "ab".repeat(32))),
        (Hash::Blake2b, true, format!("\\BLAKE2b-256 (a\\nb) = {}\n", "ab".repeat(32))),
        (Hash::Sha256, true, format!("\\SHA256 (a\\nb) = {}\n", "ab".repeat(32))),
    ] {
        let length = line_length(hash, is_tagged, 32, "a\nb");
        assert_eq!(length, Some(want.len()));
        assert_eq!(if is_tagged { tagged_line } else { line }(hash, &digest, "a\nb")?, want);
        for room in want.len() - 1..=want.len() + 1 {
            let mut out = vec![7; room];
            let written = write_line(&mut out, hash, is_tagged, &digest, "a\nb");
            let fits = room == want.len();
            assert_eq!(written, if fits { Ok(()) } else { Err(Refusal::OutputLength) });
            assert_eq!(out, if fits { want.clone().into_bytes() } else { vec![7; room] });
        }
    }
    for name in ["", "a\0b", &longest[..65_471], &longest] {
        assert_eq!(line_length(Hash::Sha256, false, 32, name), None);
        assert_eq!(line(Hash::Sha256, &digest, name), Err(Refusal::NoLine));
        assert_eq!(tagged_line(Hash::Sha256, &digest, name), Err(Refusal::NoLine));
    }
    assert_eq!(line(Hash::Sha256, &digest, &longest[..65_470])?.len(), 65_537);
    assert_eq!(line_length(Hash::Sha256, true, usize::MAX, "a"), None);
    assert_eq!(tagged_line(Hash::Sha512, &digest, "a"), Err(Refusal::DigestLength));
    assert_eq!(line(Hash::Blake2s, &[], "a"), Err(Refusal::DigestLength));

    let texts = ["OK", "FAILED", "MISSING", "UNREADABLE", "TOO LONG"];
    let verdicts = [Verdict::Ok, Verdict::Failed, Verdict::Missing, Verdict::Unreadable, Verdict::TooLong];
    for (verdict, text) in verdicts.into_iter().zip(texts) {
        assert_eq!(report(verdict, "\r")?, format!("\\r: {text}\n"));
        assert_eq!(report_length(verdict, &longest), Some(65_536 + 3 + text.len()));
        assert_eq!(write_report(&mut [], verdict, "a"), Err(Refusal::OutputLength));
    }
    assert_eq!(report(Verdict::Ok, &"n".repeat(65_537)), Err(Refusal::NoLine));
    Ok(())
}

/// The files of lists: inside of the folder and out of it, right, wrong, missing and a folder.
fn checked() -> Result<(), Box<dyn std::error::Error>> {
    let folder = std::env::temp_dir().join(format!("sums-hash-lists-{}", std::process::id()));
    std::fs::create_dir_all(folder.join("inner/deeper"))?;
    std::fs::write(folder.join("out"), "abc")?;
    std::fs::write(folder.join("inner/in"), "abc")?;
    let out = folder.join("out").to_str().unwrap().to_owned();
    let (right, wrong) = (sha256(b"abc"), sha256(b"ab"));
    let mut text = line(Hash::Sha256, &wrong, "in")? + &line(Hash::Sha256, &right, "none")?;
    text += &line(Hash::Sha256, &right, "deeper")?;
    text += "# comment\nmalformed\n2e  untagged\n";
    for name in ["in", "./in", "../out", "deeper/../in", "deeper/../../out", "..", "/", &out] {
        text += &tagged_line(Hash::Sha256, &right, name)?;
    }
    let list = folder.join("list");
    std::fs::write(&list, &text)?;
    let everywhere = check(&list, Some(Hash::Sha256), folder.join("inner"))?;
    let inside = check_inside(&list, Some(Hash::Sha256), folder.join("inner"))?;
    let counts = |report: &Report| {
        [Verdict::Ok, Verdict::Failed, Verdict::Missing, Verdict::Unreadable].map(|verdict| report.count(verdict))
    };
    assert_eq!((counts(&everywhere), everywhere.outside.len()), ([6, 1, 1, 3], 0));
    assert_eq!((counts(&inside), inside.outside.len()), ([2, 1, 1, 1], 6));
    for report in [everywhere, inside] {
        assert_eq!((report.malformed.as_slice(), report.untagged, report.skipped), (&[5, 6][..], true, 1));
        assert!(!report.is_ok());
    }
    for (text, is_ok) in [
        (line(Hash::Sha256, &right, "in")?, true),
        (line(Hash::Sha256, &right, "in")? + "\n# end", true),
        (line(Hash::Sha256, &right, "in")? + "x", false),
        (line(Hash::Sha256, &right, "../out")?, false),
        (line(Hash::Sha256, &wrong, "in")?, false),
        ("# no entry\n".to_owned(), false),
        (String::new(), false),
    ] {
        std::fs::write(&list, &text)?;
        assert_eq!(check_inside(&list, Some(Hash::Sha256), folder.join("inner"))?.is_ok(), is_ok, "{text}");
    }
    let fault = check(folder.join("none"), None, &folder).unwrap_err();
    assert!(matches!(fault, Error::Io(fault) if fault.kind() == ErrorKind::NotFound));
    std::fs::remove_dir_all(&folder)?;
    for (name, hash) in [("sha256", Hash::Sha256), ("blake2b", Hash::Blake2b), ("blake3", Hash::Blake3)] {
        assert_eq!((Hash::named(name), hash.to_string()), (Some(hash), name.to_owned()));
    }
    assert_eq!((Hash::named("SHA256"), Hash::named("")), (None, None));
    Ok(())
}

fn main() -> Result<(), Refusal> {
    let input: Vec<u8> = (0..1000).map(|i| (i % 251) as u8).collect();
    let (key, salt, personal) = (&input[..32], &input[40..56], &input[60..76]);
    let (short_salt, short_personal) = (&input[40..48], &input[60..68]);
    let key32: &[u8; 32] = key.try_into().unwrap();
    let (b_salt, b_personal) = (salt.try_into().unwrap(), personal.try_into().unwrap());
    let (s_salt, s_personal) = (short_salt.try_into().unwrap(), short_personal.try_into().unwrap());
    let pieces = || input.chunks(77);

    let mut out = [0; 20];
    blake2b(&mut out, &input, key)?;
    told("blake2b", &out);
    blake2b_salted(&mut out, &input, key, b_salt, b_personal)?;
    told("blake2b_salted", &out);
    blake2s(&mut out, &input, key)?;
    told("blake2s", &out);
    blake2s_salted(&mut out, &input, key, s_salt, s_personal)?;
    told("blake2s_salted", &out);
    for (name, mut hasher) in
        [("blake2b", Blake2b::new(20, key)?), ("blake2b_salted", Blake2b::salted(20, key, b_salt, b_personal)?)]
    {
        pieces().try_for_each(|piece| hasher.update(piece))?;
        hasher.clone().finish(&mut out)?;
        told(name, &out);
    }
    for (name, mut hasher) in
        [("blake2s", Blake2s::new(20, key)?), ("blake2s_salted", Blake2s::salted(20, key, s_salt, s_personal)?)]
    {
        pieces().try_for_each(|piece| hasher.update(piece))?;
        hasher.finish(&mut out)?;
        told(name, &out);
    }

    let mut out = [0; 100];
    blake3(&mut out, FAR, &input)?;
    told("blake3", &out);
    blake3_keyed(&mut out, FAR, &input, key32)?;
    told("blake3_keyed", &out);
    blake3_derive(&mut out, FAR, &input, &CONTEXT)?;
    told("blake3_derive", &out);
    for (name, mut hasher) in [
        ("blake3", Blake3::new()),
        ("blake3_keyed", Blake3::keyed(key32)),
        ("blake3_derive", Blake3::derive(&CONTEXT)),
    ] {
        for _ in 0..2 {
            pieces().try_for_each(|piece| hasher.update(piece))?;
            hasher.output(FAR, &mut out)?;
            told(name, &out);
            hasher.reset();
        }
    }

    told("blake3_hash", &blake3_hash(&input));
    told("sha256", &sha256(&input));
    told("sha512", &sha512(&input));
    let (mut short, mut long) = (Sha256::new(), Sha512::new());
    pieces().try_for_each(|piece| short.update(piece).and(long.update(piece)))?;
    told("sha256", &short.finish());
    told("sha512", &long.finish());

    macro_rules! keyed {
        ($name:literal, $hmac:ident, $hkdf:ident, $extract:ident, $expand:ident, $count:literal) => {
            let mut tag = [0; $count];
            $hmac(&mut tag, &input, key)?;
            told(concat!("hmac ", $name), &tag);
            $hkdf(&mut out, &input, salt, personal)?;
            told(concat!("hkdf ", $name), &out);
            let prk = $extract(&input, salt)?;
            told(concat!("extract ", $name), &prk);
            $expand(&mut out, &prk, personal)?;
            told(concat!("hkdf ", $name), &out);
        };
    }
    keyed!("sha256", hmac_sha256, hkdf_sha256, hkdf_extract_sha256, hkdf_expand_sha256, 32);
    keyed!("sha512", hmac_sha512, hkdf_sha512, hkdf_extract_sha512, hkdf_expand_sha512, 64);
    keyed!("blake2b", hmac_blake2b, hkdf_blake2b, hkdf_extract_blake2b, hkdf_expand_blake2b, 64);
    keyed!("blake2s", hmac_blake2s, hkdf_blake2s, hkdf_extract_blake2s, hkdf_expand_blake2s, 32);
    macro_rules! keyed_pieces {
        ($name:literal, $Hmac:ident, $count:literal) => {
            let (mut hasher, mut tag) = ($Hmac::new(key)?, [0; $count]);
            pieces().try_for_each(|piece| hasher.update(piece))?;
            hasher.clone().finish(&mut tag)?;
            told(concat!("hmac ", $name), &tag);
        };
    }
    keyed_pieces!("sha256", HmacSha256, 32);
    keyed_pieces!("sha512", HmacSha512, 64);
    keyed_pieces!("blake2b", HmacBlake2b, 64);
    keyed_pieces!("blake2s", HmacBlake2s, 32);

    let mut digests = [0; 32 * 13];
    sha256_pieces(&mut digests, &input, 77)?;
    told("sha256_pieces", &digests);
    let mut long_digests = [0; 64 * 13];
    sha512_pieces(&mut long_digests, &input, 77)?;
    told("sha512_pieces", &long_digests);
    blake3_pieces(&mut digests, &input, 77)?;
    told("blake3_pieces", &digests);
    blake2b_pieces(&mut digests[..20 * 13], 20, &input, 77)?;
    told("blake2b_pieces", &digests[..20 * 13]);
    blake2s_pieces(&mut digests[..20 * 13], 20, &input, 77)?;
    told("blake2s_pieces", &digests[..20 * 13]);
    pieces_of_each_length()?;
    written()?;
    on_a_small_stack()?;
    lists()?;
    lines()?;
    checked().unwrap();

    for refusal in [
        Blake2b::new(65, b"").err(),
        Blake2s::new(32, &input[..33]).err(),
        Blake3::new().output(u64::MAX, &mut out).err(),
        hkdf_expand_sha256(&mut out, &key[1..], b"").err(),
        sha256_pieces(&mut digests, &input, 0).err(),
        blake3_pieces(&mut digests, &input, 76).err(),
        blake2b_pieces(&mut digests, 65, &input, 0).err(),
        blake2s_pieces(&mut digests, 20, &input, 77).err(),
        blake2s_pieces(&mut digests, 33, &input, 77).err(),
        Blake2b::new(20, key)?.finish(&mut out[..19]).err(),
        Blake2s::new(20, key)?.finish(&mut out[..21]).err(),
        HmacSha256::new(key)?.finish(&mut out[..15]).err(),
        HmacSha256::new(key)?.finish(&mut out[..33]).err(),
    ] {
        println!("refused {}", refusal.map_or("nothing".into(), |refusal| format!("{refusal:?}: {refusal}")));
    }
    println!("refused InputTooLong: {}", Refusal::InputTooLong);
    Ok(())
}
