// SPDX-License-Identifier: MIT OR Apache-2.0
use core::fmt;

/// Why a call was refused. A refused call has written nothing.
#[derive(Clone, Copy, Debug, PartialEq, Eq)]
#[non_exhaustive]
pub enum Refusal {
    /// The function has no output of that length.
    DigestLength,
    /// The function takes no key or salt of that length.
    KeyLength,
    /// The message is longer than the function takes.
    InputTooLong,
    /// The output has no such bytes.
    EndOfOutput,
    /// The function takes no pieces of that length.
    PieceLength,
    /// The output is not as long as the digests of all pieces, or as the line.
    OutputLength,
    /// No hash has that number.
    NoHash,
    /// No line has that name.
    NoLine,
    /// No verdict has that number.
    NoVerdict,
    /// A status that this version of the crate does not know.
    Other(u32),
}

impl fmt::Display for Refusal {
    fn fmt(&self, f: &mut fmt::Formatter<'_>) -> fmt::Result {
        match self {
            Refusal::DigestLength => write!(
                f,
                "the function has no output of that length: SHA-256 and BLAKE3 have digests of 32 bytes, SHA-512 of \
                 64, BLAKE2b of 1 to 64, BLAKE2s of 1 to 32, and a tag has half of its bytes or more"
            ),
            Refusal::KeyLength => write!(
                f,
                "the function takes no key or salt of that length: BLAKE2b takes keys of up to 64 bytes, BLAKE2s of up \
                 to 32, and the second step of HKDF keys as long as a digest or longer"
            ),
            Refusal::InputTooLong => write!(f, "the message is longer than the function takes"),
            Refusal::EndOfOutput => write!(
                f,
                "the output has no such bytes: that of HKDF ends after 255 digests, that of BLAKE3 after 2^64 - 1 \
                 bytes"
            ),
            Refusal::PieceLength => write!(
                f,
                "the function takes no pieces of that length: a piece has 1 byte or more"
            ),
            Refusal::OutputLength => write!(
                f,
                "the output is not as long as the digests of all pieces, or as the line"
            ),
            Refusal::NoHash => write!(f, "no hash has that number"),
            Refusal::NoLine => write!(
                f,
                "no line has that name: it is empty, not UTF-8, holds NUL, or is too long"
            ),
            Refusal::NoVerdict => write!(f, "no verdict has that number"),
            Refusal::Other(status) => write!(f, "status {status}"),
        }
    }
}

#[cfg(feature = "std")]
impl std::error::Error for Refusal {}

#[cfg(feature = "std")]
impl From<Refusal> for std::io::Error {
    fn from(refusal: Refusal) -> Self {
        std::io::Error::new(std::io::ErrorKind::InvalidInput, refusal)
    }
}

/// What a status of the library means.
pub(crate) fn checked(status: u32) -> Result<(), Refusal> {
    match status {
        0 => Ok(()),
        1 => Err(Refusal::DigestLength),
        2 => Err(Refusal::KeyLength),
        3 => Err(Refusal::InputTooLong),
        5 => Err(Refusal::EndOfOutput),
        6 => Err(Refusal::PieceLength),
        7 => Err(Refusal::OutputLength),
        8 => Err(Refusal::NoHash),
        9 => Err(Refusal::NoLine),
        10 => Err(Refusal::NoVerdict),
        _ => Err(Refusal::Other(status)),
    }
}

#[cfg(test)]
mod tests {
    use super::*;

    #[test]
    fn statuses() {
        assert_eq!(checked(0), Ok(()));
        for status in [4, 11, u32::MAX] {
            assert_eq!(checked(status), Err(Refusal::Other(status)));
        }
    }
}
