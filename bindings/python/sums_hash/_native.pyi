# SPDX-License-Identifier: MIT OR Apache-2.0
# The types and the texts of native/, for checkers of types and for editors.
import sys
from typing import Any, ClassVar, Self, final

if sys.version_info >= (3, 12):
    from collections.abc import Buffer as _Buffer
else:
    _Buffer = Any

class Refused(ValueError):
    """A call that was refused; `status` is the library's number."""
    status: int
    def __init__(self, status: int) -> None: ...

class _Hasher:  # what the types have in common; the module has no such class
    name: ClassVar[str]
    block_size: ClassVar[int]
    def update(self, data: _Buffer, /) -> None:
        """Adds a piece to the message."""
    def reset(self) -> None:
        """Forgets the message. Key, salt and digest_size stay."""
    def copy(self) -> Self:
        """Another object of the same message."""
    def __copy__(self) -> Self:
        """Another object of the same message."""
    def __deepcopy__(self, memo: Any, /) -> Self:
        """Another object of the same message."""

class _Hash(_Hasher):
    def digest(self) -> bytes:
        """The digest of the message so far, which can go on."""
    def hexdigest(self) -> str:
        """The digest in hexadecimal digits."""

class _Sha2(_Hash):
    digest_size: ClassVar[int]
    def __init__(self, data: _Buffer = b"", *, usedforsecurity: bool = True, string: _Buffer = b"") -> None: ...

class sha256(_Sha2):
    """SHA-256 (FIPS 180-4), as hashlib.sha256."""

class sha512(_Sha2):
    """SHA-512 (FIPS 180-4), as hashlib.sha512."""

class _Blake2(_Hash):
    MAX_DIGEST_SIZE: ClassVar[int]
    MAX_KEY_SIZE: ClassVar[int]
    SALT_SIZE: ClassVar[int]
    PERSON_SIZE: ClassVar[int]
    @property
    def digest_size(self) -> int:
        """The bytes of a digest."""
    def __init__(
        self, data: _Buffer = b"", /, *, digest_size: int | None = None, key: _Buffer = b"", salt: _Buffer = b"",
        person: _Buffer = b"", fanout: int = 1, depth: int = 1, leaf_size: int = 0, node_offset: int = 0,
        node_depth: int = 0, inner_size: int = 0, last_node: bool = False, usedforsecurity: bool = True,
    ) -> None: ...

class blake2b(_Blake2):
    """BLAKE2b (RFC 7693), as hashlib.blake2b without its trees."""

class blake2s(_Blake2):
    """BLAKE2s (RFC 7693), as hashlib.blake2s without its trees."""

class blake3(_Hasher):
    """BLAKE3: the hash, under a key of 32 bytes, or of key material for a context, a text of the application.
    It is one thread, whatever max_threads says.
    """
    digest_size: ClassVar[int]
    key_size: ClassVar[int]
    MAX_KEY_SIZE: ClassVar[int]
    AUTO: ClassVar[int]
    def __init__(
        self, data: _Buffer = b"", /, *, key: _Buffer | None = None, derive_key_context: str | None = None,
        max_threads: int = 1, usedforsecurity: bool = True,
    ) -> None: ...
    def digest(self, length: int = 32, *, seek: int = 0) -> bytes:
        """So many bytes of the output, from the byte `seek` on."""
    def hexdigest(self, length: int = 32, *, seek: int = 0) -> str:
        """Bytes of the output, as digest() gives them, in hexadecimal digits."""

class _Hmac(_Hasher):
    digest_size: ClassVar[int]
    def __init__(self, key: _Buffer, msg: _Buffer | None = None, *, usedforsecurity: bool = True) -> None: ...
    def digest(self, length: int | None = None) -> bytes:
        """The tag of the message so far, or its first bytes, half of them at least. Compare it by
        hmac.compare_digest.
        """
    def hexdigest(self, length: int | None = None) -> str:
        """The tag, as digest() gives it, in hexadecimal digits."""

class hmac_sha256(_Hmac):
    """HMAC (RFC 2104) over SHA-256, as hmac.new(key, msg, "sha256")."""

class hmac_sha512(_Hmac):
    """HMAC (RFC 2104) over SHA-512, as hmac.new(key, msg, "sha512")."""

class hmac_blake2b(_Hmac):
    """HMAC (RFC 2104) over BLAKE2b of 64 bytes, as hmac.new(key, msg, "blake2b")."""

class hmac_blake2s(_Hmac):
    """HMAC (RFC 2104) over BLAKE2s of 32 bytes, as hmac.new(key, msg, "blake2s")."""

def hmac_digest(key: _Buffer, msg: _Buffer, digest: str) -> bytes:
    """The tag of a whole message, as hmac.digest(key, msg, digest); `digest` is "sha256", "sha512", "blake2b" or
    "blake2s".
    """

def hkdf(
    name: str, material: _Buffer, length: int, *, salt: _Buffer | None = b"", info: _Buffer | None = b"",
) -> bytes:
    """A key of so many bytes, by HKDF (RFC 5869) over "sha256", "sha512", "blake2b" or "blake2s"."""

def hkdf_extract(name: str, material: _Buffer, *, salt: _Buffer | None = b"") -> bytes:
    """The pseudorandom key, as long as a digest."""

def hkdf_expand(name: str, prk: _Buffer, length: int, *, info: _Buffer | None = b"") -> bytes:
    """A key of so many bytes, of a pseudorandom key that is as long as a digest or longer."""

def sha256_pieces(data: _Buffer, piece_len: int) -> bytes:
    """The digests of the pieces of data by SHA-256 (FIPS 180-4), of 32 bytes each, one after the other.
    Every piece has piece_len bytes, and the last may have fewer; empty data has no pieces.
    """

def sha512_pieces(data: _Buffer, piece_len: int) -> bytes:
    """The digests of the pieces of data by SHA-512 (FIPS 180-4), of 64 bytes each, one after the other.
    Every piece has piece_len bytes, and the last may have fewer; empty data has no pieces.
    """

def blake2b_pieces(data: _Buffer, piece_len: int, digest_size: int = 64) -> bytes:
    """The digests of the pieces of data by BLAKE2b (RFC 7693), of digest_size bytes each, one after the other.
    Every piece has piece_len bytes, and the last may have fewer; empty data has no pieces.
    """

def blake2s_pieces(data: _Buffer, piece_len: int, digest_size: int = 32) -> bytes:
    """The digests of the pieces of data by BLAKE2s (RFC 7693), of digest_size bytes each, one after the other.
    Every piece has piece_len bytes, and the last may have fewer; empty data has no pieces.
    """

def blake3_pieces(data: _Buffer, piece_len: int) -> bytes:
    """The digests of the pieces of data by BLAKE3, of 32 bytes each, one after the other.
    Every piece has piece_len bytes, and the last may have fewer; empty data has no pieces.
    """

@final
class ListState:
    """A list of digests that is read. Untagged lines are of the hash of this number, or with 0 malformed."""
    def __init__(self, hash: int) -> None: ...
    def read(self, data: _Buffer, start: int, /) -> tuple[int, int, int, Any, Any, Any]:
        """Reads a piece of the list, from the byte `start` up to its first LF. It returns how many bytes were read,
        what the line is (SUMS_LINE_..), its number, and of an entry the number of the hash, the digest and the name.
        """
    def end(self, /) -> tuple[int, int, int, Any, Any, Any]:
        """Reads the last line, if no LF ended it. It returns the same."""

def list_line(hash: int, is_tagged: bool, digest: _Buffer, name: str, /) -> bytes:
    """The line of a list with this digest of the hash of this number, and its LF."""

def list_report(verdict: int, name: str, /) -> bytes:
    """The line of a report with the verdict of this number, and its LF."""
